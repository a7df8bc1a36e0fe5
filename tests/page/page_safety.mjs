// Tests of what the safe brush asks of a session, by brute force on small pictures.
// Run: node --test tests/page/page_safety.mjs
import assert from 'node:assert/strict';
import {test} from 'node:test';
import '../../page/test/limits.mjs';

const {askMarks, goalOf, safePlaces} = await import('../../page/engine/safety.js');

const clueOf = (line) => line.split('.').filter(Boolean).map((run) => run.length).join();
const cluesOf = (rows
) => [...rows, ...[...rows[0]].map((_, col) => rows.map((row) => row[col]).join(''))].map(clueOf
).join(';');

// All pictures of 3 by 3 cells in two colours, how many have the same clues.
const ALL = Array.from({length: 512}, (_, bits) => {
  const flat = Array.from({length: 9}, (_one, at) => '.a'[(bits >> at) & 1]).join('');
  return [0, 3, 6].map((from) => flat.slice(from, from + 3));
});
const COUNTS = new Map();
for (const rows of ALL) COUNTS.set(cluesOf(rows), (COUNTS.get(cluesOf(rows)) ?? 0) + 1);
const isUnique = (rows) => COUNTS.get(cluesOf(rows)) === 1;

// A session that paints, and judges by counting.
function sessionOn(rows) {
  let picture = rows.map((row) => [...row]);
  const answer = (line) => {
    const [word, row, col, letter] = line.split(' ');
    if (word === 'paint') picture[row - 1][col - 1] = letter;
    const isOne = isUnique(picture.map((one) => one.join('')));
    return word === 'verdict' ? {kind: 'verdict', word: isOne ? 'unique' : 'ambiguous'} :
                                {kind: 'ok'};
  };
  return {
    say: async (...lines) => lines.map(answer),
    picture: () => picture.map((row) => row.join(''))
  };
}
const painted = (rows, place, letter) => rows.map(
    (row, at) =>
        (at === Math.floor(place / 3) ?
             row.slice(0, place % 3) + letter + row.slice(place % 3 + 1) :
             row)
);

test('a puzzle has what lines solve, or one solution, or neither', () => {
  assert.equal(goalOf({verdict: {word: 'unique'}, open: 0}), 'lines');
  assert.equal(goalOf({verdict: {word: 'unique'}, open: 2}), 'unique');
  assert.equal(goalOf({verdict: {word: 'undecided'}, open: 2}), null);
});

test('each cell is marked as counting says, and the copy is as before', async () => {
  for (const picture of ALL.filter(isUnique)) {
    const copy = sessionOn(picture);
    const state = {picture, columns: 3};
    const marks = new Map();
    await askMarks(
        copy,
        state,
        {places: [...Array(9).keys()], letter: 'a', goal: 'unique'},
        (some) => {
          for (const [place, mark] of some) marks.set(place, mark);
        }
    );
    for (const [place, mark] of marks)
      assert.equal(mark === 'safe', isUnique(painted(picture, place, 'a')), `${picture} ${place}`);
    assert.equal(marks.size, picture.join('').split('.').length - 1, 'those of another colour');
    assert.deepEqual(copy.picture(), picture);
  }
});

test('each cell of a stroke is safe after those before it', async () => {
  for (const picture of ALL.filter(isUnique)) {
    const places = [4, 0, 8, 2];
    const found = await safePlaces(
        sessionOn(picture), {picture, columns: 3}, {places, letter: 'a', goal: 'unique'}
    );
    let now = picture;
    const wanted = places.filter((place) => {
      const next = painted(now, place, 'a');
      if (next.join() === now.join() || !isUnique(next)) return false;
      now = next;
      return true;
    });
    assert.deepEqual(found, wanted);
  }
});

test('what is not decided is a mark of its own, but where lines are to solve it', async () => {
  const say = async (...lines) =>
      lines.map((line) => ({word: line === 'verdict' ? 'undecided' : 'ok'}));
  for (const [goal, mark] of [['unique', 'undecided'], ['lines', 'breaks']]) {
    const marks = [];
    const asked = {places: [1], letter: 'a', goal};
    await askMarks({say}, {picture: ['..'], columns: 2}, asked, (some) => marks.push(...some));
    assert.deepEqual(marks, [[1, mark]]);
  }
});
