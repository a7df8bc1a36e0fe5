// Tests of the line logic by which repairs are searched for: against brute force over all fillings
// of short lines, and of its clues. Run: node --test tests/page/repair_lines.mjs
import assert from 'node:assert/strict';
import {test} from 'node:test';
import {Board, LETTERS, cellsOf} from '../../page/repair/board.js';
import {clueOf, narrow} from '../../page/repair/lines.js';
import {Narrowing} from '../../page/repair/narrowing.js';

// Numbers below a bound, the same each time.
function random(seed) {
  let state = seed;
  return (below) => (state = (state * 48271) % 2147483647) % below;
}

// All lines of a length over so many colours, each with the text of its clue.
function* allLines(length, colours) {
  for (let code = 0; code < colours ** length; code++) {
    const cells = Array.from({length}, (_, at) => Math.floor(code / colours ** at) % colours);
    yield {cells, clue: JSON.stringify(clueOf(cells))};
  }
}

// What brute force finds: the colours of each cell in some filling that has the clue and keeps to
// the candidates.
function listed(lines, masks, clue) {
  const wanted = JSON.stringify(clue);
  const found = masks.map(() => 0);
  for (const {cells, clue: its} of lines) {
    if (its !== wanted || !cells.every((colour, at) => (masks[at] >> colour) & 1)) continue;
    cells.forEach((colour, at) => {
      found[at] |= 1 << colour;
    });
  }
  return found;
}

test('a clue is the runs of each colour that is not the background', () => {
  assert.deepEqual(clueOf([0, 1, 1, 0, 1, 2, 2, 0]), {lengths: [2, 1, 2], colours: [1, 1, 2]});
  assert.deepEqual(clueOf([0, 0]), {lengths: [], colours: []});
});

test('a line keeps exactly what some filling of it has, by brute force', () => {
  const next = random(7);
  let [narrowed, dead] = [0, 0];
  for (const [length, colours] of [[1, 2], [2, 3], [5, 3], [6, 3], [8, 2], [9, 2], [5, 4]]) {
    const lines = [...allLines(length, colours)];
    for (let turn = 0; turn < 600; turn++) {
      const {cells} = lines[next(lines.length)];
      const masks =
          cells.map((colour) => (1 + next(2 ** colours - 1)) | (next(20) === 0 ? 0 : 1 << colour));
      const [clue, out] = [clueOf(cells), new Uint16Array(length)];
      const wanted = listed(lines, masks, clue);
      assert.equal(narrow(masks, length, clue, out), wanted.some((mask) => mask !== 0));
      assert.deepEqual([...out], wanted, `${masks} with ${JSON.stringify(clue)}`);
      if (wanted.every((mask) => mask === 0))
        dead++;
      else if (wanted.some((mask, at) => mask !== masks[at]))
        narrowed++;
    }
  }
  assert.ok(narrowed > 1000 && dead > 50, `${narrowed} narrowed, ${dead} dead`);
});

test('a clue that is longer than the line has no filling', () => {
  assert.equal(
      narrow(new Uint16Array(3).fill(3), 3, {lengths: [2, 1], colours: [1, 1]}, new Uint16Array(3)),
      false
  );
  assert.equal(
      narrow(new Uint16Array(3).fill(7), 3, {lengths: [2, 1], colours: [1, 2]}, new Uint16Array(3)),
      true
  );
});

test('line logic ends where the cases of grades say, and given cells are their colours', () => {
  const boardOf = (rows, givens = []) =>
      new Board({rows: rows.length, columns: rows[0].length, cells: cellsOf(rows), givens});
  const left = (board, more = {}) => {
    const {masks} = new Narrowing(board, more).settle();
    return Array.from(
        {length: board.rows},
        (_, row) => Array
                        .from(
                            masks.subarray(row * board.columns, (row + 1) * board.columns),
                            (mask) => (mask & (mask - 1) ? '?' : LETTERS[31 - Math.clz32(mask)])
                        )
                        .join('')
    );
  };
  assert.deepEqual(left(boardOf(['.a.', 'aa.', '...'])), ['.a.', 'aa.', '...']);
  const guess = boardOf(['.aa.', 'a..a', 'a..a']);
  assert.deepEqual(left(guess), ['????', 'a..a', '????']);
  assert.deepEqual(new Narrowing(guess).settle().openCells(), [0, 1, 2, 3, 8, 9, 10, 11]);
  assert.deepEqual(left(guess, {givens: [0]}), ['.aa.', 'a..a', 'a..a'], 'with the corner given');
  assert.deepEqual(
      left(boardOf(['.aa.', 'a..a', 'a..a'], [0])),
      ['.aa.', 'a..a', 'a..a'],
      'as the board gives it'
  );
  assert.deepEqual(new Narrowing(guess).openCells().length, 12, 'before a look');
});
