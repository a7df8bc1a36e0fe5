// Tests of the search for a grade, and for what is known later, on small pictures: all repaints of
// one cell, against brute force over what the module says of each. Run: node --test
// tests/page/aiming_small.mjs
import assert from 'node:assert/strict';
import {test} from 'node:test';
import {engine, hasModule, needsModule} from '../../page/test/worker.mjs';
import {baseOf} from '../../page/document/cover.js';
import {fallsOf, pathIn} from '../../page/engine/serve.js';
import {LINE_WORDS, farFrom} from '../../page/repair/aiming.js';
import {Board, LETTERS, cellsOf} from '../../page/repair/board.js';
import {stepHalfKnown} from '../../page/repair/later.js';
import {aim, delay} from '../../page/repair/repair.js';
import {waits} from '../waits.mjs';

const module = hasModule ? await engine() : null;
const skip = needsModule.skip || waits('0.8.0');
const [ROWS, COLUMNS] = [6, 8];

function random(seed) {
  let state = seed;
  return (below) => (state = (state * 48271) % 2147483647) % below;
}

const cellsBy = (next) => Uint8Array.from(
    {length: ROWS * COLUMNS},
    () =>
        (next(5) < 3       ? 1 :
             next(8) === 0 ? 2 :
                             0)
);
const pictureOf = (cells) => Array.from(
    {length: ROWS},
    (_, row) =>
        Array.from(
                 cells.subarray(row * COLUMNS, (row + 1) * COLUMNS), (colour) => LETTERS[colour]
        ).join('')
);
const textOf = (cells) =>
    `P3 ${COLUMNS} ${ROWS} 15\n${[...cells].map((colour) => `${colour} 0 0`).join('\n')}\n`;
const BACKGROUND = '0,0,0';
const placeOf = (index) => [Math.floor(index / COLUMNS) + 1, (index % COLUMNS) + 1];
// What the module says of a picture: the cells that line logic leaves open, and the figures where
// it leaves none.
function said(cells, givens = []) {
  const {open, grade} = module.assess(
      textOf(cells), {background: BACKGROUND, published: givens.map(placeOf), allowance: 0}
  );
  return {...grade, open, word: open ? null : grade.word};
}
const wordOf = (cells, givens) => said(cells, givens).word;

async function aimed(cells, word, more = {}, others = {}) {
  const [repaints, givens] = [[], []];
  const board = new Board({rows: ROWS, columns: COLUMNS, cells, ...more});
  const colours = [0, 1, 2].map((red) => [red, 0, 0]);
  const base = baseOf({
    rows: ROWS,
    columns: COLUMNS,
    maxval: 15,
    colours,
    picture: pictureOf(cells),
    givens: new Set()
  });
  const bench = module.open(base.text, {background: base.background});
  const say = (lines) => bench.say(lines.map((line) => `${line}\n`).join(''));
  say(base.lines);
  const path = () => fallsOf(say, board);
  const result = await aim({board, word, say, path, grade: said, seconds: Infinity, ...others}, {
    found: (one) => (one.given ? givens.push(one.given) : repaints.push(one.cells))
  });
  bench.close();
  return {board, repaints, givens, result};
}

const painted = (cells, changes) => {
  const other = cells.slice();
  for (const {index, colour} of changes) other[index] = colour;
  return other;
};
const besides = (index) => [index - COLUMNS,
                            index + COLUMNS,
                            ...(index % COLUMNS ? [index - 1] : []),
                            ...((index + 1) % COLUMNS ? [index + 1] : [])]
                               .filter((one) => one >= 0 && one < ROWS * COLUMNS);

// All repaints of one cell that the damage rule allows, and after which something is so.
function singles(cells, board, isSo) {
  const found = [];
  for (let index = 0; index < cells.length; index++) {
    for (const colour of new Set(besides(index).map((one) => cells[one]))) {
      const other = painted(cells, [{index, colour}]);
      if (colour !== cells[index] && !board.makesLone(other, index) && isSo(other))
        found.push(`${index} ${colour}`);
    }
  }
  return found;
}

test(
    'figures are no distance from their own word, and farther from one the more they miss it',
    () => {
      const figures = (rounds, wait, word, open = 0) => ({rounds, wait, word, open});
      for (const [rounds, wait, word] of [
               [2, 8, 'easy'],
               [3, 8, 'medium'],
               [4, 15, 'medium'],
               [5, 1, 'hard'],
               [1, 16, 'hard']]) {
        for (const one of LINE_WORDS)
          assert.equal(
              farFrom(figures(rounds, wait, word), one) === 0,
              one === word,
              `${rounds} ${wait} ${one}`
          );
      }
      const isNearer = (one, other, word) =>
          assert.ok(farFrom(one, word) < farFrom(other, word), word);
      isNearer(figures(3, 8, 'medium'), figures(4, 8, 'medium'), 'easy');
      isNearer(figures(2, 9, 'medium'), figures(2, 14, 'medium'), 'easy');
      isNearer(figures(2, 3, 'easy'), figures(1, 3, 'easy'), 'medium');
      isNearer(figures(4, 3, 'medium'), figures(3, 3, 'medium'), 'hard');
      isNearer(figures(5, 3, 'hard'), figures(6, 3, 'hard'), 'medium');
      isNearer(figures(9, 60, 'hard'), figures(2, 2, null, 1), 'easy');
    }
);

test(
    'repaints of one cell are those of brute force; each of more cells has the word; none is given',
    {skip},
    async () => {
      const next = random(11);
      const met = {single: 0, more: 0, none: 0};
      for (let turn = 0; turn < 20;) {
        const cells = cellsBy(next);
        const own = wordOf(cells);
        if (own === null) continue;
        turn++;
        for (const word of LINE_WORDS.filter((one) => one !== own)) {
          const {board, repaints, givens, result} = await aimed(cells, word);
          assert.deepEqual([result.isThere, result.isThrough], [false, true]);
          const single = singles(cells, board, (other) => wordOf(other) === word);
          if (single.length) {
            assert.deepEqual(
                repaints.map(([{index, colour}]) => `${index} ${colour}`).sort(), single.sort()
            );
            assert.ok(repaints.every((one) => one.length === 1));
            met.single++;
          } else {
            for (const one of repaints) {
              assert.ok(one.length > 1 && one.length <= 4);
              assert.equal(wordOf(painted(cells, one)), word);
            }
            if (repaints.length)
              met.more++;
            else
              met.none++;
          }
          assert.deepEqual(givens, []);  // lines settle all, so no cell needs to be given
        }
      }
      assert.ok(Object.values(met).every((count) => count > 0), JSON.stringify(met));
    }
);

test(
    'from a picture with open cells, too; a picture that has the word is told',
    {skip},
    async () => {
      const next = random(23);
      let met = 0;
      for (let turn = 0; turn < 12;) {
        const cells = cellsBy(next);
        const own = wordOf(cells);
        if (own !== null) {
          assert.deepEqual((await aimed(cells, own)).result, {isThere: true, isThrough: true});
          continue;
        }
        turn++;
        const {repaints, givens} = await aimed(cells, 'medium');
        for (const one of repaints) assert.equal(wordOf(painted(cells, one)), 'medium');
        for (const one of givens) assert.equal(wordOf(cells, one), 'medium');
        if (repaints.length || givens.length) met++;
      }
      assert.ok(met > 1, `${met}`);
    }
);

test('locks and symmetry are heeded', {skip}, async () => {
  const next = random(31);
  let met = 0;
  for (let turn = 0; turn < 300 && met < 12; turn++) {
    const half = cellsBy(next);
    const cells = half.map(
        (_, index) => half
            [Math.floor(index / COLUMNS) * COLUMNS +
             Math.min(index % COLUMNS, COLUMNS - 1 - (index % COLUMNS))]
    );
    const own = wordOf(cells);
    if (own === null) continue;
    const {repaints} = await aimed(
        cells,
        own === 'medium' ? 'easy' : 'medium',
        {mirror: 'x', lockedCells: [...Array(COLUMNS).keys()]}
    );
    for (const one of repaints) {
      const rows = pictureOf(painted(cells, one));
      assert.deepEqual(rows.map((row) => [...row].reverse().join('')), rows);
      assert.ok(one.every(({index}) => index >= COLUMNS), 'the first row is locked');
      met++;
    }
  }
  assert.ok(met >= 12);
});

test(
    'who grades is asked alone: another one that answers later takes its place',
    {skip},
    async () => {
      const cells = cellsOf(['aaaaaaaa', ...Array(5).fill('a.......')]);
      const asked = [];
      const grade = async (candidate) => {
        asked.push(candidate.slice());
        return {rounds: 1, wait: 1, open: 0, word: candidate[COLUMNS + 1] === 1 ? 'hard' : 'easy'};
      };
      const {repaints} = await aimed(cells, 'hard', {}, {grade});
      assert.deepEqual(repaints, [[{index: COLUMNS + 1, colour: 1}]]);
      assert.ok(asked.length > 10);
    }
);

// ---- known later

test('half of some places is known with the step that settles enough of them', () => {
  const steps = [[0, 1], [], [2], [3, 4]].map((all) => ({falls: all.map((index) => ({index}))}));
  for (const [places, known, wanted] of [
           [[0], [], 1],
           [[2], [], 3],
           [[0, 3], [], 1],
           [[2, 3, 4], [], 4],
           [[3, 5], [], 4],
           [[5], [], Infinity],
           [[3, 5, 6], [], Infinity],
           [[4, 5], [5], 0]])
    assert.equal(stepHalfKnown(steps, places, new Set(known)), wanted, `${places} ${known}`);
});

// Where line logic solves a picture, at which share of its looks half of some places is known, in
// percent; else -1. It is read from the session's text.
function shareIn(cells, places) {
  const bench = module.open(textOf(cells), {background: BACKGROUND});
  const lines = bench.say('path\n').trim().split('\n');
  bench.close();
  if (lines.pop() !== 'open 0') return -1;
  let left = Math.ceil(places.size / 2);
  for (const [at, line] of lines.entries()) {
    const [axis, number] = line.split(' ');
    for (const [, place] of line.split(' given ')[0].matchAll(/ (\d+)=/g)) {
      const [one, other] = [Number(number) - 1, Number(place) - 1];
      if (places.has(axis === 'r' ? one * COLUMNS + other : other * COLUMNS + one)) left--;
    }
    if (left <= 0) return Math.round(100 * (at + 1) / lines.length);
  }
  return -1;
}

async function delayed(cells, places, more = {}) {
  const board = new Board({rows: ROWS, columns: COLUMNS, cells, ...more});
  const [found, begun] = [[], []];
  const say = () => assert.fail('the session is not asked');
  await delay(
      {board, places, say, path: pathIn(module, board), seconds: 0.02},
      {begun: (share) => begun.push(share), found: (one) => found.push(one)}
  );
  return {board, found, begun};
}

test(
    'what is known later is so by what the module tells, and all repaints of one cell are found',
    {skip: needsModule.skip},
    async () => {
      const next = random(17);
      const met = {single: 0, more: 0};
      for (let turn = 0; turn < 12;) {
        const cells = cellsBy(next);
        const [top, left] = [next(ROWS - 2), next(COLUMNS - 2)];
        const places = new Set(
            [0, 1, 2].flatMap((row) => [0, 1, 2].map((col) => (top + row) * COLUMNS + left + col))
        );
        const now = shareIn(cells, places);
        if (now < 0) continue;
        turn++;
        const isLater = (other) => shareIn(other, places) >= now + 2;
        const {board, found, begun} = await delayed(cells, places);
        assert.deepEqual(begun, [now]);
        for (const one of found) {
          assert.equal(one.share, shareIn(painted(cells, one.cells), places));
          assert.ok(one.cells.length <= 4 && isLater(painted(cells, one.cells)));
        }
        const [ones, others] =
            [1, 2].map((size) => found.filter((one) => Math.min(2, one.cells.length) === size));
        assert.deepEqual(
            ones.map(({cells: [{index, colour}]}) => `${index} ${colour}`).sort(),
            singles(cells, board, isLater).sort()
        );
        const latest = Math.max(now, ...ones.map(({share}) => share));
        assert.ok(others.every(({share}) => share >= latest + 2), 'more cells are later still');
        met.single += ones.length;
        met.more += others.length;
      }
      assert.ok(met.single > 0 && met.more > 0, JSON.stringify(met));
    }
);

test('what is locked or given stays', {skip: needsModule.skip}, async () => {
  const next = random(41);
  let met = 0;
  for (let turn = 0; turn < 60 && met < 6; turn++) {
    const cells = cellsBy(next);
    const places = new Set([...Array(2 * COLUMNS).keys()]);
    if (shareIn(cells, places) < 0) continue;
    const givens = [COLUMNS * ROWS - 1];
    const {found} = await delayed(cells, places, {givens, lockedCells: [...places]});
    for (const {cells: changed} of found)
      assert.ok(changed.every(({index}) => !places.has(index) && !givens.includes(index)));
    met += found.length;
  }
  assert.ok(met > 5, `${met}`);
});
