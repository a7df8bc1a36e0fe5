// Tests of hints: who does only what they tell, and marks colours alone, solves each puzzle that
// lines solve; that a step follows from what the engine says it needs, against all fillings of its
// line; and how it is said. Run: node --test tests/page/page_hints.mjs
import assert from 'node:assert/strict';
import {readFileSync, readdirSync} from 'node:fs';
import {test} from 'node:test';
import {cluesOf} from '../../page/test/clues.mjs';
import {followed, puzzleOf} from '../../page/test/follower.mjs';
import {engine, hasModule, needsModule} from '../../page/test/worker.mjs';
import {isMet} from '../../page/play/crossing.js';
import {knownBy, stepOf} from '../../page/play/hinting.js';
import {blocksOf, cellsOf, narrowedBefore} from '../../page/play/lines.js';
import {Walk} from '../../page/play/path.js';
import {stepText} from '../../page/play/telling.js';
import {waits} from '../waits.mjs';
import {noise, ppmOf} from './page_trial.mjs';

const module = hasModule ? await engine() : null;
const skip = needsModule.skip || waits('0.8.0');

const textsIn = (folder) => {
  const at = new URL(`../../${folder}/`, import.meta.url);
  return readdirSync(at)
      .filter((name) => name.endsWith('.ppm'))
      .sort()
      .map((name) => [name, readFileSync(new URL(name, at), 'utf8')]);
};

// Pictures by chance: stripes of noise that is mostly one colour, so that many are solved by lines.
const chance = Array.from(
    {length: 40}, (_, seed) => [`chance ${seed}`, ppmOf(noise(9, 11, 'aa.aab.aa.', 11 + seed))]
);
const SMALL = 31;

test('who follows hints, and marks colours alone, solves what lines solve', {skip}, async () => {
  let solved = 0;
  for (const [name, text] of [...textsIn('examples'), ...textsIn('measure/pictures'), ...chance]) {
    const puzzle = puzzleOf(module, text);
    const {rows, columns, open} = puzzle.state;
    if (open || Math.max(rows, columns) > SMALL) continue;
    for (const marksBackground of [false, true]) {
      const {hints, left} = await followed(puzzle, marksBackground);
      assert.deepEqual(left, [], `${name}: ${hints} hints`);
    }
    solved++;
  }
  assert.ok(solved > 30, `${solved} are solved by lines`);
});

// ---- what a step needs

// All fillings of a line with a clue whose cells have one of the letters that each may have.
function fillings(blocks, may) {
  const found = [];
  const place = (cells, rest) => {
    if (!rest.length) {
      const whole = [...cells, ...Array(may.length - cells.length).fill('.')];
      if (whole.every((letter, at) => may[at].includes(letter))) found.push(whole);
      return;
    }
    const [{length, letter}, ...others] = rest;
    const gap = cells.at(-1) === letter ? 1 : 0;
    for (let from = cells.length + gap; from + length <= may.length; from++)
      place(
          [...cells, ...Array(from - cells.length).fill('.'), ...Array(length).fill(letter)], others
      );
  };
  place([], blocks);
  return found;
}

const settles = (blocks, size, letters, premises, falls) => {
  const may = Array.from({length: size}, () => letters);
  for (const {at, letters: left} of premises) may[at] = left;
  const all = fillings(blocks, may);
  return falls.every(({at, letter}) => all.every((cells) => cells[at] === letter));
};

test(
    'what a step needs settles its cells, but for those that crossing lines narrowed',
    {skip},
    () => {
      let seen = 0;
      for (const [name, text] of chance.slice(0, 12)) {
        const {state, ask} = puzzleOf(module, text);
        const letters = [...new Set(`.${state.picture.join('')}`)].join('');
        for (const step of ask(['path'])[0].looks) {
          if (!step.falls.length) continue;
          const cells = cellsOf(state, step.line);
          const within = (list) => list.map((one) => ({...one, at: cells.indexOf(one.index)}));
          const needs = within(step.needs);
          const blocks = blocksOf(state, step.line);
          const narrowed = narrowedBefore(state, step);
          for (const one of within(step.falls))
            assert.equal(
                settles(blocks, cells.length, letters, needs, [one]),
                !narrowed.includes(one.index),
                `${name}: ${step.line}`
            );
          if (needs.length) seen++;
        }
      }
      assert.ok(seen > 100);
    }
);

test('a line stands if the cells that were known before meet its clue', {skip}, () => {
  for (const [name, text] of chance.slice(0, 12)) {
    const {state, ask} = puzzleOf(module, text);
    const known = [...state.picture.join('')].map(() => '?');
    for (const {line, stands, falls} of ask(['path'])[0].looks) {
      const marks = cellsOf(state, line).map((index) => known[index]);
      assert.equal(stands, isMet(blocksOf(state, line), marks), `${name}: line ${line}`);
      for (const {index, letter} of falls) known[index] = letter;
    }
  }
});

// ---- in words

const stateOf = (rows, colours = [[255, 255, 255], [0, 0, 0], [255, 0, 0]]) => ({
  rows: rows.length,
  columns: rows[0].length,
  picture: rows,
  colours,
  maxval: 255,
  clues: cluesOf(rows),
  givens: new Set()
});

// A step of the only row of a picture: what falls and what it needs are rows, too, with ?
// elsewhere.
const placed =
    (row) => [...row].flatMap((letter, index) => (letter === '?' ? [] : [[index, letter]]));
const told = (row, falls, needs) => stepText(stateOf([row]), {
  line: 0,
  falls: placed(falls).map(([index, letter]) => ({index, letter})),
  needs: placed(needs).map(([index, letters]) => ({index, letters}))
});

test('a step tells colours, blocks by their names, and what it needs of its line', () => {
  for (const [row, falls, needs, wanted] of [
           [
             '.bbb.',
             '??b??',
             '?????',
             'column 3 is red, by overlap: the red 3 covers it wherever it lies'
           ],
           ['bb.aa', '?b?a?', '?????', 'column 2 is red and column 4 is black, by its clue alone'],
           [
             'aaabb',
             'aaabb',
             '?????',
             'columns 1–3 are black and columns 4–5 are red, as its blocks fill the line'
           ],
           [
             'bbb..',
             '??b?.',
             '?b???',
             'column 3 is red and column 5 is background, from the edge, since column 2 is red'
           ],
           [
             '...bb',
             '.??b?',
             '?.???',
             'column 4 is red and column 1 is background, since column 2 is background'
           ],
           ['a..aa.', '?.????', 'a?????', 'column 2 is background, since the black 1 is complete'],
           [
             '..bbb.',
             '???bb.',
             '?.b???',
             'columns 4–5 are red and column 6 is background, from the edge, since column 3 is red and column 2 is background'
           ],
           [
             '.bbb..',
             '.bb???',
             '???b.?',
             'columns 2–3 are red and column 1 is background, from the edge, since column 4 is red and column 5 is background'
           ],
           [
             'a.bbb.',
             '???b??',
             'a.b???',
             'column 4 is red, since the black 1 is complete, column 3 is red and column 2 is background'
           ],
           [
             'a.a..',
             '?.???',
             'a????',
             'column 2 is background, since the black 1 in column 1 is complete'
           ]])
    assert.equal(told(row, falls, needs), `Row 1: ${wanted}.`);
});

test('of looks that need known cells alone, the first with a colour is told', () => {
  const state = stateOf(['a.', 'a.']);
  const known = [...'a.??'];
  const look = (line, falls, needs = '????') => ({
    line,
    falls: placed(falls).map(([index, letter]) => ({index, letter})),
    needs: placed(needs).map(([index, letters]) => ({index, letters}))
  });
  const nothing = look(0, '????');
  const [seenColour, seenBackground] = [look(2, '??a?'), look(3, '???.')];
  const [colour, background] = [look(1, '??a?', '???.'), look(1, '???.', '??a?')];
  for (const [looks, wanted] of [
           [[], null],
           [[nothing], null],
           [[seenBackground, seenColour], seenColour],
           [[colour, seenBackground], seenBackground],
           [[background, colour], colour],
           [[nothing, background], background]])
    assert.equal(stepOf(state, known, looks), wanted);
});

test('a cell in which crossing lines had excluded colours is no cell of the clue alone', () => {
  const state = stateOf(['ab.', '.ab', '..b']);
  const step = {line: 3, falls: [{index: 6, letter: '.'}], needs: []};
  assert.deepEqual(narrowedBefore(state, step), [6]);
  assert.equal(
      stepText(state, step),
      'Column 1: row 3 is background, since crossing lines exclude colours in row 3.'
  );
  assert.equal(
      stepOf(state, [...'?????????'], [step, {...step, line: 2}]), step, 'if none is seen'
  );
});

test('background of lines whose clue is met is known, and what a hint told', () => {
  const state = stateOf(['aa.b', '....', 'a..b']);
  assert.equal(knownBy(state, [...'aa?b????????']).join(''), 'aa.b....?..?');
  assert.equal(knownBy(state, [...'aa?b????a??b']).join(''), 'aa.b....a..b');
  assert.equal(knownBy(state, [...'????????????'], new Set([9])).join(''), '??.?....?..?');
});

test('the hardest step needs most of a line whose blocks do not all stand', {skip}, () => {
  const {state, ask} = puzzleOf(module, ppmOf(['.a.', 'aa.', '...']));
  const walk = new Walk(state, ask(['path'])[0].looks);
  assert.equal(walk.steps.length, 6);
  assert.equal(walk.hardest, 3);
  assert.equal(
      stepText(state, walk.steps[2]), 'Column 2: row 1 is black, since row 3 is background.'
  );
});

test('a guess is the hardest step; no step without a cell is', () => {
  const step = (line, count, stands = false) => ({
    line,
    round: 1,
    stands,
    falls: [{index: 0, letter: 'a'}],
    needs: Array.from({length: count}, (_, index) => ({index, letters: 'a'}))
  });
  const hardestOf = (...steps) => new Walk(stateOf(['aa']), steps).hardest;
  assert.equal(hardestOf(step(0, 1), step(1, 3, true), step(2, 2), step(0, 2)), 3);
  assert.equal(hardestOf(step(0, 1), {...step(1, 3), falls: []}), 1);
  assert.equal(hardestOf(step(0, 5), step(null, 0), step(1, 6)), 2);
});
