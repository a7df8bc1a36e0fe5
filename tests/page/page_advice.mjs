// Tests of what Fix it advises a picture of which few repaints make no puzzle, of which symmetry
// repairs keep, and of the order of proposals. Run: node --test tests/page/page_advice.mjs
import assert from 'node:assert/strict';
import {test} from 'node:test';
import '../../page/test/limits.mjs';
import {noise} from './page_trial.mjs';

const {dithered} = await import('../../page/import/cells.js');
const {adviceOf} = await import('../../page/repair/advice.js');
const {bySize, mirrorOf, mirrorOfPens, seenOf} = await import('../../page/view/ranking.js');

const SIX = [
  [20, 30, 60],
  [70, 90, 130],
  [130, 140, 150],
  [190, 180, 150],
  [230, 190, 120],
  [250, 240, 220]
];

// A sky that grows darker to a corner, in six colours.
function sky(columns, rows, toNumbers) {
  const data = new Uint8ClampedArray(columns * rows * 4);
  for (let at = 0; at < columns * rows; at++) {
    const share = (at % columns) / columns / 2 + Math.floor(at / columns) / rows / 2;
    data.set([250 - 230 * share, 240 - 210 * share, 220 - 160 * share, 255], at * 4);
  }
  const numbers = [...toNumbers({width: columns, height: rows, data}, SIX)];
  return Array.from(
      {length: rows},
      (_, row) =>
          numbers.slice(row * columns, (row + 1) * columns).map((one) => '.abcde'[one]).join('')
  );
}

const nearest = ({data}, palette) => Array.from({length: data.length / 4}, (_, at) => {
  const far = palette.map((triple) => Math.abs(triple[0] - data[at * 4]));
  return far.indexOf(Math.min(...far));
});

test(
    'a dithered photo is advised to have no dithering, and the same without it fewer colours',
    () => {
      assert.equal(adviceOf({picture: sky(90, 68, dithered)}), 'dithered');
      assert.equal(adviceOf({picture: sky(90, 68, nearest)}), 'colours');
    }
);

test('a higher threshold is advised for two colours and few cells alone', () => {
  const lines = Array.from({length: 20}, (_, row) => (row % 6 ? '.' : 'a').repeat(20));
  assert.equal(adviceOf({picture: lines}), 'thin');
  assert.equal(adviceOf({picture: lines.map((row) => row.replaceAll('.', 'b'))}), 'areas');
  const half = Array.from({length: 20}, (_, row) => (row % 4 < 2 ? '.' : 'a').repeat(20));
  assert.equal(adviceOf({picture: half}), 'areas');
});

test('more than two colours and few cells are sparse; noise is as dithered', () => {
  const dots = Array.from(
      {length: 20},
      (_, row) => '.'.repeat(row) + (row % 4 ? '.' : 'abc'[row % 3]) + '.'.repeat(19 - row)
  );
  assert.equal(adviceOf({picture: dots}), 'sparse');
  assert.equal(adviceOf({picture: noise(20, 20, '.a')}), 'areas');
  assert.equal(adviceOf({picture: noise(20, 20, '.abc')}), 'dithered');
});

test('repairs keep the symmetry of the pens where the picture has it', () => {
  const [across, down, both, none] = [['aba', '.a.'], ['ab.', 'ab.'], ['a.a', 'a.a'], ['ab', '.a']];
  const kept = (picture
  ) => ['none', 'across', 'down', 'both', 'quarter'].map((pens) => mirrorOfPens(picture, pens));
  assert.deepEqual(kept(across), [null, 'x', null, 'x', null]);
  assert.deepEqual(kept(down), [null, null, 'y', 'y', null]);
  assert.deepEqual(kept(both), [null, 'x', 'y', 'x', null]);
  assert.deepEqual(kept(none), [null, null, null, null, null]);
  assert.deepEqual([across, down, both, none].map(mirrorOf), ['x', 'y', 'x', null]);
});

test('the order of proposals is the same whatever was found first', () => {
  const state = {
    picture: ['....', '.aa.', '.aa.', '....'],
    columns: 4,
    maxval: 255,
    colours: [[255, 255, 255], [0, 0, 0]]
  };
  // The corners of a box are seen alike. One of them breaks the symmetry of left and right, two of
  // one row keep it.
  const painted = (...places) => ({
    goal: 'lines',
    cells: places.map((index) => ({index, colour: 'a.'.indexOf(state.picture.join('')[index])}))
  });
  const wanted = [
    painted(5, 6),
    painted(9, 10),
    painted(5),
    painted(6),
    painted(9),
    painted(10),
    painted(5, 10),
    {...painted(6), goal: 'unique', open: 2}
  ].map((one) => ({...one, ...seenOf(state, one)}));
  const given = [{given: [4], isLeast: true}, {given: [9]}, {given: [3, 5]}, {given: [3, 12]}];
  for (const list of [wanted, given])
    for (let turn = 0; turn < list.length; turn++) {
      const turned = [...list.slice(turn), ...list.slice(0, turn)];
      assert.deepEqual([...turned].sort(bySize), list);
      assert.deepEqual(turned.reverse().sort(bySize), list);
    }
});
