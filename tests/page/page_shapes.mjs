// Tests of shapes, turns and of what text becomes when it is pasted, and of where cells lie.
// Expected values were drawn by hand. Run: node --test tests/page/page_shapes.mjs
import assert from 'node:assert/strict';
import {test} from 'node:test';
import '../../page/test/limits.mjs';
import {
  boxInMargin,
  bucketCells,
  boxCells,
  boxOf,
  cutOut,
  lineCells,
  reordered,
  resized,
  rowsOfText,
  shifted,
  stamped,
  turned
} from '../../page/document/shapes.js';
import {Geometry} from '../../page/draw/geometry.js';
import {lengthsIn} from '../../page/draw/board.js';

const docOf = (picture, givens = []) => ({
  rows: picture.length,
  columns: picture[0].length,
  maxval: 255,
  colours: [[255, 255, 255], [0, 0, 0], [9, 9, 9]],
  picture,
  givens: new Set(givens)
});
const drawn = (cells, rows, columns) => [...Array(rows).keys()].map(
    (row
    ) => [...Array(columns).keys()]
             .map((col) => (cells.some((cell) => cell.row === row && cell.col === col) ? 'a' : '.'))
             .join('')
);
const shows = (doc, picture, givens) => assert.deepEqual(
    [doc.picture, [...doc.givens].sort((a, b) => a - b), doc.rows, doc.columns],
    [picture, givens, picture.length, picture[0].length]
);

test('lines, rectangles and the bucket', () => {
  assert.deepEqual(
      drawn(lineCells({row: 0, col: 0}, {row: 2, col: 4}), 3, 5), ['a....', '.aa..', '...aa']
  );
  assert.equal(
      lineCells({row: 1, col: 1}, {row: 1, col: 1})
          .filter(({row, col}) => row !== 1 || col !== 1)
          .length,
      0
  );
  const box = boxOf({row: 2, col: 3}, {row: 0, col: 1});
  assert.deepEqual(box, {top: 0, left: 1, bottom: 2, right: 3});
  assert.deepEqual(drawn(boxCells(box), 3, 5), ['.aaa.', '.aaa.', '.aaa.']);
  assert.deepEqual(drawn(boxCells(box, true), 3, 5), ['.aaa.', '.a.a.', '.aaa.']);
  // Cells that touch by a corner alone do not hang together.
  assert.deepEqual(
      drawn(bucketCells(['ab.', 'bb.', '..b'], {row: 0, col: 1}), 3, 3), ['.a.', 'aa.', '...']
  );
});

test('turns take givens along', () => {
  const doc = docOf(['ab.', '..b'], [1]);
  shows(turned(doc, 'across'), ['.ba', 'b..'], [1]);
  shows(turned(doc, 'down'), ['..b', 'ab.'], [4]);
  shows(turned(doc, 'right'), ['.a', '.b', 'b.'], [3]);
  shows(turned(doc, 'left'), ['.b', 'b.', 'a.'], [2]);
  shows(turned(turned(doc, 'left'), 'right'), doc.picture, [1]);
  shows(shifted(doc, 1, -1), ['.b.', 'b.a'], [3]);
});

test('another size, with what stays where', () => {
  const doc = docOf(['ab', 'ba'], [3]);
  shows(resized(doc, 3, 4, {down: 0, across: 0}), ['ab..', 'ba..', '....'], [5]);
  shows(resized(doc, 3, 4, {down: 1, across: 1}), ['....', '..ab', '..ba'], [11]);
  shows(resized(doc, 4, 4, {down: 0.5, across: 0.5}), ['....', '.ab.', '.ba.', '....'], [10]);
  shows(resized(doc, 1, 1, {down: 1, across: 0}), ['b'], []);
});

test('pieces are cut out and put down', () => {
  assert.deepEqual(
      cutOut(docOf(['ab.', '..b']), {top: 0, left: 1, bottom: 1, right: 2}).picture, ['b.', '.b']
  );
  assert.deepEqual(stamped(['...', '...'], ['ab', 'ba'], 1, -1), ['...', 'b..']);
});

test('the margin of a picture', () => {
  assert.deepEqual(
      boxInMargin(['.....', '...b.', '.....', '..a..', '.....']),
      {top: 1, left: 2, bottom: 3, right: 3}
  );
  assert.deepEqual(boxInMargin(['a..', '...']), {top: 0, left: 0, bottom: 0, right: 0});
  assert.equal(boxInMargin(['a..', '..a']), null, 'each edge has a cell');
  assert.equal(boxInMargin(['..', '..']), null, 'nothing is drawn');
  const doc = docOf(['....', '.ab.', '....'], [0, 6]);
  shows(cutOut(doc, boxInMargin(doc.picture)), ['ab'], [1]);
});

test('text that is pasted', () => {
  assert.deepEqual(rowsOfText('ab\r\n a\n', 3), ['ab', '.a']);
  assert.deepEqual(rowsOfText('a\nabb', 3), ['a..', 'abb']);
  for (const text of ['', '\n', 'hello', 'abc', 'a'.repeat(121), 'a\n'.repeat(121)])
    assert.equal(rowsOfText(text, 3), null);
});

test('colours in another order, and one less', () => {
  assert.deepEqual(reordered(docOf(['.ab']), [0, 2, 1]).picture, ['.ba']);
  const less = reordered(docOf(['.ab']), [0, 2], 2);
  assert.deepEqual([less.picture, less.colours], [['.aa'], [[255, 255, 255], [9, 9, 9]]]);
});

// A picture whose lines have so many blocks each, fitted into a view of some of the page's pixels.
function fitted(width, height, scale, lines = 120, blocks = 30) {
  const at = new Geometry();
  at.resize(width, height, scale);
  Object.assign(at, {rows: lines, columns: lines});
  const clues = Array(lines).fill(Array(blocks).fill({length: 3, letter: 'a'}));
  at.measure({rows: clues, columns: clues});
  at.fit();
  return at;
}
const isWhole = (at) => at.x(at.columns) <= at.width && at.y(at.rows) <= at.height;

test('a picture fits, down to cells of three points', () => {
  const at = fitted(790, 700, 1);
  assert.ok(at.cell >= 3 && isWhole(at) && !at.isFolded);
  for (const scale of [1, 2, 3])
    assert.ok(!fitted(390, 600, scale, 60).isFolded, 'clues stay where there is room');
});

test('where three points are too many beside the clues, Fit folds these and shows all', () => {
  // Of the width 23 points are an edge and 6 a margin, of the height 17 and 6: (390 - 29) / 120
  // is 3.008, for one.
  const views = [
    [390, 600, 1, 3],
    [390, 600, 2, 6],
    [390, 600, 3, 9],
    [360, 400, 2, 5],
    [360, 400, 3, 8],
    [460, 330, 2, 5],
    [300, 200, 1, 1]
  ];
  for (const [width, height, scale, cell] of views) {
    const at = fitted(width, height, scale);
    assert.deepEqual(
        [at.cell, at.isFolded, isWhole(at)], [cell, true, true], `${width} by ${height}, ${scale}`
    );
    assert.equal(at.grow(), false, 'clues that grow move nothing');
    at.pan(50, 50);
    assert.deepEqual([at.panX, at.panY], [0, 0], 'all is seen, so nothing moves');
    assert.equal(at.zoom(at.step(-1, 6)), false, 'it is not made smaller');
    assert.equal(at.zoom(at.step(1, 6)), true);
    assert.ok(
        !at.isFolded && at.cell >= 3 * scale && at.left > 30 * scale,
        'larger cells have their clues beside them'
    );
    for (let step = 0; step < 9 && !at.isFolded; step++) at.zoom(at.step(-1, 6));
    assert.deepEqual(
        [at.cell, at.isFolded, at.isFitted], [cell, true, true], 'and smaller ones are Fit again'
    );
  }
});

test('zooming keeps the place under the pointer, and panning ends at the edges', () => {
  const at = new Geometry();
  at.resize(800, 600, 1);
  Object.assign(at, {rows: 100, columns: 100});
  at.measure({rows: Array(100).fill([]), columns: Array(100).fill([])});
  at.fit();
  const before = at.at(500, 400);
  at.zoom(30, 500, 400);
  assert.deepEqual(at.at(500, 400), before);
  at.pan(1e9, 1e9);
  assert.ok(at.x(100) <= 800 && at.x(100) > 780 && at.y(100) <= 600 && at.y(100) > 580);
  at.pan(-1e9, -1e9);
  assert.deepEqual([at.panX, at.panY], [0, 0]);
  assert.equal(at.reveal(99, 99), true);
  assert.ok(at.x(99) + at.cell <= 800 && at.y(99) + at.cell <= 600);
});

// The clues of 15 rows and 20 columns without a block, but for the first row's blocks.
const cluesOf = (first) => ({rows: [first, ...Array(14).fill([])], columns: Array(20).fill([])});
const blocks = (count) => Array.from({length: count}, () => ({length: 1, letter: 'a'}));

test('clues that have no room are drawn narrower, as far as their text allows', () => {
  const look = {signs: null, least: 5};
  const place = {
    near: 100,
    far: 0,
    gap: 2,
    sizeOf: (block) => ({width: block.length > 9 ? 30 : 20, height: 20})
  };
  const lengths = (count, near) => lengthsIn(look, 'r', blocks(count), {...place, near});
  assert.deepEqual(lengths(4, 86), {lengths: [20, 20, 20, 20], isCut: false}, '80 and three gaps');
  assert.deepEqual(lengths(4, 66), {lengths: [15, 15, 15, 15], isCut: false}, '60 and three gaps');
  // A digit is 0.58 of its size wide: 2.9 of 5, rounded up, and one around it.
  assert.deepEqual(lengths(4, 22), {lengths: [4, 4, 4, 4], isCut: false});
  assert.deepEqual(lengths(4, 21), {lengths: [4, 4, 4, 4], isCut: true});
  // 30 and 20 may give up 30 - 7 and 20 - 4; of 50 there are 41 without the gap, so each gives up
  // 9/39 of what it can.
  assert.deepEqual(
      lengthsIn(
          look, 'r', [{length: 10, letter: 'a'}, {length: 1, letter: 'a'}], {...place, near: 43}
      ).lengths,
      [24, 16]
  );
});

test('a blank picture leaves room for the first clues that are painted', () => {
  for (const [width, height] of [[792, 756], [390, 640]]) {
    const at = new Geometry();
    at.resize(width, height, 1);
    Object.assign(at, {rows: 15, columns: 20});
    at.measure(cluesOf([]));
    at.fit();
    const {cell} = at;
    at.measure(cluesOf(blocks(3)));
    assert.equal(at.grow(), false, 'nothing moves');
    assert.equal(at.cell, cell);
  }
});
