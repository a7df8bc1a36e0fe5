// Tests of symmetric pens and of regions: what is selected, outlined and shadowed. Pictures were
// drawn by hand. Run: node --test tests/page/page_regions.mjs
import assert from 'node:assert/strict';
import {test} from 'node:test';
import '../../page/test/limits.mjs';
import {
  boxAround,
  outlineOf,
  placesOfLetter,
  placesOfShape,
  shadowOf,
  shapeOf,
  without
} from '../../page/document/regions.js';
import {stamped} from '../../page/document/shapes.js';
import {SYMMETRIES, cellsWith, isPossible} from '../../page/document/symmetry.js';

const drawn = (places, {rows, columns}) => Array.from(
    {length: rows},
    (_, row) =>
        Array.from(
                 {length: columns}, (_one, col) => (places.has(row * columns + col) ? 'a' : '.')
        ).join('')
);
const withCell = (row, col, size, symmetry) => drawn(
    new Set(cellsWith({row, col}, size, symmetry).map((cell) => cell.row * size.columns + cell.col)
    ),
    size
);

test('what a symmetric pen draws', () => {
  const size = {rows: 4, columns: 5};
  assert.deepEqual(withCell(0, 1, size, 'none'), ['.a...', '.....', '.....', '.....']);
  assert.deepEqual(withCell(0, 1, size, 'across'), ['.a.a.', '.....', '.....', '.....']);
  assert.deepEqual(withCell(0, 1, size, 'down'), ['.a...', '.....', '.....', '.a...']);
  assert.deepEqual(withCell(0, 1, size, 'both'), ['.a.a.', '.....', '.....', '.a.a.']);
  assert.deepEqual(
      withCell(1, 2, size, 'both'),
      ['.....', '..a..', '..a..', '.....'],
      'a cell on an axis goes with itself'
  );
});

test('quarter turns about the middle', () => {
  assert.deepEqual(
      withCell(0, 1, {rows: 4, columns: 4}, 'quarter'), ['.a..', '...a', 'a...', '..a.']
  );
  assert.deepEqual(withCell(0, 0, {rows: 3, columns: 3}, 'quarter'), ['a.a', '...', 'a.a']);
  assert.deepEqual(withCell(1, 1, {rows: 3, columns: 3}, 'quarter'), ['...', '.a.', '...']);
  assert.deepEqual(withCell(1, 2, {rows: 3, columns: 5}, 'quarter'), ['.....', '..a..', '.....']);
  assert.deepEqual(withCell(0, 2, {rows: 3, columns: 5}, 'quarter'), ['..a..', '.a.a.', '..a..']);
  assert.deepEqual(
      withCell(1, 0, {rows: 3, columns: 5}, 'quarter'),
      ['.....', 'a...a', '.....'],
      'what falls outside of the picture is left out'
  );
  assert.deepEqual(
      withCell(0, 2, {rows: 4, columns: 5}, 'quarter'),
      ['..a..', '.....', '.....', '.....'],
      'there are none of half a cell'
  );
  assert.deepEqual(
      [
        isPossible('quarter', {rows: 4, columns: 5}),
        isPossible('quarter', {rows: 4, columns: 8}),
        isPossible('both', {rows: 4, columns: 5})
      ],
      [false, true, true]
  );
});

test('cells that go together go together whichever of them is drawn', () => {
  for (const size of [{rows: 5, columns: 5}, {rows: 4, columns: 6}, {rows: 3, columns: 4}]) {
    for (const symmetry of SYMMETRIES) {
      for (let row = 0; row < size.rows; row++) {
        for (let col = 0; col < size.columns; col++) {
          const places = (cells) =>
              new Set(cells.map((cell) => cell.row * size.columns + cell.col));
          const own = places(cellsWith({row, col}, size, symmetry));
          for (const other of cellsWith({row, col}, size, symmetry))
            for (const place of places(cellsWith(other, size, symmetry)))
              assert.ok(own.has(place), `${symmetry} ${row} ${col}`);
        }
      }
    }
  }
});

const PICTURE = ['..a..', '.aba.', '..a..', '.....'];
const SIZE = {
  rows: 4,
  columns: 5
};
const CROSS = placesOfLetter(PICTURE, 'a');

test('a shape is cut out with holes and put down again', () => {
  const box = boxAround(CROSS, 5);
  assert.deepEqual(box, {top: 0, left: 1, bottom: 2, right: 3});
  const shape = shapeOf(CROSS, box, PICTURE);
  assert.deepEqual(shape, [' a ', 'a a', ' a ']);
  assert.deepEqual(drawn(placesOfShape(box, shape, 5), SIZE), ['..a..', '.a.a.', '..a..', '.....']);
  assert.deepEqual(drawn(placesOfShape(box, null, 5), SIZE), ['.aaa.', '.aaa.', '.aaa.', '.....']);
  assert.deepEqual(without(PICTURE, shape, box), ['.....', '..b..', '.....', '.....']);
  assert.deepEqual(
      stamped(['bbbbb', 'bbbbb', 'bbbbb', 'bbbbb'], shape, 1, 0),
      ['bbbbb', 'babbb', 'ababb', 'babbb'],
      'below a hole the picture stays'
  );
});

test('outline and shadow', () => {
  assert.deepEqual(drawn(outlineOf(CROSS, SIZE), SIZE), ['.a.a.', 'a.a.a', '.a.a.', '..a..']);
  assert.deepEqual(
      drawn(shadowOf(CROSS, SIZE), SIZE),
      ['.....', '.....', '....a', '...a.'],
      'what falls outside of the picture or on the region itself is none'
  );
  assert.deepEqual(
      drawn(shadowOf(new Set([0]), {rows: 2, columns: 2}), {rows: 2, columns: 2}), ['..', '.a']
  );
  assert.deepEqual(
      drawn(outlineOf(new Set([3]), {rows: 2, columns: 2}), {rows: 2, columns: 2}), ['.a', 'a.']
  );
});
