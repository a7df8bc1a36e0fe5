// Tests of sheets of sprites: grids that are found, and what is cut out of them. Sheets are made by
// hand. Run: node --test tests/page/page_sprites.mjs
import assert from 'node:assert/strict';
import {test} from 'node:test';
import '../../page/test/limits.mjs';
import {cutOut, fieldsOf, shownOf, spritesOf, gridOf as gridIn} from '../../page/import/sprites.js';

const gridOf = (sheet) => gridIn(sheet, shownOf(sheet));

const COLOURS = {
  w: [255, 255, 255, 255],
  k: [0, 0, 0, 255],
  r: [200, 30, 50, 255],
  '-': [0, 0, 0, 0]
};
function imageOf(rows) {
  const [width, height] = [rows[0].length, rows.length];
  return {
    width,
    height,
    data: Uint8ClampedArray.from([...rows.join('')].flatMap((sign) => COLOURS[sign]))
  };
}
// A sprite of 8 by 8 that touches its edges at some places, as a figure does.
const SPRITE = [
  '--kkkk--',
  '-krrrrk-',
  'krrrrrrk',
  'krkrrkrk',
  'krrrrrrk',
  '-krrrrk-',
  '--kkkk--',
  '-kk--kk-'
];
const EMPTY = Array(8).fill('--------');
const beside = (...sprites) =>
    SPRITE.map((_, row) => sprites.map((sprite) => sprite[row]).join(''));

test('a grid without gaps', () => {
  const sheet = imageOf([...beside(SPRITE, SPRITE, SPRITE), ...beside(SPRITE, EMPTY, SPRITE)]);
  assert.deepEqual(gridOf(sheet), {columns: 3, rows: 2, gap: 0, margin: 0});
  const sprites = spritesOf(sheet, gridOf(sheet), shownOf(sheet));
  assert.equal(sprites.length, 5, 'an empty field is none');
  for (const sprite of sprites) assert.deepEqual(cutOut(sheet, sprite), imageOf(SPRITE));
});

test('a grid with gaps and a margin, on white', () => {
  const padded = (rows) => rows.map((row) => row.replaceAll('-', 'w'));
  const line = 'w'.repeat(8 * 3 + 2 * 4);
  const row = padded(SPRITE).map((one) => `ww${one}ww${one}ww${one}ww`);
  const sheet = imageOf([line, line, ...row, line, line, ...row, line, line]);
  assert.deepEqual(gridOf(sheet), {columns: 3, rows: 2, gap: 2, margin: 2});
  assert.deepEqual(
      spritesOf(sheet, gridOf(sheet), shownOf(sheet)).map(({width, height}) => [width, height]),
      Array(6).fill([8, 8])
  );
});

test('a single picture has no grid', () => {
  assert.equal(gridOf(imageOf(SPRITE)), null);
  assert.equal(gridOf(imageOf(Array(24).fill('k'.repeat(23) + 'w'))), null);
  assert.equal(gridOf(imageOf(Array(16).fill('-'.repeat(16)))), null);
});

test('fields of a grid that is given, also where it does not fit', () => {
  assert.deepEqual(
      fieldsOf(
          {width: 10, height: 4}, {columns: 3, rows: 1, gap: 0, margin: 0}
      ).map(({x, width}) => [x, width]),
      [[0, 3], [3, 4], [7, 3]]
  );
  assert.deepEqual(
      fieldsOf({width: 9, height: 9}, {columns: 2, rows: 2, gap: 1, margin: 0}),
      [[0, 0], [5, 0], [0, 5], [5, 5]].map(([x, y]) => ({x, y, width: 4, height: 4}))
  );
});
