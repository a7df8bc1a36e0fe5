// Tests of two colours by segments: which choices of ink and paper come first, and the pictures
// that they give. Run: node --test tests/page/page_segments.mjs.
import assert from 'node:assert/strict';
import {test} from 'node:test';
import '../../page/test/limits.mjs';

const {bestOf, docInTwo, rankedChoices, sidesNear} = await import('../../page/import/segments.js');

const GREYS = [[255, 255, 255], [0, 0, 0], [128, 128, 128]];
const docOf = (picture, colours = GREYS, more = {}) => ({
  rows: picture.length,
  columns: picture[0].length,
  maxval: 255,
  colours,
  picture,
  givens: new Set(),
  ...more
});
const picturesOf = (doc) =>
    rankedChoices(doc, 9).map((isInk) => docInTwo(doc, isInk).picture.join('/'));

test('choices are ranked by the contrast of the edges that they keep, and ink is darker', () => {
  // Beside black stand white, the strongest edge, and grey; white and grey do not meet. Black alone
  // keeps both edges, black with grey the strong one, and white with black the weak one.
  const doc = docOf(['.ab', '.ab']);
  assert.deepEqual(picturesOf(doc), ['.a./.a.', '.aa/.aa', 'aa./aa.']);
  assert.deepEqual(rankedChoices(doc, 1), [[false, true, false]]);
});

test('of two choices that hardly differ the better one counts; one colour leaves no choice', () => {
  const rows = Array(8).fill('....aaaa');
  const speck = docOf([...rows.slice(1), '...baaaa']);
  assert.deepEqual(picturesOf(speck), [[...rows.slice(1), '...aaaaa'].join('/')]);
  assert.deepEqual(rankedChoices(docOf(['..', '..'], [GREYS[0]]), 6), []);
  const line = docOf([...Array(30).fill('....'), '.a..'], GREYS.slice(0, 2));
  assert.deepEqual(rankedChoices(line, 6), [[false, true]], 'the only one, however small');
});

test('what is transparent is paper, however dark its background is; specks go', () => {
  const clear = docOf(['.ab', '.ab'], [[10, 10, 10], ...GREYS.slice(1)], {isClear: true});
  for (const isInk of rankedChoices(clear, 9)) {
    assert.equal(isInk[0], false);
    assert.match(docInTwo(clear, isInk).picture[0], /^\./);
  }
  const one = docOf(['...', '.a.', '...'], GREYS.slice(0, 2));
  assert.deepEqual(docInTwo(one, [false, true], {specks: 1}).picture, ['...', '...', '...']);
});

test('a colour of a sketch is on the side of the nearest colour that has one', () => {
  const sides = new Map([['255,255,255', true], ['0,0,0', false], ['128,128,128', true]]);
  const sketch = docOf(['.ab'], [[9, 9, 9], [120, 130, 125], [250, 255, 251]]);
  assert.deepEqual(sidesNear(sketch, sides), [false, true, true]);
  const doc = docOf(['.ab', '.ab']);
  assert.deepEqual(sidesNear(doc, new Map()), [false, true, false], 'else the first choice');
});

test('those with one solution come first, six at most, in their order', async () => {
  const words = ['ambiguous', 'unique', 'undecided', 'unique', 'unique', 'ambiguous', 'unique'];
  const heard = [];
  const judge = async (at) => ({verdict: words[at]});
  const best = await bestOf([...words.keys()], judge, ({doc}) => heard.push(doc));
  assert.deepEqual(best.map(({doc}) => doc), [1, 3, 4, 6, 0, 2]);
  assert.deepEqual(heard, [1, 3, 4, 6, 0, 2]);
  assert.deepEqual(await bestOf([0, 1], async () => null), []);
});
