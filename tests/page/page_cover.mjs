// Tests of the way from one document to another: rectangles that cover cells, commands, patches,
// what goes with lines, and how a document is opened. Expected values were worked out by hand from
// docs/SESSION.md. Run: node --test tests/page/page_cover.mjs
import assert from 'node:assert/strict';
import {test} from 'node:test';
import '../../page/test/limits.mjs';
import {
  baseOf,
  coverOf,
  linesTo,
  placesAfter,
  repaintLines,
  withCells
} from '../../page/document/cover.js';
import {docOf as wholeDoc, patchOf, patched, sameDoc} from '../../page/document/document.js';

const COLOURS = [[255, 255, 255], [0, 0, 0], [200, 30, 30]];
const docOf = (picture, givens = [], colours = COLOURS) => ({
  rows: picture.length,
  columns: picture[0].length,
  maxval: 255,
  colours,
  picture,
  givens: new Set(givens)
});

// A picture painted by commands, worked out cell by cell.
function painted(picture, lines) {
  const rows = picture.map((row) => [...row]);
  for (const line of lines) {
    const [word, ...places] = line.split(' ');
    const [top, left, bottom, right] =
        (word === 'paint' ? [...places.slice(0, 2), ...places.slice(0, 2)] : places.slice(0, 4)
        ).map(Number);
    for (let row = top; row <= bottom; row++)
      for (let col = left; col <= right; col++) rows[row - 1][col - 1] = places.at(-1);
  }
  return rows.map((row) => row.join(''));
}

test('places go with their lines', () => {
  const places = new Set([1, 2]);  // of two columns: row 1 column 2, row 2 column 1
  const after = (line) => [...placesAfter(places, 2, line)].sort((a, b) => a - b);
  assert.deepEqual(after('insert row 1'), [3, 4]);
  assert.deepEqual(after('insert row 3'), [1, 2]);
  assert.deepEqual(after('insert column 2'), [2, 3]);
  assert.deepEqual(after('delete row 1'), [0]);
  assert.deepEqual(after('delete column 1'), [0]);
  assert.deepEqual(after('swap row 1 2'), [0, 3]);
  assert.deepEqual(after('swap column 1 2'), [0, 3]);
  assert.deepEqual(after('paint 1 1 a'), [1, 2]);
});

test('rectangles cover a drag, over cells that have the colour already', () => {
  const cells = (...places) => new Set(places);
  assert.deepEqual(
      coverOf(cells(0, 1, 2, 5, 8), ['...', '...', '...'], 'a'),
      ['fill 1 1 1 3 a', 'fill 2 3 3 3 a']
  );
  assert.deepEqual(coverOf(cells(0, 1, 2), ['.a.'], 'a'), ['fill 1 1 1 3 a']);
  assert.deepEqual(coverOf(cells(4), ['...', '...'], 'a'), ['paint 2 2 a']);
  assert.deepEqual(coverOf(cells(0, 1), ['aa'], 'a'), []);
});

test('one document of another by commands', () => {
  const [from, to] = [docOf(['..a', 'bba'], [0, 5]), docOf(['aa.', 'bba'], [5, 3])];
  const lines = linesTo(from, to);
  assert.deepEqual(
      painted(from.picture, lines.filter((line) => /^(paint|fill)/.test(line))), to.picture
  );
  assert.deepEqual(lines.filter((line) => /pin/.test(line)), ['unpin 1 1', 'pin 2 1']);
  assert.equal(lines.length, 4);  // the two cells a, the one cell ., one unpin, one pin
  assert.deepEqual(linesTo(to, to), []);
  assert.deepEqual([linesTo(from, to, 4)?.length, linesTo(from, to, 3)], [4, null]);
  assert.equal(linesTo(from, docOf(['..'])), null);
  assert.equal(linesTo(from, {...to, colours: COLOURS.slice(0, 2)}), null);
  assert.equal(linesTo(from, {...to, colours: [[1, 1, 1], ...COLOURS.slice(1)]}), null);
});

test('random pictures are painted into each other', () => {
  let seed = 7;
  const chance = (count) => {
    seed = (seed * 1103515245 + 12345) % 2147483648;
    return Math.floor((seed / 2147483648) * count);
  };
  for (let turn = 0; turn < 200; turn++) {
    const [rows, columns] = [1 + chance(7), 1 + chance(7)];
    const picture =
        () => [...Array(rows)].map(() => [...Array(columns)].map(() => '.ab'[chance(3)]).join(''));
    const [from, to] = [docOf(picture()), docOf(picture())];
    assert.deepEqual(painted(from.picture, repaintLines(from, to.picture)), to.picture);
    const cells = new Map(
        to.picture.flatMap((row, r) => [...row].map((letter, c) => [r * columns + c, letter]))
    );
    assert.deepEqual(withCells(from.picture, cells), to.picture);
    assert.ok(sameDoc(patched(from, patchOf(from, to)), to));
  }
});

test('a document is opened with its letters, its unused colours and its givens', () => {
  // Cells show colours 1 and 2 in turn, whatever they are; both are painted as they are behind it.
  const base = baseOf(docOf(['b.', '..'], [3]));
  assert.equal(base.text, 'P3\n2 2\n255\n0 0 0\n200 30 30\n255 255 255\n255 255 255\n');
  assert.deepEqual(
      [base.background, base.lines], ['255,255,255', ['paint 1 1 b', 'paint 1 2 .', 'pin 2 2']]
  );
  // Fewer cells than colours: the others are added in their order.
  const small = baseOf(docOf(['.'], [], [...COLOURS, [1, 2, 3]]));
  assert.deepEqual(
      [small.text, small.lines],
      ['P3\n1 1\n255\n0 0 0\n', ['colour add 200 30 30', 'colour add 1 2 3', 'paint 1 1 .']]
  );
});

test('a patch has what differs, and another size as a whole', () => {
  const from = wholeDoc(docOf(['..a', 'bba'], [0, 5]));
  const to = {
    ...from,
    picture: ['..a', 'bbb'],
    givens: new Set([5]),
    about: {title: 'T'},
    locks: new Set([1])
  };
  const patch = JSON.parse(JSON.stringify(patchOf(from, to)));
  assert.deepEqual(patch, {rows: [[1, 'bbb']], givens: [5], about: {title: 'T'}, locks: [1]});
  assert.ok(sameDoc(patched(from, patch), to));
  assert.equal(patched(from, patch).picture[0], from.picture[0]);
  assert.deepEqual(patchOf(from, from), {});
  const small = wholeDoc(docOf(['.']));
  assert.ok(sameDoc(patched(from, JSON.parse(JSON.stringify(patchOf(from, small)))), small));
  assert.throws(() => patched(from, {rows: [[0, 'xyz']]}));
});
