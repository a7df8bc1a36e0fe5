// Tests of puzzles in links: what goes in comes out, damage is named, and links are short. Run:
// node --test tests/page/page_links.mjs
import assert from 'node:assert/strict';
import {test} from 'node:test';
import '../../page/test/limits.mjs';
import {docOf, emptyDoc, packedDoc} from '../../page/document/document.js';
import {FileFault} from '../../page/document/limits.js';
import {fragmentOf, readFragment} from '../../page/formats/link.js';

const LETTERS = '.abcdefghijklmno';

// Numbers of a fixed sequence, so that each run has the same pictures.
function sequence(seed) {
  let state = seed;
  return (most) => {
    state = (Math.imul(state, 1664525) + 1013904223) >>> 0;
    return Math.floor((state / 2 ** 32) * most);
  };
}

function noise(rows, columns, colours, seed) {
  const next = sequence(seed);
  const doc = emptyDoc(columns, rows, [255, 255, 255]);
  doc.colours = Array.from(
      {length: colours}, (_, at) => (at ? [next(255), next(255), 16 * at] : [255, 255, 255])
  );
  doc.picture = Array.from(
      {length: rows}, () => Array.from({length: columns}, () => LETTERS[next(colours)]).join('')
  );
  return docOf(doc);
}

test('a link holds the whole document', async () => {
  const doc = noise(9, 14, 5, 7);
  Object.assign(
      doc,
      {givens: new Set([3, 17]), locks: new Set([5]), about: {title: 'Ente & Möwe', author: '“A”'}}
  );
  for (const kind of ['play', 'edit']) {
    const fragment = await fragmentOf(doc, kind);
    assert.match(fragment, new RegExp(`^#${kind}=[A-Za-z0-9_-]+$`));
    const read = await readFragment(fragment);
    assert.equal(read.kind, kind);
    assert.deepEqual(read.doc.picture, doc.picture);
    assert.deepEqual(read.doc.colours, doc.colours);
    assert.deepEqual([...read.doc.givens], [3, 17]);
    assert.deepEqual([...read.doc.locks], [5]);
    assert.equal(read.doc.about.title, 'Ente & Möwe');
    assert.equal(read.doc.about.author, '“A”');
  }
});

test('a link has no clues, not even of a picture that is open', async () => {
  const doc = noise(5, 6, 3, 9);
  const clues = {rows: Array(5).fill([{length: 1, letter: 'a'}]), columns: Array(6).fill([])};
  for (const kind of ['play', 'edit'])
    assert.equal(await fragmentOf({...doc, clues}, kind), await fragmentOf(doc, kind));
});

test('the smallest and the largest pictures', async () => {
  for (const doc
           of [noise(1, 1, 2, 1),
               noise(120, 120, 16, 2),
               noise(1, 120, 16, 3),
               docOf(emptyDoc(120, 120, [255, 255, 255]))]) {
    const {doc: read} = await readFragment(await fragmentOf(doc, 'edit'));
    assert.deepEqual(packedDoc(read).picture, packedDoc(doc).picture);
  }
});

test('any picture of 30 by 30 in 8 colours has a link of fewer than 2,000 characters', async () => {
  for (let seed = 1; seed <= 20; seed++) {
    const {length} = await fragmentOf(noise(30, 30, 8, seed), 'play');
    assert.ok(
        length < 1900, `${length} characters, which leaves too few for the address of a page`
    );  // noise is the worst: it cannot be packed
  }
});

test('what is no link, and what is damaged', async () => {
  for (const other of ['', '#', '#play', '#help', '#edit', '#other=abc'])
    assert.equal(await readFragment(other), null);
  const good = await fragmentOf(noise(10, 10, 4, 5), 'play');
  const bad = [
    `${good}%`,
    good.slice(0, -9),
    '#play=',
    '#edit=AAAA',
    good.replace('#play=', '#play=x'),
    good.replace('#play=', '#play= ')
  ];
  for (const one of bad) await assert.rejects(readFragment(one), FileFault, one.slice(0, 40));
});

test('a changed character is noticed', async () => {
  const good = await fragmentOf(noise(10, 10, 4, 5), 'play');
  let refused = 0;
  for (let at = 6; at < good.length; at += 7) {
    const changed = `${good.slice(0, at)}${good[at] === 'A' ? 'B' : 'A'}${good.slice(at + 1)}`;
    await assert.rejects(readFragment(changed), FileFault, `character ${at}`);
    refused++;
  }
  assert.ok(refused > 0);
});
