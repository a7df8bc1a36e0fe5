// Tests of what leaves the page: it has the colours of cells and the background, and no other one.
// Run: node --test tests/page/page_used.mjs
import assert from 'node:assert/strict';
import {test} from 'node:test';
import '../../page/test/limits.mjs';
import {cluesOf} from '../../page/test/clues.mjs';
import {docOf} from '../../page/document/document.js';
import {hasUnused, usedLetters, withoutUnused} from '../../page/document/used.js';
import {readFragment, fragmentOf} from '../../page/formats/link.js';
import {webpbnText} from '../../page/formats/webpbn.js';
import {readWebpbn} from '../../page/formats/webpbn_reading.js';

const {entryOf} = await import('../../page/export/entries.js');

const WHITE = [255, 255, 255];
const [BLACK, RED, BLUE, GREEN] = [[0, 0, 0], [200, 30, 40], [30, 60, 220], [20, 150, 60]];
const doc = docOf({
  rows: 2,
  columns: 4,
  maxval: 255,
  colours: [WHITE, BLACK, RED, BLUE, GREEN],
  picture: ['bb.d', '.d.b'],
  givens: new Set([1]),
  inks: [{}, {name: 'ink'}, {name: 'rose', sign: 'R'}, {sign: 'u'}]
});
const clues = cluesOf(doc.picture);
const used = withoutUnused(doc, clues);

test('colours without a cell go, and the others keep their order, names and signs', () => {
  assert.deepEqual(usedLetters(doc), ['b', 'd']);
  assert.ok(hasUnused(doc));
  assert.deepEqual(used.doc.colours, [WHITE, RED, GREEN]);
  assert.deepEqual(used.doc.picture, ['aa.b', '.b.a']);
  assert.deepEqual(used.doc.inks, [{}, {name: 'rose', sign: 'R'}, {}]);
  assert.deepEqual([...used.doc.givens], [1]);
  assert.deepEqual(used.clues, cluesOf(used.doc.picture));
});

test(
    'the background stays where no cell has it, and what has no other colour stays as it is',
    () => {
      const whole = docOf({...doc, colours: [WHITE, RED], inks: [], picture: ['aaaa', 'aaaa']});
      assert.equal(withoutUnused(whole, null).doc, whole);
      const three = withoutUnused({...whole, colours: [WHITE, RED, BLUE]}).doc;
      assert.deepEqual(three.colours, [WHITE, RED]);
      assert.equal(withoutUnused({...whole, colours: [WHITE, RED, BLUE]}).clues, null);
    }
);

test('a puzzle with further solutions keeps its colours', () => {
  const more = {...doc, extras: {solutions: [{type: 'saved', image: '|....|\n|XXXX|'}]}};
  assert.equal(withoutUnused(more, clues).doc, more);
});

test('an XML, a link and a legend have only colours of cells and the background', async () => {
  const text = webpbnText(used.doc, used.clues);
  assert.equal(text.match(/<color /g).length, 3);
  assert.doesNotMatch(text, /ink|1e3cdc|000000/);
  assert.deepEqual(readWebpbn(text).doc.picture, ['aa.b', '.b.a']);
  const {doc: linked} = await readFragment(await fragmentOf(used.doc, 'play'));
  assert.deepEqual(linked.colours, [WHITE, RED, GREEN]);
  const entry = entryOf({doc, clues, name: 'used'}, {show: 'colours', hasGrade: false});
  assert.deepEqual(entry.doc.colours, [WHITE, RED, GREEN]);
  assert.deepEqual(entry.legend.map(({text: name}) => name), ['rose', 'green']);
  const mono = docOf({...doc, colours: [WHITE, BLACK, RED], inks: [], picture: ['aa.a', '.a..']});
  const black = entryOf(
      {doc: mono, clues: cluesOf(mono.picture), name: 'black'}, {show: 'colours', hasGrade: false}
  );
  assert.deepEqual(black.legend, [], 'black on white needs none');
});
