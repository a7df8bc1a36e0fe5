// Tests of the open document: strokes, undo by stroke, a history that is too short, workers that
// end or answer nonsense, what the page alone keeps, and what is kept. The worker is the page's own
// over the module, the file WASM; without one they are left out. Run: node --test
// tests/page/page_bench.mjs
import assert from 'node:assert/strict';
import {test as testAlways} from 'node:test';
import {needsModule, workers} from '../../page/test/worker.mjs';
import {on} from '../../page/base/events.js';
import {baseOf} from '../../page/document/cover.js';
import {docOf, pageOf, sameDoc} from '../../page/document/document.js';
import {Bench} from '../../page/engine/bench.js';
import {Client} from '../../page/engine/client.js';
import {bytesOfSigns, signsOf} from '../../page/engine/signs.js';
import {readRecord, recordOf} from '../../page/library/records.js';
import {Chance} from '../packages/chance.mjs';

const test = (name, f) => testAlways(name, needsModule, f);
const COLOURS = [[255, 255, 255], [0, 0, 0], [200, 30, 30]];
const empty = (rows, columns) => ({
  rows,
  columns,
  maxval: 255,
  colours: COLOURS,
  picture: Array(rows).fill('.'.repeat(columns)),
  givens: new Set()
});

async function opened(doc = empty(3, 4), options = {}) {
  const made = [];
  const bench = new Bench(() => new Client(workers({...options, made})()));
  await bench.open(baseOf(doc));
  return {bench, made};
}
const words = (answers) => answers.map((answer) => answer.name ?? answer.kind);

testAlways('bytes of any number are the same after they were signs', () => {
  const chance = new Chance(1);
  for (let size = 0; size < 200; size += 1) {
    const bytes =
              Uint8Array.from({length: size}, () => [0, 255, chance.below(256)][chance.below(3)]),
          signs = signsOf(bytes);
    assert.match(signs, /^[!-~]*$/);
    assert.doesNotMatch(signs, /["<\\]/);
    assert.deepEqual(bytesOfSigns(signs, size), bytes);
  }
});

test('an undo takes back a stroke, not a command', async () => {
  const {bench} = await opened();
  await bench.stroke(['paint 1 1 a', 'paint 3 4 b']);
  await bench.stroke(['pin 1 1']);
  assert.deepEqual([bench.state.picture, [...bench.state.givens]], [['a...', '....', '...b'], [0]]);
  await bench.undo();
  await bench.undo();
  assert.deepEqual(
      [bench.state.picture, bench.past.length, bench.future.length],
      [['....', '....', '....'], 0, 2]
  );
  assert.deepEqual(words(await bench.undo()), ['UndoEmpty']);
  await bench.redo();
  assert.deepEqual(bench.state.picture, ['a...', '....', '...b']);
  await bench.stroke(['recolour a b']);
  assert.deepEqual(words(await bench.redo()), ['RedoEmpty']);
});

test('a stroke behind an undo that waits is made on what the undo leaves', async () => {
  const {bench} = await opened();
  await bench.stroke(['paint 1 1 a']);
  await bench.stroke(['paint 1 1 b', 'paint 1 2 b']);
  const seen = [];
  const waits = [bench.undo(), bench.undo(), bench.redo()];
  waits.push(bench.stroke((doc) => {
    seen.push(doc.picture[0]);
    return ['recolour a b'];
  }));
  waits.push(bench.undo(), bench.undo());
  await Promise.all(waits);
  assert.deepEqual(seen, ['a...'], 'the commands are made of the document that the stroke meets');
  assert.deepEqual(
      [bench.state.picture[0], bench.past.length, bench.future.length], ['....', 0, 2]
  );
});

test('strokes made at once are one each, and what is refused counts for nothing', async () => {
  const {bench} = await opened();
  const answers = await Promise.all([
    bench.stroke(['paint 1 1 a']),
    bench.stroke(['paint 1 1 a']),
    bench.stroke(['paint 1 2 b', 'paint 1 2 b'])
  ]);
  assert.deepEqual(answers.map(words), [['ok'], ['NoChange'], ['ok', 'NoChange']]);
  assert.equal(bench.past.length, 2);
  await bench.undo();
  assert.equal(bench.state.picture[0], 'a...');
});

test('a stroke that the history does not hold is painted back whole', async () => {
  const {bench} = await opened(empty(40, 40));
  const checks = [];
  for (let row = 1; row <= 40; row++)
    for (let col = 1; col <= 40; col++)
      if ((row + col) % 2) checks.push(`paint ${row} ${col} a`);
  await bench.stroke(['pin 1 1', ...checks]);  // 801 commands
  await bench.stroke(checks.map((line) => line.replace(/a$/, 'b'))
  );  // 800 more: the first is not held whole
  assert.deepEqual(bench.past.map((stroke) => stroke.live), [false, true]);
  await bench.undo();
  assert.equal(bench.state.picture[0].slice(0, 4), '.a.a');
  await bench.undo();
  assert.ok(sameDoc(docOf(bench.state), empty(40, 40)));
  await bench.redo();
  await bench.redo();
  assert.deepEqual([bench.state.picture[0].slice(0, 4), [...bench.state.givens]], ['.b.b', [0]]);
});

test('two hundred strokes of ten commands are taken back one by one', async () => {
  const {bench} = await opened(empty(20, 20));
  const pictures = [bench.state.picture.join()];
  for (let turn = 0; turn < 200; turn++) {
    const lines = [...Array(10).keys()].map(
        (at) => `paint ${1 + ((turn * 7 + at * 2) % 20)} ${
            1 + ((turn * 3 + at) % 20)} ${'ab.'[(turn + at) % 3]}`
    );
    await bench.stroke(lines);
    if (bench.state.picture.join() !== pictures.at(-1)) pictures.push(bench.state.picture.join());
  }
  assert.ok(pictures.length > 190);
  while (bench.past.length) {
    assert.equal(bench.state.picture.join(), pictures.pop());
    await bench.undo();
  }
  assert.equal(bench.state.picture.join(), pictures.pop());
});

test('another size or palette is one stroke', async () => {
  const {bench} = await opened();
  await bench.stroke(['paint 1 1 b']);
  const doc = {...empty(2, 2), picture: ['b.', 'ab'], givens: new Set([1])};
  await bench.become(doc);
  assert.ok(sameDoc(docOf(bench.state), doc));
  await bench.undo();
  assert.deepEqual([bench.state.rows, bench.state.columns, bench.state.picture[0]], [3, 4, 'b...']);
  await bench.undo();
  assert.equal(bench.state.picture[0], '....');
  await bench.redo();
  await bench.redo();
  assert.ok(sameDoc(docOf(bench.state), doc));
  await bench.become(
      {...doc, colours: [COLOURS[0], COLOURS[2]], picture: ['a.', '.a'], givens: new Set()}
  );
  assert.deepEqual(bench.state.colours, [COLOURS[0], COLOURS[2]]);
  await bench.undo();
  assert.ok(sameDoc(docOf(bench.state), doc));
});

test('a worker that ends is replaced, and its strokes are made again', async () => {
  let fails = 1;
  const {bench, made} =
      await opened(empty(3, 4), {fails: (text) => text.includes('paint 2 2') && fails-- > 0});
  const heard = [];
  const stop = on('recovered', (fault) => heard.push(fault.text));
  await bench.stroke(['paint 1 1 a']);
  const both = await Promise.all([bench.stroke(['paint 2 2 b']), bench.stroke(['paint 3 3 a'])]);
  stop();
  assert.deepEqual(both.map(words), [['ok'], ['ok']]);
  assert.deepEqual(bench.state.picture, ['a...', '.b..', '..a.']);
  assert.deepEqual([made.length, made[0].isEnded, heard], [2, true, ['out of memory']]);
  for (let turn = 0; turn < 3; turn++) await bench.undo();
  assert.deepEqual(bench.state.picture, ['....', '....', '....']);
});

test('a stroke that ends each worker is left out, and the rest goes on', async () => {
  const {bench} = await opened(empty(3, 4), {fails: (text) => text.includes('paint 2 2')});
  await bench.stroke(['paint 1 1 a']);
  await assert.rejects(bench.stroke(['paint 2 2 b']), {kind: 'ended'});
  await bench.stroke(['paint 3 3 a']);
  assert.deepEqual(bench.state.picture, ['a...', '....', '..a.']);
});

test('where no worker comes in its place, what is shown is what is there', async () => {
  let isBroken = false;
  const {bench} = await opened(empty(3, 4), {fails: () => isBroken});
  await bench.stroke(['paint 1 1 a']);
  const heard = [];
  const ends = [
    on('shown', () => heard.push(bench.seen().picture[0])),
    on('lost', () => heard.push('lost'))
  ];
  isBroken = true;
  await assert.rejects(bench.stroke(['paint 1 2 b']));
  for (const end of ends) end();
  assert.deepEqual(heard, ['a...', 'lost']);
  isBroken = false;
  await bench.stroke(['paint 1 3 b']);
  assert.equal(bench.state.picture[0], 'a.b.');
});

test('of strokes sent together only the one that ends each worker is left out', async () => {
  const {bench} = await opened(empty(3, 4), {fails: (text) => text.includes('paint 2 2')});
  const made = await Promise.allSettled(
      [bench.stroke(['paint 1 1 a']), bench.stroke(['paint 2 2 b']), bench.stroke(['paint 3 3 a'])]
  );
  assert.deepEqual(made.map((one) => one.status), ['fulfilled', 'rejected', 'fulfilled']);
  assert.deepEqual(bench.state.picture, ['a...', '....', '..a.']);
});

test('a search that ends each worker is not made again and again', async () => {
  const {bench, made} = await opened(empty(3, 4), {fails: (text) => /^allow [1-9]/.test(text)});
  await bench.stroke(['paint 1 1 a', 'paint 2 2 a']
  );  // another picture has these clues, which takes a search
  while (bench.running) await new Promise((go) => setImmediate(go));
  assert.deepEqual(
      [bench.state.picture[0], bench.state.verdict.word, bench.running],
      ['a...', 'undecided', false]
  );
  assert.ok(made.length <= 4);
});

test('a document that is opened while another one waits is the one that counts', async () => {
  const {bench} = await opened();
  const waits = bench.stroke(['paint 1 1 a']);
  await bench.open(baseOf(empty(2, 2)));
  await waits;
  await bench.stroke(['paint 2 2 b']);
  while (bench.running) await new Promise((go) => setImmediate(go));
  assert.deepEqual([bench.state.picture, bench.past.length], [['..', '.b'], 1]);
  assert.deepEqual(await new Bench(() => null).stroke(['paint 1 1 a']), [], 'nothing is open');
});

test('a text that no session writes is not taken', async () => {
  const {bench, made} = await opened();
  const worker = made[0];
  const hear = worker.onmessage;
  worker.onmessage = ({data}) => hear({data: {...data, ok: 'size 1 1\nnonsense\n'}});
  await bench.stroke(['paint 1 1 a']);
  assert.deepEqual([bench.state.picture, made.length], [['a...', '....', '....'], 2]);
});

// What is kept of a bench, opened in another one.
async function reopened(bench) {
  const {doc, name, strokes} = readRecord(JSON.parse(JSON.stringify(recordOf(bench, 'x'))));
  const again = new Bench(() => new Client(workers()()));
  await again.open(baseOf(doc), {name, page: pageOf(doc), strokes});
  return again;
}

test('what is open has a name that a file may have, wherever it came from', async () => {
  const {bench} = await opened();
  await bench.open(baseOf(empty(2, 2)), {name: '../../up/and/away\n'});
  assert.equal(bench.name, '.. .. up and away');  // files and entries of zips are called by it
});

test('what is kept brings picture and strokes back', async () => {
  const {bench} = await opened();
  await bench.stroke(['paint 1 1 a', 'paint 1 2 b']);
  await bench.stroke(['insert row 1']);
  await bench.stroke(['pin 2 1']);
  await bench.undo();
  const again = await reopened(bench);
  assert.ok(sameDoc(docOf(again.state), docOf(bench.state)));
  await again.redo();
  assert.deepEqual([...again.state.givens], [4]);
  for (let turn = 0; turn < 3; turn++) await again.undo();
  assert.ok(sameDoc(docOf(again.state), empty(3, 4)));
});

test('what was made another document is kept, too', async () => {
  const {bench} = await opened();
  await bench.stroke(['paint 1 1 a']);
  await bench.become({...empty(5, 2), picture: ['.a', '..', '..', '..', 'b.']});
  await bench.stroke(['paint 1 1 b']);
  const again = await reopened(bench);
  assert.ok(sameDoc(docOf(again.state), docOf(bench.state)));
  await again.undo();
  assert.deepEqual(again.state.picture, ['.a', '..', '..', '..', 'b.']);
  await again.undo();
  await again.undo();
  assert.deepEqual(again.state.picture, ['....', '....', '....']);
});

test(
    'names, signs and locks are under undo, texts about the puzzle are not, and all count for what is saved',
    async () => {
      const {bench} = await opened();
      bench.saved(docOf(bench.state));
      assert.equal(bench.isSaved, true);
      await bench.become((doc) => ({...doc, inks: [{}, {name: 'bark', sign: 'b'}]}));
      await bench.stroke(['paint 1 1 a']);
      await bench.undo();
      await bench.become((doc) => ({...doc, about: {title: 'Tree'}}));
      const facts = () =>
          [bench.state.picture[0],
           bench.state.inks[1]?.name ?? '',
           bench.state.about.title ?? '',
           bench.past.length,
           bench.future.length,
           bench.isSaved];
      assert.deepEqual(
          facts(),
          ['....', 'bark', 'Tree', 1, 1, false],
          'no stroke, and what can be made again stays'
      );
      await bench.undo();
      assert.deepEqual(facts(), ['....', '', 'Tree', 0, 2, false]);
      for (let turn = 0; turn < 2; turn++) await bench.redo();
      assert.deepEqual(facts(), ['a...', 'bark', 'Tree', 2, 0, false]);
      await bench.become((doc) => ({...doc, about: {}}));
      for (let turn = 0; turn < 2; turn++) await bench.undo();
      assert.deepEqual(facts(), ['....', '', '', 0, 2, true]);
    }
);

test('of strokes of earlier versions those that changed texts alone are none', async () => {
  const made = new Bench(() => new Client(workers()()));
  const titled = {...docOf(empty(3, 4)), about: {title: 'Tree'}};
  const now = {...titled, picture: ['a...', '....', '....']};
  await made.open(baseOf(now), {
    page: pageOf(now),
    strokes: {past: [docOf(empty(3, 4)), titled], future: [{...now, about: {}}, empty(3, 4)]}
  });
  assert.deepEqual([made.past.length, made.future.length], [1, 1]);
  await made.undo();
  assert.deepEqual([made.state.picture[0], made.state.about.title], ['....', 'Tree']);
});

test('locked cells go with their lines, as given ones do', async () => {
  const {bench} = await opened();
  await bench.become(
      (doc) => ({...doc, givens: new Set([0, 6]), locks: new Set([0, 6])})
  );  // row 1 column 1, row 2 column 3
  for (const lines
           of [['insert row 1'],
               ['insert column 2'],
               ['swap row 2 3'],
               ['swap column 1 4'],
               ['delete row 1'],
               ['delete column 2'],
               ['delete row 1']]) {
    await bench.stroke(lines);
    assert.deepEqual(
        [...bench.state.locks].sort((a, b) => a - b),
        [...bench.state.givens].sort((a, b) => a - b),
        lines[0]
    );
  }
  assert.equal(bench.state.locks.size, 1);
  for (let turn = 0; turn < 7; turn++) await bench.undo();
  assert.deepEqual([...bench.state.locks], [0, 6]);
});

test('undone to what a file has, a document is saved again', async () => {
  const {bench} = await opened();
  await bench.stroke(['paint 1 1 a']);
  assert.equal(bench.isSaved, false);
  bench.saved(docOf(bench.state));
  await bench.stroke(['paint 1 2 a']);
  assert.equal(bench.isSaved, false);
  await bench.undo();
  assert.equal(bench.isSaved, true);
});

test('a stroke that floats on what others paint is seen at once', async () => {
  const {bench} = await opened();
  const waits = [
    bench.stroke(['paint 1 1 a'], new Map([[0, 'a']])),
    bench.stroke(['paint 1 2 b'], new Map([[1, 'b']]))
  ];
  assert.equal(bench.seen().picture[0], 'ab..');
  await Promise.all(waits);
  assert.equal(bench.state.picture[0], 'ab..');
});

test('an opening that fails leaves what was open', async () => {
  const {bench} = await opened();
  await bench.stroke(['paint 1 1 a']);
  await assert.rejects(
      bench.open({text: 'P3 nonsense', background: '255,255,255', lines: []}), {kind: 'picture'}
  );
  await bench.stroke(['paint 1 2 a']);
  assert.equal(bench.state.picture[0], 'aa..');
});
