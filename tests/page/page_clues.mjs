// Tests of the clues that leave the page with pictures that are not open: they are those that the
// engine tells, in a worker of its own, by the letters of the document; and where a picture does
// not open, nothing leaves. The engine is the module, the file WASM; without one these tests are
// left out. Run: node --test tests/page/page_clues.mjs
import assert from 'node:assert/strict';
import {test as testAlways} from 'node:test';
import {cluesOf} from '../../page/test/clues.mjs';
import {needsModule, saidLine, workers} from '../../page/test/worker.mjs';
import {readZip} from '../../page/test/zips.mjs';
import {docOf, emptyDoc, sameDoc} from '../../page/document/document.js';
import {Client} from '../../page/engine/client.js';
import {archiveOf} from '../../page/import/archives.js';
import {withClues} from '../../page/library/open.js';
import {Chance} from '../packages/chance.mjs';

const test = (name, f) => testAlways(name, needsModule, f);
const line = saidLine();

// Five colours: the last one comes first, and two are not used.
const COLOURS = [[255, 255, 255], [0, 0, 0], [200, 40, 40], [40, 80, 200], [0, 160, 0]];
const NAMES = ['paper', 'ink', 'unused', 'sea', 'unused too'];
const PIER = docOf({
  rows: 2,
  columns: 3,
  maxval: 255,
  colours: COLOURS,
  picture: ['c.a', 'cca'],
  givens: new Set([5]),
  about: {title: 'Pier'},
  inks: NAMES.map((name) => ({name})),
  locks: new Set([0])
});

// What workers of an engine make of pictures, and the workers.
async function made(work, options = {}) {
  const all = [];
  const found = await work(() => new Client(workers({...options, made: all})()));
  return {found, workers: all};
}

// The clues of the first XML file of an archive, a text for each line: lengths and names of
// colours, columns first.
async function cluesIn(bytes) {
  const [{bytes: content}] = await readZip(bytes);
  const lines = [...new TextDecoder().decode(content).matchAll(/<line>(.*)<\/line>/g)];
  return lines.map(
      ([, counts]) => [...counts.matchAll(/<count color="([^"]*)">(\d+)<\/count>/g)]
                          .map(([, name, length]) => `${length} ${name}`)
                          .join(', ')
  );
}

test('the clues of an archive, by the colours of its document', async () => {
  const {found, workers: all} =
      await made((start) => archiveOf([{name: 'pier', doc: PIER}], [], start));
  assert.deepEqual(
      await cluesIn(found), ['2 sea', '1 sea', '2 ink', '1 sea, 1 ink', '2 sea, 1 ink']
  );
  assert.deepEqual([all.length, all[0].isEnded, line.text], [1, true, '']);
});

test('what the engine tells stands in the archive, and nothing else', async () => {
  const alter = (text) =>
      text.replace('r 1: 1c 1a\n', 'r 1: 7b 1a\n').replace('c 3: 2a\n', 'c 3: 9d\n');
  const {found} = await made((start) => archiveOf([{name: 'pier', doc: PIER}], [], start), {alter});
  assert.deepEqual(
      await cluesIn(found), ['2 sea', '1 sea', '9 unused too', '7 unused, 1 ink', '2 sea, 1 ink']
  );
});

test('what the engine tells is what is printed of pictures of the library', async () => {
  const alter = (text) => text.replace('r 1: 1c 1a\n', 'r 1: 7b 1a\n');
  const {found: [puzzle]} =
      await made((start) => withClues([{name: 'pier', doc: PIER, grade: 'hard'}], start), {alter});
  assert.deepEqual([puzzle.name, puzzle.grade, puzzle.doc.about.title], ['pier', 'hard', 'Pier']);
  assert.deepEqual(puzzle.clues.rows, [
    [{length: 7, letter: 'b'}, {length: 1, letter: 'a'}],
    [{length: 2, letter: 'c'}, {length: 1, letter: 'a'}]
  ]);
});

// A document with any number of colours in any order, some of them not used, and with more colours
// than cells at times.
function anyDoc(chance) {
  const [rows, columns, count] = [1 + chance.below(7), 1 + chance.below(7), 1 + chance.below(16)];
  const colours =
      Array.from({length: count}, (_, at) => [chance.below(256), chance.below(256), 16 * at]);
  const used =
      Array.from({length: 1 + chance.below(count)}, () => '.abcdefghijklmno'[chance.below(count)]);
  const picture = Array.from(
      {length: rows},
      () => Array.from({length: columns}, () => used[chance.below(used.length)]).join('')
  );
  const places = () =>
      new Set(Array.from({length: chance.below(4)}, () => chance.below(rows * columns)));
  return docOf({
    rows,
    columns,
    maxval: 255,
    colours,
    picture,
    givens: places(),
    about: {title: `${rows}`},
    inks: colours.map((_, at) => ({name: `ink ${at}`})),
    locks: places()
  });
}

test(
    'pictures stay as they are, with their letters: one worker opens all of them, and ends',
    async () => {
      const chance = new Chance(3);
      const puzzles =
          Array.from({length: 300}, (_, at) => ({name: `puzzle ${at}`, doc: anyDoc(chance)}));
      const {found, workers: all} = await made((start) => withClues(puzzles, start));
      assert.equal(found.length, 300);
      for (const [at, {doc}] of puzzles.entries()) {
        assert.ok(
            sameDoc(found[at].doc, doc), JSON.stringify([doc.picture, found[at].doc.picture])
        );
        assert.deepEqual(found[at].clues, cluesOf(doc.picture));
        assert.equal(found[at].name, `puzzle ${at}`);
      }
      assert.deepEqual(all.map((worker) => worker.isEnded), [true]);
    }
);

test('nothing to open starts no worker', async () => {
  const {found, workers: all} = await made((start) => withClues([], start));
  assert.deepEqual([found, all.length], [[], 0]);
});

test('where a picture does not open, nothing leaves, and that is said', async () => {
  const puzzles = ['one', 'two', 'three'].map(
      (name, at) =>
          ({name, doc: docOf({...emptyDoc(2, 2), picture: ['a.', at === 1 ? 'aa' : '.a']})})
  );
  let count = 0;
  const {found, workers: all} =
      await made((start) => archiveOf(puzzles, [], start), {fails: () => ++count === 2});
  assert.deepEqual([found, all.map((worker) => worker.isEnded)], [null, [true]]);
  assert.deepEqual([line.text, line.dataset.kind], [
    'Nothing was saved or printed, as “two” could not be opened: there is not enough memory for it',
    'alarm'
  ]);
  puzzles[2].doc = emptyDoc(121, 1);
  const wide = await made((start) => archiveOf(puzzles, [], start));
  assert.deepEqual([wide.found, wide.workers.map((worker) => worker.isEnded)], [null, [true]]);
  assert.match(line.text, /^Nothing was saved or printed, as “three” could not be opened: ./);
  const strange = await made((start) => withClues(puzzles.slice(0, 1), start), {
    alter: (text) => text.replace('clues\n', 'other clues\n')
  });
  assert.deepEqual(
      [strange.found, strange.workers[0].isEnded, line.dataset.kind], [null, true, 'alarm']
  );
});

test(
    'an archive is made picture by picture, up to where that is stopped: then nothing leaves, and nothing is said',
    async () => {
      const puzzles = ['one', 'two', 'three'].map((name) => ({name, doc: emptyDoc(2, 2)}));
      const heard = [];
      const progress = {
        isStopped: false,
        goesOn: async (text) => heard.push(text) < 3,
        held: (engine) => engine
      };
      line.text = '';
      const {found, workers: all} = await made((start) => archiveOf(puzzles, [], start, progress));
      assert.deepEqual(
          [found, heard, all[0].said.length, all[0].isEnded, line.text],
          [null, ['0 of 3', '1 of 3', '2 of 3'], 2, true, '']
      );
      const within = await made((start) => archiveOf(puzzles, [], start, {
                                  isStopped: true,
                                  goesOn: async () => true,
                                  held: (engine) => (engine.end('stopped'), engine)
                                }));
      assert.deepEqual([within.found, line.text], [null, '']);
    }
);
