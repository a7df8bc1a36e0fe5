// Tests of the page's modules as a house: each says what it is and is short, folders ask only
// folders below them, and nothing is taken as HTML or fetched. Run: node --test
// tests/page/page_scope.mjs
import assert from 'node:assert/strict';
import {readFileSync, readdirSync} from 'node:fs';
import {dirname, join, relative, resolve} from 'node:path';
import {test} from 'node:test';
import {fileURLToPath} from 'node:url';
import '../../page/test/limits.mjs';

const page = fileURLToPath(new URL('../../page/', import.meta.url));
const FOLDERS = [
  'texts',
  'base',
  'document',
  'formats',
  'repair',
  'engine',
  'draw',
  'view',
  'play',
  'library',
  'import',
  'export',
  'start'
];  // from below
const modules = readdirSync(page, {recursive: true})
                    .filter((file) => file.endsWith('.js') && !file.startsWith('test/'))
                    .sort();
const read = (file) => readFileSync(join(page, file), 'utf8');
const importsOf = (file
) => [...read(file).matchAll(/^(?:import|export)\b[^;]*?from '([^']+)';$|^import '([^']+)';$/gm)]
         .map((found) => found[1] ?? found[2]);
const fileOf = (from, to) => relative(page, resolve(page, dirname(from), to));

test('there are modules in folders', () => {
  assert.ok(modules.length > 40);
  for (const file of modules)
    assert.ok(file === 'main.js' || FOLDERS.includes(dirname(file)), file);
});

test('each module says what it is, and is short', () => {
  for (const file of modules) {
    const lines = read(file).split('\n');
    assert.match(lines[0], /^\/\/ [A-Z]/, `${file} says what it is`);
    assert.ok(
        lines.length <= 801 || file.startsWith('texts/'), `${file} has ${lines.length} lines`
    );
  }
});

test('a folder asks only folders below it, and only modules that are there', () => {
  for (const file of modules.filter((one) => one !== 'main.js')) {
    for (const other of importsOf(file).map((one) => fileOf(file, one))) {
      if (other === '../web/nonobench.mjs') continue;  // what sites have of it too
      assert.ok(modules.includes(other), `${file} imports ${other}`);
      assert.ok(
          FOLDERS.indexOf(dirname(other)) <= FOLDERS.indexOf(dirname(file)),
          `${file} asks ${other}, which is above it`
      );
    }
  }
});

test('no folder that writes files or sheets works out clues: those are the engine\'s', () => {
  const working = ['repair/lines.js', 'repair/narrowing.js', 'play/crossing.js'];
  for (const file of modules.filter(
           (one) => ['formats', 'draw', 'library', 'import', 'export'].includes(dirname(one))
       )) {
    for (const other of importsOf(file))
      assert.ok(!working.includes(fileOf(file, other)), `${file} imports ${other}`);
  }
  const given = [
    ...read('formats/webpbn_reading.js'
    ).matchAll(/^export (?:async )?(?:function|const|class) (\w+)/gm)
  ].map(([, name]) => name);
  assert.deepEqual(
      given,
      ['readWebpbnSet', 'readWebpbn'],
      'what compares a file\'s clues with its picture stays there'
  );
});

const ENTRIES = [
  'main.js',
  'engine/worker.js',
  'import/frame.js'
];  // of the page, of the worker, and of the frame in which drawings are drawn

test('each module is reached from main, the worker or the frame', () => {
  const reached = new Set();
  const go = (file) => {
    if (reached.has(file) || file.startsWith('..')) return;
    reached.add(file);
    for (const other of importsOf(file)) go(fileOf(file, other));
  };
  for (const first of ENTRIES) go(first);
  assert.deepEqual(modules.filter((file) => !reached.has(file) && dirname(file) !== 'repair'), []);
});

test('what is worked out without a document is imported without one', async () => {
  for (const file of modules.filter(
           (one
           ) => ['texts', 'base', 'document', 'formats', 'engine', 'repair', 'library', 'import']
                    .includes(dirname(one)) &&
               !ENTRIES.includes(one)
       )) {
    await import(join(page, file));
  }
});

test('nothing is taken as HTML and nothing is fetched', () => {
  for (const file of modules)
    assert.doesNotMatch(
        read(file),
        /innerHTML|outerHTML|insertAdjacentHTML|document\.write|\bfetch\(|XMLHttpRequest|WebSocket|\beval\(/,
        file
    );
});
