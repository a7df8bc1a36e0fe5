// Tests of the checker alone by node's own runner: WASM=path CHECK=folder node --test
// web/check_test.mjs. CHECK has nonobench-check.wasm and nonobench-check.mjs. Its answers are those
// of the files in tests/cases, and of the whole module, WASM.
import assert from 'node:assert/strict';
import {readFileSync} from 'node:fs';
import {dirname, join} from 'node:path';
import test from 'node:test';
import {fileURLToPath, pathToFileURL} from 'node:url';
import {faultBy, mustCheckForms, mustCheckPublished, refusedInTurn} from '../tests/cases.mjs';
import {TRIED, waits} from '../tests/waits.mjs';
import {load as loadEngine} from './nonobench.mjs';

const root = join(dirname(fileURLToPath(import.meta.url)), '..');
const folder = process.env.CHECK ?? join(root, 'web', 'out');
const bytes = readFileSync(join(folder, 'nonobench-check.wasm')),
      script = readFileSync(join(folder, 'nonobench-check.mjs'));
const {Fault, load} = await import(pathToFileURL(join(folder, 'nonobench-check.mjs')).href);
const engine =
    await loadEngine(readFileSync(process.env.WASM ?? join(root, 'web', 'out', 'nonobench.wasm')));
const text = (...parts) => readFileSync(join(root, ...parts), 'utf8');
const VERSION = TRIED ??
    /VERSION: &str = "([^"]+)"/.exec(text('crates', 'program_options', 'src', 'version.rt'))[1];

const PICTURE = 'P3 2 2 255 0 0 0 255 255 255 255 255 255 0 0 0\n';
const CERTIFICATE = 'nonocert 2\ngiven 1 1\nline r 1\nline c 1\nline r 2\ndone\n';
const ALL = 'nonocert 2\ngiven 1 1\ngiven 1 2\ngiven 2 1\ngiven 2 2\ndone\n';

// The answer that is reported, which the whole module gives too.
function answerOf(checker, picture, certificate, options) {
  const answer = checker.check(picture, certificate, options);
  assert.deepEqual(answer, engine.check(picture, certificate, options));
  return answer;
}

const faultOf = (call) => faultBy(Fault, call);

test('it is small, and imports nothing', () => {
  assert.ok(bytes.length + script.length <= 100000, `${bytes.length} and ${script.length} bytes`);
  assert.deepEqual(WebAssembly.Module.imports(new WebAssembly.Module(bytes)), []);
  assert.doesNotMatch(script.toString(), /^import |import\(/m);
});

test('certificates of all forms are answered as the cases say', async () => {
  const checker = await load(bytes);
  mustCheckForms(
      (picture, certificate) => answerOf(checker, picture, certificate, {anyGiven: true})
  );
});

test('a certificate is accepted where its givens are among those that are published', async () => {
  const checker = await load(bytes);
  mustCheckPublished(
      (picture, certificate, options) => answerOf(checker, picture, certificate, options)
  );
});

test('givens as places and as a file', async () => {
  const checker = await load(bytes);
  assert.equal(checker.version, VERSION);
  const refused = {
    accepted: false,
    status: 1,
    text: 'certificate UnpublishedGiven at line 2',
    givens: [[1, 1]]
  };
  for (const options of [undefined, null, {}, {published: null}, {published: [[1, 2]]}])
    assert.deepEqual(answerOf(checker, PICTURE, CERTIFICATE, options), refused);
  for (const givens
           of ['given 1 1\n', new TextEncoder().encode('given 2 2\ngiven 1 1'), [[2, 2], [1, 1]]]) {
    assert.deepEqual(answerOf(checker, PICTURE, CERTIFICATE, {published: givens}).accepted, true);
  }
  for (const [givens, name] of [
           ['all', 'BadLine at line 1'],
           [[[1, 1], [0, 1]], 'Place at line 2'],
           [[[1, 1], [1, 1]], 'Repeated at line 2']]) {
    assert.deepEqual(
        answerOf(checker, PICTURE, CERTIFICATE, {published: givens}).text, `givens ${name}`
    );
  }
  assert.deepEqual(answerOf(checker, 'P4\n', CERTIFICATE).text, 'ppm NotP3 at byte 0');
  assert.throws(() => checker.check(PICTURE, CERTIFICATE, {published: [[1]]}), TypeError);
  const two = 'P3 2 1 255 0 0 0 9 9 9\n', plain = 'nonocert 1\nline r 1\ndone\n';
  assert.equal(answerOf(checker, two, plain).status, 0);
  assert.equal(
      answerOf(checker, two, plain, {background: '0,00,0'}).text, 'certificate NotDone at line 3'
  );
});

// The script of an older release says 'open' for each of these kinds.
test('what is refused, and how it is said', {skip: waits('0.8.0')}, async () => {
  const checker = await load(await WebAssembly.compile(bytes));
  const background = ['option', 'background must be R,G,B'];
  for (const wrong of ['', '1,2', '1,2,3,4', 'red', '1,2,65536', '1,2,-3', '000255,0,0']) {
    assert.deepEqual(
        faultOf(() => checker.check(PICTURE, CERTIFICATE, {background: wrong})), background
    );
  }
  assert.deepEqual(faultOf(() => checker.flaws(PICTURE, {background: '1,2'})), background);
  assert.deepEqual(
      faultOf(() => checker.check(PICTURE, ' '.repeat(16777217))), ['length', 'input too long']
  );
  assert.throws(
      () => checker.flaws('P4\n'),
      {kind: 'picture', name: 'NotP3', text: 'ppm NotP3 at byte 0', byte: 0, line: null}
  );
});

// Flaws of one-line and two-line pictures, worked out by hand from docs/SESSION.md.
test('flaws that show without a search', async () => {
  const checker = await load(bytes);
  assert.deepEqual(checker.flaws(PICTURE), []);
  assert.deepEqual(checker.flaws('P3 1 1 255 255 255 255\n'), ['blank']);
  assert.deepEqual(
      checker.flaws('P3 1 1 255 0 0 0\n', {background: '255,255,255'}), ['background']
  );
  assert.deepEqual(checker.flaws('P3 1 1 255 0 0 0\n', {background: null}), ['background']);
  // By redmean red and red with one of 255 less are 1.7 apart; a white background that no cell has
  // counts beside near white.
  assert.deepEqual(checker.flaws('P3 2 1 255 255 0 0 254 0 0\n'), ['background', 'alike a b']);
  assert.deepEqual(
      checker.flaws('P3 3 1 255 254 254 254 0 0 0 1 1 1\n', {background: '255,255,255'}),
      ['background', 'alike . a', 'alike b c']
  );
  // Sixteen greys from white on, all alike: as many pairs as there can be.
  const greys = Array.from({length: 16}, (_, at) => `${255 - at} ${255 - at} ${255 - at}`),
        all = [];
  for (let one = 0; one < 16; one += 1)
    for (let other = one + 1; other < 16; other += 1)
      all.push(`alike ${'.abcdefghijklmno'[one]} ${'.abcdefghijklmno'[other]}`);
  assert.deepEqual([all.length, checker.flaws(`P3 16 1 255 ${greys.join(' ')}\n`)], [120, all]);
});

test('an option is a property of the object itself', async () => {
  const checker = await load(bytes);
  Object.assign(
      Object.prototype, {anyGiven: true, background: '0,0,0'}
  );  // eslint-disable-line no-extend-native
  try {
    for (const options of [undefined, null, {}])
      assert.equal(
          checker.check(PICTURE, ALL, options).text, 'certificate UnpublishedGiven at line 2'
      );
  } finally {
    for (const name of ['anyGiven', 'background']) delete Object.prototype[name];
  }
});

test(
    'each growth refused in turn is told as out of memory, and the call can be made again',
    async () => {
      const checker = await load(bytes), certificate = text('examples', 'diagonal.ppm.cert'),
            picture = text('examples', 'diagonal.ppm');
      const {answer, refused} = refusedInTurn(checker, () => checker.check(picture, certificate));
      assert.equal(answer.accepted, true);
      assert.ok(refused > 5, `${refused}`);
      const before = checker.memory;
      for (let turn = 0; turn < 200; turn += 1)
        assert.equal(checker.check(picture, certificate).accepted, true);
      assert.equal(checker.memory, before);
    }
);

test('what does not lie within the memory is refused, and nothing is written', async () => {
  const {instance: {exports: calls}} = await WebAssembly.instantiate(bytes, {});
  const end = BigInt(calls.memory.buffer.byteLength), at = calls.malloc(256n),
        out = new Uint8Array(calls.memory.buffer, Number(at), 96).fill(35);
  for (const words
           of [[end, 1n, at, 0n, at, 0n, at, 96n],
               [at, end, at, 0n, at, 0n, at, 96n],
               [at, 0n, 0n, 1n, at, 0n, at, 96n],
               [at, 0n, at, 2n ** 64n - 1n, at, 0n, at, 96n],
               [at, 0n, at, 0n, at + 1n, 3n, at, 96n],
               [at, 0n, at, 0n, end - 4n, 3n, at, 96n],
               [at, 0n, at, 0n, at, 4n, at, 96n],
               [at, 0n, at, 0n, at, 0n, end - 95n, 96n],
               [at, 0n, at, 0n, at, 0n, 2n ** 32n, 1n],
  ]) {
    assert.equal(calls.nonocheck_check_any_given(...words), 6, String(words));
    assert.equal(
        calls.nonocheck_check(...words.slice(0, 4), at, 0n, ...words.slice(4)), 6, String(words)
    );
  }
  assert.equal(calls.nonocheck_check(at, 0n, at, 0n, end, 1n, at, 0n, at, 96n), 6);
  for (const words
           of [[at, end, at, 0n, at, at, at, 96n],
               [at, 0n, at, 0n, end, at, at, 96n],
               [at, 0n, at, 0n, at, end, at, 96n],
               [at, 0n, at, 0n, at, at, end, 1n]]) {
    assert.equal(calls.nonocheck_flaws(...words), 6, String(words));
  }
  calls.nonocheck_version(end - 1n, 2n);
  assert.ok(out.every((byte) => byte === 35));
});
