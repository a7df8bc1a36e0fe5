// Tests of the module by node's own runner: WASM=path node --test web/test.mjs. The texts that are
// expected stand in tests/ and examples/, or are worked out by hand from docs/SESSION.md.
import assert from 'node:assert/strict';
import {spawn, spawnSync} from 'node:child_process';
import {
  existsSync,
  mkdirSync,
  mkdtempSync,
  readFileSync,
  readdirSync,
  rmSync,
  truncateSync,
  writeFileSync
} from 'node:fs';
import {tmpdir} from 'node:os';
import {dirname, join, resolve} from 'node:path';
import test from 'node:test';
import {fileURLToPath} from 'node:url';
import {setFlagsFromString} from 'node:v8';
import {runInNewContext} from 'node:vm';
import {
  faultBy,
  mustCheckForms,
  mustCheckPublished,
  pictureOf,
  refusedInTurn
} from '../tests/cases.mjs';
import {TRIED, long, waits} from '../tests/waits.mjs';
import {Fault, hintOf, load, readAssessment, readPath} from './nonobench.mjs';

const root = join(dirname(fileURLToPath(import.meta.url)), '..');
const bytes = readFileSync(process.env.WASM ?? join(root, 'web', 'out', 'nonobench.wasm'));
const text = (...parts) => readFileSync(join(root, ...parts), 'utf8');
const fresh = () => load(bytes);
// The version of the crates, or of the release that is tried, which the module must tell.
const VERSION = TRIED ??
    /VERSION: &str = "([^"]+)"/.exec(text('crates', 'program_options', 'src', 'version.rt'))[1];

// An engine with the plain calls of its module, some of them put in place of its own.
async function watched(others = {}) {
  const plain = WebAssembly.instantiate;
  let calls = null;
  WebAssembly.instantiate = async (...given) => {
    const {instance: {exports}} = await plain.apply(WebAssembly, given);
    calls = {...exports, ...others};
    return {instance: {exports: calls}};
  };
  try {
    return {engine: await fresh(), calls};
  } finally {
    WebAssembly.instantiate = plain;
  }
}

// How many bytes more than before the blocks have that are held after a function ran.
function taken(calls, run) {
  const before = calls.nonobench_held();
  run();
  return Number(calls.nonobench_held() - before);
}

// Two rows, black and white, white and black: another picture has the clues, and a given decides
// it.
const DIAGONAL = 'P3 2 2 255 0 0 0 255 255 255 255 255 255 0 0 0\n';
const PUZZLE = 'width 2\nheight 2\n\nrows\n1\n1\n\ncolumns\n1\n1\n\ngoal "1001"\n';

// The plain call that assesses a puzzle in P3, with the texts of its background, its givens and its
// certificate, and an empty word for the allowance: addresses and lengths.
function assessPlainly(
    calls, cell, [file, size, word, wordSize, givens, givensSize, cert, certSize]
) {
  return calls.nonobench_assess(
      cell, file, size, 0, word, wordSize, 1, givens, givensSize, 1, cert, certSize, file, 0n
  );
}

const faultOf = (call) => faultBy(Fault, call);

test('a picture and a puzzle are opened and answer', async () => {
  const engine = await fresh();
  for (const file
           of [DIAGONAL,
               PUZZLE,
               new TextEncoder().encode(PUZZLE),
               new TextEncoder().encode(DIAGONAL).buffer]) {
    const bench = engine.open(file);
    assert.equal(
        bench.say('verdict\npin 1 1\nverdict\nundo\nundo\n'),
        'ambiguous\n.a\na.\nok\nunique\nok\nrefused: UndoEmpty\n'
    );
    bench.close();
  }
});

test('what files, options and words are refused, and how it is said', async () => {
  const engine = await fresh();
  assert.deepEqual(faultOf(() => engine.open('P4\n')), ['picture', 'ppm NotP3 at byte 0']);
  assert.deepEqual(faultOf(() => engine.open('')), ['picture', 'ppm NotP3 at byte 0']);
  assert.deepEqual(faultOf(() => engine.open('width 2\n')), ['picture', 'non MissingSize']);
  assert.deepEqual(
      faultOf(() => engine.open('width 2\n', {format: 'ppm'})), ['picture', 'ppm NotP3 at byte 0']
  );
  assert.deepEqual(
      faultOf(() => engine.open('width 1\nheight 1\nrows\n1\ncolumns\n0\n')),
      ['picture', 'no picture has these clues']
  );
  for (const format of ['', 'NON', 'ppm ', 'xml', 1, ['non'], false]) {
    assert.deepEqual(
        faultOf(() => engine.open(PUZZLE, {format})), ['option', 'format must be ppm or non']
    );
  }
  for (const text of [PUZZLE, `Puzzle by Ann\n${PUZZLE}`])
    assert.equal(
        engine.open(text, {format: null}).say('verdict\n'),
        engine.open(PUZZLE, {format: 'non'}).say('verdict\n')
    );
  for (const history of [0, 1001, 1.5, NaN, '5']) {
    assert.deepEqual(
        faultOf(() => engine.open(DIAGONAL, {history})), ['option', 'history must be 1 to 1000']
    );
  }
  for (const background of ['', '1,2', '1,2,3,4', 'red', '1,2,65536', '1,2,-3']) {
    assert.deepEqual(
        faultOf(() => engine.open(DIAGONAL, {background})), ['option', 'background must be R,G,B']
    );
    assert.deepEqual(
        faultOf(() => engine.check(DIAGONAL, '', {background, anyGiven: true})),
        ['option', 'background must be R,G,B']
    );
    assert.deepEqual(
        faultOf(() => engine.prove(DIAGONAL, {background})), ['option', 'background must be R,G,B']
    );
  }
  assert.deepEqual(
      faultOf(() => engine.open(PUZZLE, {background: '0,0,0'})),
      ['option', 'background goes with ppm']
  );
  assert.deepEqual(
      faultOf(() => engine.open(new Uint8Array(16777217))), ['length', 'input too long']
  );
  assert.throws(() => engine.open(5), TypeError);
  assert.equal(engine.open(DIAGONAL, {background: null}).say('verdict\n'), 'ambiguous\n.a\na.\n');
  for (const word of ['width', 'height', 'rows', 'columns', 'goal', 'catalogue', 'title']) {
    assert.match(faultOf(() => engine.open(`# a puzzle\n  ${word} x\n`))[1], /^non /, word);
  }
  const bench = engine.open('P3 2 1 255 1 2 3 4 5 6\n', {background: '4,5,6', history: 1});
  assert.equal(
      bench.say('clues\npin 1 1\npin 1 2\nundo\nundo\n'),
      'r 1: 1a\nc 1: 1a\nc 2: 0\nok\nok\nok\nrefused: UndoEmpty\n'
  );
});

test(
    'the longest input and the deepest history are taken, and what they are where none is named',
    async () => {
      const engine = await fresh();
      const longest = new Uint8Array(16777216).fill(0x20);
      longest.set(new TextEncoder().encode(DIAGONAL));
      assert.equal(engine.open(longest).say('verdict\n'), 'ambiguous\n.a\na.\n');
      for (const [options, depth] of [[{}, 100], [{history: 1000}, 1000]]) {
        const bench = engine.open(DIAGONAL, options);
        const said = bench.say('pin 1 1\nunpin 1 1\n'.repeat(501) + 'undo\n'.repeat(1002));
        assert.equal(
            said, 'ok\n'.repeat(1002 + depth) + 'refused: UndoEmpty\n'.repeat(1002 - depth)
        );
        bench.close();
      }
    }
);

test('the clues of a picture and a puzzle, and each growth refused in turn', async () => {
  const engine = await fresh();
  const clues = 'r 1: 1a\nr 2: 1a\nc 1: 1a\nc 2: 1a\n';
  assert.equal(engine.clues(DIAGONAL).text, clues);
  assert.equal(engine.clues(PUZZLE).text, clues);
  assert.equal(
      engine.clues('P3 2 1 255 1 2 3 4 5 6\n', {background: '4,5,6'}).text,
      'r 1: 1a\nc 1: 1a\nc 2: 0\n'
  );
  assert.deepEqual(faultOf(() => engine.clues('P4\n')), ['picture', 'ppm NotP3 at byte 0']);
  assert.deepEqual(faultOf(() => engine.clues('width 2\n')), ['picture', 'non MissingSize']);
  const {answer, refused} = refusedInTurn(engine, () => engine.clues(DIAGONAL).text);
  assert.equal(answer, clues);
  assert.ok(refused > 10, `${refused}`);
});

test('a palette says which colour each letter is', {skip: waits('0.8.0')}, async () => {
  const engine = await fresh(), picture = 'P3 3 1 65535 9 0 65535 1 2 3 0 0 0\n';
  const palettes = [
    // The background first, also where no cell has it; the others as they first appear.
    [DIAGONAL, {}, {'.': [255, 255, 255], a: [0, 0, 0]}],
    [picture, {}, {'.': [65535, 65535, 65535], a: [9, 0, 65535], b: [1, 2, 3], c: [0, 0, 0]}],
    [picture, {background: '1,2,3'}, {'.': [1, 2, 3], a: [9, 0, 65535], b: [0, 0, 0]}],
    [PUZZLE, {format: 'non'}, {'.': [255, 255, 255], a: [0, 0, 0]}],
  ];
  for (const [file, options, palette] of palettes) {
    const bench = engine.open(file, options);
    for (const found
             of [bench.palette,
                 engine.clues(file, options).palette,
                 engine.assess(file, options).palette]) {
      assert.deepEqual(found, palette);
      assert.equal(Object.keys(found)[0], '.');
    }
    bench.close();
  }
  const samples = Array.from({length: 15}, (_, at) => `${at} 65535 65535`).join(' ');
  const letters = Object.keys(engine.clues(`P3 15 1 65535 ${samples}\n`).palette).join('');
  assert.equal(letters, '.abcdefghijklmno');
});

test('a bench lives between calls, and several are apart', async () => {
  const engine = await fresh();
  const one = engine.open(DIAGONAL), two = engine.open(DIAGONAL);
  assert.equal(one.say('pin 1 1\n'), 'ok\n');
  assert.equal(one.say('verdict'), 'unique\n');
  assert.equal(two.say('verdict'), 'ambiguous\n.a\na.\n');
  one.close();
  assert.equal(two.say('undo\n'), 'refused: UndoEmpty\n');
  assert.equal(two.say(''), '');
});

test('a closed bench is refused for good', async () => {
  const engine = await fresh();
  const one = engine.open(DIAGONAL), two = engine.open(DIAGONAL);
  one.close();
  const three = engine.open(DIAGONAL);
  assert.deepEqual(faultOf(() => one.say('verdict\n')), ['closed', 'closed']);
  assert.deepEqual(faultOf(() => one.close()), ['closed', 'closed']);
  assert.equal(two.say('undo\n') + three.say('undo\n'), 'refused: UndoEmpty\n'.repeat(2));
});

test('handles that were never given are refused, by the plain calls', async () => {
  const {instance: {exports: calls}} = await WebAssembly.instantiate(bytes, {});
  const cell = calls.malloc(16n), lines = calls.malloc(16n);
  assert.equal(calls.nonobench_start(cell), 0);
  for (const handle of [0, 1, -1, 2147483647]) {
    assert.equal(calls.nonobench_say(cell, handle, lines, 0n), 5);
    assert.equal(calls.nonobench_close(cell, handle), 5);
  }
  assert.equal(calls.nonobench_take(cell, lines, 16n), 0n);
  const word = new Uint8Array(calls.memory.buffer, Number(lines), 16);
  word.set(new TextEncoder().encode('P3 1 1 255 0 0 0'));
  const handle = () => new DataView(calls.memory.buffer, Number(cell) + 8, 4);
  const opens = (size, word, history) => {
    handle().setUint32(0, 9, true);
    return [
      calls.nonobench_open(cell, lines, size, 0, lines, word, history, cell + 8n),
      handle().getUint32(0, true)
    ];
  };
  for (const history of [0, 1001, -1]) assert.deepEqual(opens(16n, 0n, history), [6, 0]);
  assert.deepEqual(opens(16n, 16n, 1), [6, 0]);
  assert.deepEqual(opens(15n, 0n, 1), [1, 0]);
  assert.deepEqual(opens(16n, 0n, 1), [0, 1]);
});

test('lengths past the memory are refused, and the module goes on', async () => {
  const {engine, calls} = await watched();
  for (const size
           of [2n ** 30n, 2n ** 31n + 1n, 2n ** 32n, 2n ** 63n, 2n ** 64n - 16n, 2n ** 64n - 1n])
    assert.equal(calls.malloc(size), 0n, `${size}`);
  assert.ok(engine.memory <= 1073741824);
  assert.equal(engine.open(DIAGONAL).say('verdict\n'), 'ambiguous\n.a\na.\n');
});

test(
    'lengths past the memory are refused by each plain call, there is no text, and the module goes on',
    async () => {
      const {engine, calls} = await watched();
      const cell = calls.malloc(16n), file = calls.malloc(64n), end = () => BigInt(engine.memory),
            version = BigInt(engine.version.length);
      new Uint8Array(
          calls.memory.buffer, Number(file), DIAGONAL.length
      ).set(new TextEncoder().encode(DIAGONAL));
      assert.equal(calls.nonobench_start(cell), 0);
      const size = BigInt(DIAGONAL.length);
      const open = (at, length, word = [file, 0n], handle = cell + 8n) =>
          calls.nonobench_open(cell, at, length, 0, ...word, 1, handle);
      const check = (...pairs) => calls.nonobench_check_any_given(cell, ...pairs.flat(), file, 0n);
      const published = (...words) => calls.nonobench_check(cell, ...words.flat());
      const prove = (...words) => calls.nonobench_prove(cell, ...words.flat(), 0, 2);
      const assess = (...words) => assessPlainly(calls, cell, words.flat());
      assert.equal(open(file, size), 0);
      const past =
          [[file, 2n ** 32n + 1n], [file, 2n ** 64n - 1n], [2n ** 63n, 1n], [2n ** 64n - 1n, 1n]];
      const refused = [
        (...at) => open(...at),
        (...at) => open(file, size, at),
        (at) => open(file, size, [file, 0n], at - 2n),
        (...at) => calls.nonobench_say(cell, 1, ...at),
        (...at) => check(at, [file, size]),
        (...at) => check([file, size], at),
        (...at) => calls.nonobench_check_any_given(cell, file, size, file, size, ...at),
        (...at) => published(at, [file, size, file, 0n, file, 0n]),
        (...at) => published([file, size], at, [file, 0n, file, 0n]),
        (...at) => published([file, size, file, size], at, [file, 0n]),
        (...at) => published([file, size, file, size, file, 0n], at),
        (...at) => prove(at, [file, 0n, file, 0n]),
        (...at) => prove([file, size], at, [file, 0n]),
        (...at) => prove([file, size, file, 0n], at),
        (...at) => assess(at, [file, 0n, file, 0n, file, 0n]),
        (...at) => assess([file, size], at, [file, 0n, file, 0n]),
        (...at) => assess([file, size, file, 0n], at, [file, 0n]),
        (...at) => assess([file, size, file, 0n, file, 0n], at),
        (at) => calls.nonobench_start(at - 6n),
      ];
      const places = [
        () => [end(), 1n],
        () => [end() + 1n, 0n],
        () => [end() - 1n, 2n ** 32n],
        ...past.slice(2).map((place) => () => place)
      ];
      const isText = () => calls.nonobench_take(cell, file, 0n) > 0n;
      for (const call of refused) {
        for (const place of places) {
          assert.equal(check([file, size], [file, size]), 1);
          assert.ok(isText());
          const [at, length] = place();
          assert.equal(call(at, length), 6, `${call} ${at} ${length}`);
          assert.equal(isText(), `${call}`.includes('start'));
        }
      }
      for (const [at, length] of [...past, [end(), 1n], [end() - 1n, 2n]]) {
        assert.equal(check([file, size], [file, size]), 1);
        assert.equal(calls.nonobench_take(cell, at, length), 29n);
        assert.equal(calls.nonobench_version(at, length), version);
        assert.equal(calls.nonobench_say(cell, 1, at, length), 6);
      }
      assert.equal(calls.nonobench_say(cell, 1, file, 0n), 0);
      assert.equal(engine.open(DIAGONAL).say('verdict\n'), 'ambiguous\n.a\na.\n');
    }
);

test(
    'bytes up to the last of the memory are taken by each plain call, and the handle of a refused one is 0',
    async () => {
      const {engine, calls} = await watched();
      engine.open(DIAGONAL).close();
      calls.memory.grow(1);  // in which the heap has nothing
      const cell = calls.malloc(16n), file = calls.malloc(64n), size = BigInt(DIAGONAL.length),
            end = () => calls.memory.buffer.byteLength;
      const put = (text, at) =>
          new Uint8Array(calls.memory.buffer, at, text.length).set(new TextEncoder().encode(text));
      const last = (text) =>
          (put(text, end() - text.length), [BigInt(end() - text.length), BigInt(text.length)]);
      const handle = (at) => new DataView(calls.memory.buffer).getUint32(Number(at), true);
      const open = (...words) => calls.nonobench_open(cell, ...words);
      assert.equal(calls.nonobench_start(cell), 0);
      put(DIAGONAL, Number(file));
      assert.equal(open(...last(DIAGONAL), 0, file, 0n, 1, cell + 8n), 0);
      assert.equal(open(file, size, 0, ...last('0,0,0'), 1, cell + 8n), 0);
      const behind = BigInt(end() - 4);
      assert.equal(open(file, size, 0, file, 0n, 1, behind), 0);
      assert.deepEqual([handle(cell + 8n), handle(behind)], [2, 3]);
      assert.equal(open(BigInt(end()), 1n, 0, file, 0n, 1, cell + 8n), 6);
      assert.equal(handle(cell + 8n), 0);
      assert.equal(open(file, size, 0, BigInt(end()), 0n, 1, cell + 8n), 0);
      assert.equal(
          calls.nonobench_check_any_given(cell, ...last(DIAGONAL), file, size, file, 0n), 1
      );
      assert.equal(
          calls.nonobench_check_any_given(cell, file, size, ...last('nonocert 2\n'), file, 0n), 1
      );
      assert.equal(
          calls.nonobench_check_any_given(cell, file, size, file, size, ...last('0,0,0')), 1
      );
      assert.equal(
          calls.nonobench_check(cell, ...last(DIAGONAL), file, size, file, 0n, file, 0n), 1
      );
      assert.equal(
          calls.nonobench_check(cell, file, size, ...last('nonolemma 1\n'), file, 0n, file, 0n), 1
      );
      assert.equal(
          calls.nonobench_check(cell, file, size, file, size, ...last('given 1 1\n'), file, 0n), 1
      );
      assert.equal(
          calls.nonobench_check(cell, file, size, file, size, file, 0n, ...last('0,0,0')), 1
      );
      const prove = (...words) => calls.nonobench_prove(cell, ...words, 0, 2);
      assert.equal(prove(...last(DIAGONAL), file, 0n, file, 0n), 0);
      assert.equal(prove(file, size, ...last('given 1 1\n'), file, 0n), 0);
      assert.equal(prove(file, size, file, 0n, ...last('0,0,0')), 0);
      const assess = (...words) => assessPlainly(calls, cell, words);
      assert.equal(assess(...last(DIAGONAL), file, 0n, file, 0n, file, 0n), 1);
      assert.equal(assess(file, size, ...last('0,0,0'), file, 0n, file, 0n), 1);
      assert.equal(assess(file, size, file, 0n, ...last('given 1 1\n'), file, 0n), 1);
      assert.equal(assess(file, size, file, 0n, file, 0n, ...last('nonocert 2\n')), 1);
      assert.equal(calls.nonobench_say(cell, 1, ...last('verdict\n')), 0);
      assert.equal(calls.nonobench_take(cell, BigInt(end() - 3), 3n), 16n);
      assert.equal(
          new TextDecoder().decode(new Uint8Array(calls.memory.buffer, end() - 3, 3)), 'amb'
      );
      assert.equal(calls.nonobench_version(BigInt(end() - 3), 3n), BigInt(VERSION.length));
      assert.equal(
          new TextDecoder().decode(new Uint8Array(calls.memory.buffer, end() - 3, 3)),
          VERSION.slice(0, 3)
      );
    }
);

test(
    'a null beside a length is refused by each plain call, and nothing is read or written there',
    async () => {
      const {calls} = await watched();
      const cell = calls.malloc(16n), file = calls.malloc(64n), size = BigInt(DIAGONAL.length);
      new Uint8Array(calls.memory.buffer, Number(file), 64).set(new TextEncoder().encode(DIAGONAL));
      assert.equal(calls.nonobench_start(0n), 6);
      assert.equal(calls.nonobench_start(cell), 0);
      const open = (at, length, word, handle) =>
          calls.nonobench_open(cell, at, length, 0, ...word, 1, handle);
      assert.equal(open(0n, 1n, [0n, 0n], cell + 8n), 6);
      assert.equal(open(file, size, [0n, 1n], cell + 8n), 6);
      assert.equal(open(file, size, [0n, 0n], 0n), 6);
      assert.equal(open(file, size, [0n, 0n], cell + 8n), 0);
      assert.equal(calls.nonobench_say(cell, 1, 0n, 1n), 6);
      assert.equal(calls.nonobench_check_any_given(cell, 0n, 1n, file, size, 0n, 0n), 6);
      assert.equal(calls.nonobench_check_any_given(cell, file, size, 0n, 1n, 0n, 0n), 6);
      assert.equal(calls.nonobench_check_any_given(cell, file, size, file, size, 0n, 1n), 6);
      for (const nth of [0, 1, 2, 3]) {
        const files = [[file, size], [file, size], [0n, 0n], [0n, 0n]];
        files[nth] = [0n, 1n];
        assert.equal(calls.nonobench_check(cell, ...files.flat()), 6);
        assert.equal(assessPlainly(calls, cell, files.flat()), 6);
      }
      const prove = (...words) => calls.nonobench_prove(cell, ...words, 0, 2);
      assert.equal(prove(0n, 1n, 0n, 0n, 0n, 0n), 6);
      assert.equal(prove(file, size, 0n, 1n, 0n, 0n), 6);
      assert.equal(prove(file, size, 0n, 0n, 0n, 1n), 6);
      assert.equal(prove(file, size, 0n, 0n, 0n, 0n), 0);
      for (const format of [0, 3])
        assert.equal(calls.nonobench_prove(cell, file, size, 0n, 0n, 0n, 0n, 0, format), 6);
      assert.equal(calls.nonobench_check(cell, file, size, file, size, 0n, 0n, 0n, 0n), 1);
      assert.equal(calls.nonobench_check_any_given(cell, file, size, file, size, 0n, 0n), 1);
      const low = () => new Uint8Array(calls.memory.buffer, 0, 8192).slice(), before = low();
      assert.equal(calls.nonobench_take(cell, 0n, 64n), 29n);
      assert.equal(calls.nonobench_version(0n, 64n), BigInt(VERSION.length));
      assert.deepEqual(low(), before);
    }
);

test('at the bound of memory a call is refused, and answers again when there is room', async () => {
  const {engine, calls} = await watched();
  const bench = engine.open(text('examples', 'heart.ppm'));
  const lines = 'clues\nmap\nverdict\nreport\ncertify\n', whole = bench.say(lines);
  const blocks = [];
  for (let size = 29n; size >= 5n; size -= 1n) {
    for (let at = calls.malloc(2n ** size - 16n); at !== 0n; at = calls.malloc(2n ** size - 16n))
      blocks.push(at);
  }
  assert.ok(engine.memory <= 1073741824, `${engine.memory}`);
  const refused = (call) => {
    try {
      return call().includes('refused: Memory\n');
    } catch (fault) {
      assert.deepEqual([fault.kind, fault.text], ['memory', 'memory']);
      return true;
    }
  };
  assert.ok(refused(() => bench.say(lines)));
  let turns = 0;
  for (; refused(() => bench.say(lines)); turns += 1) calls.free(blocks.pop());
  assert.ok(turns > 3, `${turns}`);
  assert.equal(bench.say(lines), whole);
  const more = [],
        opened = () =>
            (more.push(engine.open(text('examples', 'moon.ppm'))), more.at(-1).say(lines));
  while (!refused(opened)) assert.ok(more.length < 99);
  [bench, ...more].forEach((one) => one.close());
  assert.equal(engine.open(text('examples', 'heart.ppm')).say(lines), whole);
});

test(
    'a pointer has 64 bits to a host, all of them are looked at, and blocks are for words of 128 bits',
    async () => {
      const {calls} = await watched();
      const cell = calls.malloc(16n), file = calls.malloc(64n), size = BigInt(DIAGONAL.length);
      new Uint8Array(
          calls.memory.buffer, Number(file), DIAGONAL.length
      ).set(new TextEncoder().encode(DIAGONAL));
      new Uint8Array(calls.memory.buffer, Number(cell), 16).fill(0xff);
      assert.equal(calls.nonobench_start(cell), 0);
      assert.ok(new DataView(calls.memory.buffer).getBigUint64(Number(cell), true) < 2n ** 30n);
      assert.equal(calls.nonobench_start(cell + 2n ** 32n), 6);
      assert.equal(
          calls.nonobench_open(cell, file + 2n ** 32n, size, 0, file, 0n, 1, cell + 8n), 6
      );
      assert.equal(calls.nonobench_open(cell, file, size, 0, file, 0n, 1, cell + 8n), 0);
      for (const size of [1n, 16n, 17n, 1000n, 100000n])
        assert.equal(calls.malloc(size) % 16n, 0n, `${size}`);
    }
);

test('a desk that is ended gives back what it and its benches held', async () => {
  const {calls} = await watched();
  const cell = calls.malloc(16n), file = calls.malloc(64n);
  new Uint8Array(
      calls.memory.buffer, Number(file), DIAGONAL.length
  ).set(new TextEncoder().encode(DIAGONAL));
  const once = () => {
    assert.equal(calls.nonobench_start(cell), 0);
    for (let i = 0; i < 2; i += 1)
      assert.equal(
          calls.nonobench_open(cell, file, BigInt(DIAGONAL.length), 0, file, 0n, 1, cell + 8n), 0
      );
    calls.nonobench_end(new DataView(calls.memory.buffer).getBigUint64(Number(cell), true));
  };
  once();
  assert.equal(taken(calls, () => {
                 for (let i = 0; i < 100; i += 1) once();
               }), 0);
});

test('products and shifts of 128 bits are those of whole numbers', async () => {
  const {calls} = await watched();
  const out = calls.malloc(16n);
  const halves = (n) => [BigInt.asIntN(64, n), BigInt.asIntN(64, n >> 64n)];
  const got =
      () => [0, 8]
                .map((at) => new DataView(calls.memory.buffer).getBigUint64(Number(out) + at, true))
                .reduce((low, high) => low | (high << 64n));
  const words = [
    0n,
    1n,
    2n ** 32n - 1n,
    2n ** 63n,
    2n ** 64n - 1n,
    2n ** 64n,
    2n ** 96n + 2n ** 31n,
    2n ** 127n,
    2n ** 128n - 1n
  ];
  for (let i = 0n, n = 1n; i < 40n; i += 1n)
    words.push(n = BigInt.asUintN(128, n * 0x2545f4914f6cdd1d9e3779b97f4a7c15n + i));
  for (const one of words) {
    for (const other of words) {
      calls.__multi3(Number(out), ...halves(one), ...halves(other));
      assert.equal(got(), BigInt.asUintN(128, one * other), `${one} * ${other}`);
    }
    for (let by = 0; by < 128; by += 1) {
      calls.__lshrti3(Number(out), ...halves(one), by);
      assert.equal(got(), one >> BigInt(by), `${one} >> ${by}`);
      calls.__ashlti3(Number(out), ...halves(one), by);
      assert.equal(got(), BigInt.asUintN(128, one << BigInt(by)), `${one} << ${by}`);
    }
  }
});

// What tests/cases/fit.txt, which tests/page/fit_cases.mjs asks the module, does not say of
// puzzles, worked out from docs/SESSION.md: the lines of the text, with `/` between them.
const ASSESSED = [
  // Two pictures have the clues; a given decides it, and is needed.
  [PUZZLE, {}, 'ambiguous/.a/a./size 2 2/colours 2/givens 0/open 4/unfit'],
  [
    PUZZLE,
    {published: 'given 1 1', format: 'non'},
    'unique/size 2 2/colours 2/givens 1/open 0/grade easy 1 4 2 0 0/fit'
  ],
  // Without a split nothing is found of the puzzle without that given; that it is needed is known.
  [DIAGONAL, {allowance: 0}, 'undecided/size 2 2/colours 2/givens 0/open 4/unfit'],
  [
    DIAGONAL,
    {allowance: 0, published: [[1, 1]]},
    'unique/size 2 2/colours 2/givens 1/open 0/grade easy 1 4 2 0 0/fit'
  ],
];

test('puzzles are assessed as the cases say, and what is said is a value', async () => {
  const engine = await fresh();
  for (const [puzzle, options, lines] of ASSESSED)
    assert.equal(engine.assess(puzzle, options).text, lines.replaceAll('/', '\n') + '\n', lines);
  const {text: said, palette, ...one} = engine.assess(DIAGONAL, {published: [[1, 1], [2, 2]]});
  assert.equal(readAssessment(said).palette, null);
  assert.deepEqual(one, {
    verdict: 'unique',
    other: null,
    rows: 2,
    columns: 2,
    colours: 2,
    givens: 2,
    open: 0,
    fit: false,
    grade: {word: 'easy', rounds: 1, evaluations: 2, wait: 1, splits: 0, depth: 0},
    flaws: ['given 1 1'],
  });
  assert.deepEqual(engine.assess(DIAGONAL).other, ['.a', 'a.']);
  assert.equal(engine.assess(DIAGONAL).grade, null);
  assert.equal(engine.assess(DIAGONAL, {allowance: 'off'}).verdict, 'ambiguous');
  assert.deepEqual(engine.assess('P3 2 1 255 255 255 255 254 254 254\n').flaws, ['alike . a']);
  const [hard] = ['unique/size 3 4/colours 2/givens 0/open 8/grade unknown 2 10 4/fit/'].map(
      (lines) => readAssessment(lines.replaceAll('/', '\n'))
  );
  assert.deepEqual(
      [hard.grade.word, hard.grade.splits, hard.grade.depth, hard.fit],
      ['unknown', null, null, true]
  );
  for (const other of ['', 'unique\n', said.slice(0, -1), `${said}fit\n`])
    assert.throws(() => readAssessment(other), TypeError);
});

test('colours are alike as the cases say', async () => {
  const engine = await fresh();
  let count = 0;
  for (const line of text('tests', 'cases', 'near_colours.txt').split('\n')) {
    if (line === '' || line.startsWith('#')) continue;
    const [one, other, answer] = line.split(' ');
    if (one === other) continue;  // one colour
    for (const [ground, cell] of [[one, other], [other, one]]) {
      const {flaws} =
          engine.assess(`P3 2 1 255 ${ground} ${cell}`.replaceAll(',', ' '), {background: ground});
      assert.equal(flaws.includes('alike . a'), answer === 'near', line);
    }
    count += 1;
  }
  assert.ok(count > 20, `${count}`);
});

test(
    'what cannot be assessed is refused, and an option is a property of the object itself',
    async () => {
      const engine = await fresh();
      const refused = (puzzle, options) => faultOf(() => engine.assess(puzzle, options));
      assert.deepEqual(refused('P4\n'), ['picture', 'ppm NotP3 at byte 0']);
      assert.deepEqual(
          refused('width 1\nheight 1\nrows\n1\ncolumns\n1\n'), ['picture', 'non NoGoal']
      );
      assert.deepEqual(
          refused(PUZZLE, {background: '0,0,0'}), ['option', 'background goes with ppm']
      );
      assert.deepEqual(
          refused(DIAGONAL, {background: 'white'}), ['option', 'background must be R,G,B']
      );
      assert.deepEqual(
          refused(DIAGONAL, {published: [[3, 1]]}), ['givens', 'givens Place at line 1']
      );
      assert.deepEqual(
          refused(DIAGONAL, {published: 'any'}), ['givens', 'givens BadLine at line 1']
      );
      assert.deepEqual(
          refused(DIAGONAL, {certificate: ''}), ['certificate', 'certificate NotCert at line 1']
      );
      assert.deepEqual(
          refused(DIAGONAL, {certificate: text('examples', 'given.ppm.cert')}),
          ['certificate', 'certificate UnpublishedGiven at line 2']
      );
      for (const allowance of [-1, 100000, 1.5, NaN, '5', 'of'])
        assert.deepEqual(
            refused(DIAGONAL, {allowance}), ['option', 'allowance must be 0 to 99999 or \'off\'']
        );
      assert.deepEqual(refused(new Uint8Array(16777217)), ['length', 'input too long']);
      assert.deepEqual(
          refused(DIAGONAL, {published: new Uint8Array(16777217)}), ['length', 'input too long']
      );
      assert.throws(() => engine.assess(DIAGONAL, {published: [[1]]}), TypeError);
      assert.throws(() => engine.assess(null), TypeError);
      assert.equal(
          engine.assess(DIAGONAL, Object.create({published: [[1, 1]], allowance: 0})).verdict,
          'ambiguous'
      );
      assert.equal(
          engine
              .assess(
                  DIAGONAL, {background: null, published: null, certificate: null, allowance: null}
              )
              .verdict,
          'ambiguous'
      );
      assert.equal(engine.assess(DIAGONAL, {published: []}).verdict, 'ambiguous');
    }
);

test('the version is that of the crates, whole or as far as there is room', async () => {
  const {engine, calls} = await watched();
  assert.equal(engine.version, VERSION);
  const out = calls.malloc(16n),
        bytes = new Uint8Array(calls.memory.buffer, Number(out), 16).fill(0x2d);
  assert.equal(calls.nonobench_version(out, 3n), BigInt(VERSION.length));
  assert.equal(new TextDecoder().decode(bytes.subarray(0, 4)), `${VERSION.slice(0, 3)}-`);
});

// The clauses of the calls say the same, and this is what a host sees.
test(
    'there is no text after memory was refused, behind a closed handle, or behind options that are refused',
    async () => {
      const {calls} = await watched();
      const cell = calls.malloc(16n), file = calls.malloc(64n), size = BigInt(DIAGONAL.length);
      new Uint8Array(calls.memory.buffer, Number(file), 64).set(new TextEncoder().encode(DIAGONAL));
      assert.equal(calls.nonobench_start(cell), 0);
      const open = (history = 1) =>
          calls.nonobench_open(cell, file, size, 0, file, 0n, history, cell + 8n);
      const check = (word = 0n) =>
          calls.nonobench_check_any_given(cell, file, size, file, size, file, word);
      const published = (word = 0n) =>
          calls.nonobench_check(cell, file, size, file, size, file, 0n, file, word);
      const prove = (word = 0n) =>
          calls.nonobench_prove(cell, file, size, file, 0n, file, word, 0, 2);
      const short = (call) => {
        calls.nonobench_refuse(1);
        const status = call();
        calls.nonobench_refuse(0);
        return status;
      };
      assert.equal(open(), 0);
      // The palette: `colour . 255 255 255` and `colour a 0 0 0`, a line each.
      assert.equal(calls.nonobench_take(cell, file, 0n), waits('0.8.0') ? 0n : 36n);
      const cases = [
        [4, () => short(() => open())],
        [4, () => short(() => check())],
        [5, () => calls.nonobench_say(cell, 9, file, size)],
        [5, () => calls.nonobench_close(cell, 9)],
        [0, () => calls.nonobench_close(cell, 1)],
        [6, () => open(0)],
        [6, () => check(size)],
        [4, () => short(() => published())],
        [4, () => short(() => prove())],
        [6, () => published(size)],
        [6, () => prove(size)],
      ];
      for (const [status, call] of cases) {
        // What stood there before: that the picture is no certificate.
        assert.equal(check(), 1);
        assert.equal(calls.nonobench_take(cell, file, 0n), 29n);
        assert.equal(call(), status);
        assert.equal(calls.nonobench_take(cell, file, 0n), 0n, `${status}: ${call}`);
      }
    }
);

test('a text is taken in parts by the plain call, and stays', async () => {
  const {calls} = await watched();
  const cell = calls.malloc(16n), file = calls.malloc(64n), out = calls.malloc(64n);
  const put = (text) =>
      new Uint8Array(calls.memory.buffer, Number(file), 64).set(new TextEncoder().encode(text));
  const got = (size) =>
      new TextDecoder().decode(new Uint8Array(calls.memory.buffer, Number(out), size));
  assert.equal(calls.nonobench_start(cell), 0);
  put(DIAGONAL);
  assert.equal(
      calls.nonobench_open(cell, file, BigInt(DIAGONAL.length), 0, file, 0n, 1, cell + 8n), 0
  );
  put('verdict\n');
  assert.equal(calls.nonobench_say(cell, 1, file, 8n), 0);
  new Uint8Array(calls.memory.buffer, Number(out), 64).fill(0x2d);
  for (const [room, whole] of
           [[0n, '-----'], [3n, 'amb--'], [4n, 'ambi-'], [64n, 'ambiguous\n.a\na.\n-']]) {
    assert.equal(calls.nonobench_take(cell, out, room), 16n);
    assert.equal(got(whole.length), whole);
  }
});

test('after a trap the engine is of no use, and says so', async () => {
  let isTrap = false;
  const {engine, calls} = await watched();
  const plain = calls.nonobench_say;
  calls.nonobench_say = (...words) => {
    if (isTrap) throw new WebAssembly.RuntimeError('unreachable');
    return plain(...words);
  };
  const bench = engine.open(DIAGONAL);
  assert.equal(bench.say('pin 1 1\n'), 'ok\n');
  isTrap = true;
  assert.deepEqual(
      faultOf(() => bench.say('pin 1 2\n')), ['ended', 'the module has ended: unreachable']
  );
  isTrap = false;
  for (const call
           of [() => bench.say('verdict\n'),
              () => bench.close(),
              () => engine.open(DIAGONAL),
              () => engine.check(DIAGONAL, ''),
              () => engine.assess(DIAGONAL),
              () => engine.prove(DIAGONAL)]) {
    assert.deepEqual(faultOf(call), ['ended', 'the module has ended']);
  }
});

test('a long answer is taken whole', async () => {
  const engine = await fresh();
  const bench = engine.open(text('tests', 'sessions', 'widest.ppm'));
  const once = bench.say('map\n');
  assert.equal(bench.say('map\n'.repeat(20000)), once.repeat(20000));
  assert.ok(once.length * 20000 > 1000000, `${once.length}`);
  // Texts of 65,535, 65,536 and 65,537 bytes: the room that a text is first taken in, and a byte
  // less and more.
  const line = engine.open('P3 1 1 255 255 255 255\n');
  for (const [verdicts, whys] of [[9357, 4], [9361, 1], [9356, 5]]) {
    assert.equal(
        line.say('verdict\n'.repeat(verdicts) + 'why 1 1 .\n'.repeat(whys)),
        'unique\n'.repeat(verdicts) + 'possible\n'.repeat(whys)
    );
  }
});

test('a certificate is accepted, and what is wrong is said', async () => {
  const engine = await fresh();
  const picture = text('examples', 'given.ppm'), certificate = text('examples', 'given.ppm.cert');
  const givens = [[1, 1]];
  assert.deepEqual(
      engine.check(picture, certificate, {published: givens}),
      {accepted: true, status: 0, text: 'certificate accepted, givens 1\n', givens}
  );
  const unpublished =
      {accepted: false, status: 1, text: 'certificate UnpublishedGiven at line 2', givens};
  for (const options
           of [undefined, {}, {published: []}, {published: null}, {published: [[1, 2]]}]) {
    assert.deepEqual(engine.check(picture, certificate, options), unpublished);
  }
  assert.deepEqual(
      engine.check(picture, 'no certificate\n'),
      {accepted: false, status: 1, text: 'certificate NotCert at line 1', givens: []}
  );
  assert.deepEqual(
      engine.check('P4\n', certificate),
      {accepted: false, status: 1, text: 'ppm NotP3 at byte 0', givens: []}
  );
  const file = new TextEncoder().encode('given 2 2\ngiven 1 1\n');
  for (const one of [file, file.buffer, 'given 1 1'])
    assert.deepEqual(engine.check(picture, certificate, {published: one}).givens, givens);
  for (const [wrong, name] of [
           ['1,1', 'BadLine at line 1'],
           ['all', 'BadLine at line 1'],
           [[[1, 1], [0, 1]], 'Place at line 2'],
           [[[1, 1], [1, 1]], 'Repeated at line 2'],
           [[[-1, 1]], 'BadLine at line 1']]) {
    assert.deepEqual(
        engine.check(picture, certificate, {published: wrong}),
        {accepted: false, status: 1, text: `givens ${name}`, givens: []}
    );
  }
  for (const long of[' '.repeat(16777217), Array(14401).fill([1, 1])])
    assert.deepEqual(
        faultOf(() => engine.check(picture, certificate, {published: long})),
        ['length', 'input too long']
    );
  assert.equal(
      engine.check(picture, certificate, {published: Array(14400).fill([1, 1])}).text,
      'givens Repeated at line 2'
  );  // as many as a picture of 120 by 120 has
  for (const wrong of [[1, 1], [[1]], [['1', '1']], [[1, 1.5]], 5, new Set([[1, 1]])]) {
    assert.throws(() => engine.check(picture, certificate, {published: wrong}), TypeError);
  }
  // By its background the first colour of this picture has a clue or none: where the left cell is
  // background, nothing tells the two pictures apart that the certificate is of.
  const two = 'P3 2 1 255 0 0 0 9 9 9\n', plain = 'nonocert 1\nline r 1\ndone\n';
  assert.deepEqual(
      engine.check(two, plain),
      {accepted: true, status: 0, text: 'certificate accepted\n', givens: []}
  );
  assert.deepEqual(engine.check(two, plain, {background: null}).status, 0);
  assert.deepEqual(
      engine.check(two, plain, {background: '0,0,0'}),
      {accepted: false, status: 1, text: 'certificate NotDone at line 3', givens: []}
  );
  const bench = engine.open(picture);
  assert.equal(engine.check(picture, certificate, {published: givens}).accepted, true);
  assert.equal(bench.say('undo\n'), 'refused: UndoEmpty\n');
});

test('a certificate is accepted where its givens are among those that are published', async () => {
  const engine = await fresh();
  mustCheckPublished(
      (picture, certificate, options) => engine.check(picture, certificate, options)
  );
});

test('the path is read from its text', async () => {
  const engine = await fresh(), bench = engine.open(DIAGONAL);
  // By hand, as in tests/sessions/path.out.
  const {looks, open} = readPath(bench.say('pin 1 1\npath\n').replace('ok\n', ''));
  const look = {axis: 'c', number: 1, round: 1, excluded: 1, stands: true},
        fallen = [{place: 2, letters: '.'}], given = [{place: 1, letters: 'a'}];
  assert.deepEqual(looks, [
    {...look, axis: 'r', falls: fallen, premises: given},
    {...look, falls: fallen, premises: given},
    {
      ...look,
      number: 2,
      falls: [{place: 2, letters: 'a'}],
      stands: false,
      premises: [{place: 1, letters: '.'}]
    }
  ]);
  assert.equal(open, 0);
  for (const text of ['', 'open\n', 'open 1', 'r 1 1 1 given\nopen 0\n', 'open 0\nopen 0\n'])
    assert.throws(() => readPath(text), TypeError);
});

test('a certificate is made with exactly the cells that are published', async () => {
  const engine = await fresh();
  for (const [format, complete] of [[1, false], [2, true], [undefined, undefined]]) {
    for (const published of [[[1, 1]], 'given 1 1\n']) {
      const {ruling, certificate} = engine.prove(DIAGONAL, {published, format, complete});
      assert.equal(ruling, 'unique');
      assert.deepEqual(certificate.match(/^given .*$/gm), ['given 1 1']);
      assert.equal(engine.check(DIAGONAL, certificate, {published}).accepted, true);
    }
  }
  for (const [options, ...wanted] of [
           [{published: [[3, 1]]}, 'givens', 'givens Place at line 1'],
           [{published: 'all'}, 'givens', 'givens BadLine at line 1'],
           [{format: 3}, 'option', 'format must be 1 or 2'],
           [{format: '1'}, 'option', 'format must be 1 or 2'],
           [{background: 'red'}, 'option', 'background must be R,G,B']])
    assert.deepEqual(faultOf(() => engine.prove(DIAGONAL, options)), wanted);
  assert.throws(() => engine.prove(DIAGONAL, {published: [[1]]}), TypeError);
});

test(
    'a certificate with lemmas that is made is accepted, with a byte changed it is refused or proves the same, and none proves two solutions',
    async () => {
      const engine = await fresh(), picture = pictureOf('a./.b');
      assert.deepEqual(engine.prove(DIAGONAL), {ruling: 'ambiguous', certificate: null});
      assert.deepEqual(faultOf(() => engine.prove('P4\n')), ['picture', 'ppm NotP3 at byte 0']);
      const {ruling, certificate} =
          engine.prove(new TextEncoder().encode(picture), {background: null});
      assert.deepEqual([ruling, certificate.slice(0, 12)], ['unique', 'nonolemma 2\n']);
      const accepted = {accepted: true, status: 0, text: 'certificate accepted\n', givens: []};
      assert.deepEqual(engine.check(picture, certificate), accepted);
      let refused = 0;
      for (let at = 0; at < certificate.length; at += 1) {
        for (const sign of ['', ' ', '1', '2', 'x', '\n']) {
          const text = certificate.slice(0, at) + sign + certificate.slice(at + 1),
                answer = engine.check(picture, text);
          if (answer.accepted)
            assert.deepEqual(answer, accepted);
          else
            refused += 1;
          assert.equal(engine.check(DIAGONAL, text, {anyGiven: true}).accepted, false, text);
        }
      }
      assert.ok(refused > certificate.length * 3, `${refused}`);
    }
);

test('certificates of all forms are answered as the cases say', async () => {
  const engine = await fresh();
  mustCheckForms((picture, certificate) => engine.check(picture, certificate, {anyGiven: true}));
});

test(
    'what is read of a certificate is what was checked, also where its memory is shared',
    async () => {
      const {engine, calls} = await watched();
      const bytes =
          new TextEncoder().encode('nonocert 2\ngiven 1 1\nline r 1\nline c 1\nline r 2\ndone\n');
      const shared = new Uint8Array(new SharedArrayBuffer(bytes.length));
      shared.set(bytes);
      const plain = calls.nonobench_check;
      calls.nonobench_check = (...words) => {
        const status = plain(...words);
        shared.fill(0x20);  // as another thread may
        return status;
      };
      assert.deepEqual(engine.check(DIAGONAL, shared, {published: [[1, 1]]}).givens, [[1, 1]]);
    }
);

test(
    'what is read of a certificate is what was checked, whatever a class of the caller says of it',
    async () => {
      const {engine, calls} = await watched();
      const bytes =
          new TextEncoder().encode('nonocert 2\ngiven 1 1\nline r 1\nline c 1\nline r 2\ndone\n');
      class Odd extends Uint8Array {
        get buffer() {
          return new ArrayBuffer(0);
        }

        indexOf() {
          return 0;
        }
      }
      const odd = new Odd(new SharedArrayBuffer(bytes.length)), plain = calls.nonobench_check;
      odd.set(bytes);
      calls.nonobench_check = (...words) => {
        const status = plain(...words);
        odd.fill(0x20);
        return status;
      };
      assert.deepEqual(
          engine.check(DIAGONAL, odd, {published: [[1, 1]]}),
          {accepted: true, status: 0, text: 'certificate accepted, givens 1\n', givens: [[1, 1]]}
      );
      odd.set(bytes);
      assert.equal(engine.check(DIAGONAL, odd).text, 'certificate UnpublishedGiven at line 2');
    }
);

test('the givens of a certificate that is accepted are those that the engine read', async () => {
  const {engine, calls} = await watched();
  const certificate = 'nonocert 2\ngiven 1 1\nline r 1\nline c 1\nline r 2\ndone\n',
        plain = calls.nonobench_check;
  calls.nonobench_check = (...words) => {
    // The module's copy of the certificate names another cell.
    const at = Number(words[3]) + certificate.indexOf('1\nline');
    new Uint8Array(calls.memory.buffer)[at] = 0x32;
    return plain(...words);
  };
  assert.deepEqual(
      engine.check(DIAGONAL, certificate, {published: [[1, 1], [1, 2]]}),
      {accepted: true, status: 0, text: 'certificate accepted, givens 1\n', givens: [[1, 2]]}
  );
});

// What a merge of somebody's JSON may leave behind, while a call runs.
function polluted(properties, call) {
  Object.assign(Object.prototype, properties);  // eslint-disable-line no-extend-native
  try {
    return call();
  } finally {
    for (const name of Object.keys(properties)) delete Object.prototype[name];
  }
}

test('an option is a property of the object itself', async () => {
  const engine = await fresh();
  const all = 'nonocert 2\ngiven 1 1\ngiven 1 2\ngiven 2 1\ngiven 2 2\ndone\n',
        refused = 'certificate UnpublishedGiven at line 2';
  for (const options of [undefined, {}, null, Object.create({anyGiven: true})]) {
    for (const given of [all, all.replace('nonocert 2', 'nonolemma 1')]) {
      const answer = polluted({anyGiven: true}, () => engine.check(DIAGONAL, given, options));
      assert.deepEqual([answer.accepted, answer.text], [false, refused]);
    }
  }
  // By a black background the white cells are coloured, and other lines are forced.
  const unique = pictureOf('a./.b'), certificate = engine.open(unique).say('certify\n');
  const pollution = {background: '0,0,0', format: 'non', history: 1};
  assert.equal(
      polluted(pollution, () => engine.check(unique, certificate)).text, 'certificate accepted\n'
  );
  assert.equal(polluted(pollution, () => engine.prove(unique).ruling), 'unique');
  assert.deepEqual(polluted(pollution, () => engine.clues(unique)), engine.clues(unique));
  const bench = polluted(pollution, () => engine.open(unique));
  assert.equal(bench.say('pin 1 1\npin 1 2\nundo\nundo\n'), 'ok\n'.repeat(4));
  // A hole in a pair is no number, and one among pairs is no pair, whatever stands on the
  // prototype.
  for (const givens
           of [[new Array(2)],
               new Array(1),
               [, [1, 1], [1, 2], [2, 1], [2, 2]],
               [[1, 1], [1, 2], [2, 1], , [2, 2]]]) {
    for (const put of [1, [1, 1], 'given 1 1\ngiven 1 2\ngiven 2 1\ngiven 2 2\n']) {
      assert.throws(
          () => polluted(
              {0: put, 1: put, 3: put}, () => engine.check(DIAGONAL, all, {published: givens})
          ),
          TypeError
      );
    }
  }
});

test('a bench is closed in a moment, however many others are open', async () => {
  const engine = await fresh(), benches = [];
  const times = [
    () => {
      for (let i = 0; i < 8000; i += 1) benches.push(engine.open(DIAGONAL));
    },
    () => benches.forEach((bench) => bench.close())
  ].map((run) => {
    const from = process.cpuUsage();
    run();
    const {user, system} = process.cpuUsage(from);
    return user + system;
  });
  assert.ok(times[1] < times[0], `opened in ${times[0]} and closed in ${times[1]} microseconds`);
});

test(
    'benches that nobody holds any more are closed, and a bench is closed once by what disposes of it',
    {skip: long},
    async () => {
      setFlagsFromString('--expose-gc');
      const collect = runInNewContext('gc'), engine = await fresh();
      const before = engine.open(DIAGONAL);
      let most = 0;
      for (let turn = 0; turn < 12; turn += 1) {
        for (let i = 0; i < 5000; i += 1) engine.open(DIAGONAL).say('clues\n');
        most = Math.max(most, engine.memory);
        for (let i = 0; i < 4; i += 1) {
          collect();
          await new Promise((go) => setTimeout(go, 1));
        }
      }
      // 60,000 benches would take more than the 1 GiB that there is; two turns of them take less
      // than half.
      assert.ok(most < 536870912, `${most}`);
      assert.equal(before.say('verdict\n'), 'ambiguous\n.a\na.\n');
      if (Symbol.dispose) {
        const bench = engine.open(DIAGONAL);
        bench[Symbol.dispose]();
        assert.deepEqual(faultOf(() => bench.say('')), ['closed', 'closed']);
        bench[Symbol.dispose]();
      }
    }
);

test('10,000 benches are opened and closed, and not a block more is taken', async () => {
  const {engine, calls} = await watched();
  const session = () => {
    const bench = engine.open(DIAGONAL);
    bench.say('pin 1 1\nverdict\ncertify\n');
    bench.close();
    assert.equal(
        engine
            .check(DIAGONAL, 'nonocert 2\ngiven 1 1\nline r 1\nline c 1\nline r 2\ndone\n', {
              anyGiven: true
            })
            .accepted,
        true
    );
    faultOf(() => engine.open('P4\n'));
    faultOf(() => bench.say(''));
  };
  for (let i = 0; i < 10; i += 1) session();
  assert.equal(taken(calls, () => {
                 for (let i = 0; i < 10000; i += 1) session();
               }), 0);
});

test(
    'memory that was full of benches is whole again once they are closed',
    {skip: long},
    async () => {
      const {engine, calls} = await watched(), benches = [];
      const large = [29n, 28n].map(
          (size) => calls.malloc(2n ** size - 16n)
      );  // so that fewer benches fill it
      assert.deepEqual(
          faultOf(() => {
            for (;;) benches.push(engine.open(DIAGONAL));
          }),
          ['memory', 'memory']
      );
      const count = benches.length;
      assert.ok(count > 1000, `${count}`);
      // Every second one first, so that what is free lies in pieces.
      for (const part of [0, 1])
        benches.forEach((bench, at) => {
          if (at % 2 === part) bench.close();
        });
      large.forEach((at) => calls.free(at));
      assert.deepEqual(
          engine.check(
                    text('examples', 'diagonal.ppm'), text('examples', 'diagonal.ppm.cert')
          ).accepted,
          true
      );
      const most = calls.malloc(2n ** 29n);  // a block of 768 MiB
      assert.notEqual(most, 0n);
      calls.free(most);
      for (let i = count; i < 100000; i += 1) engine.open(DIAGONAL).close();
      assert.ok(engine.memory <= 1073741824, `${engine.memory}`);
    }
);

test('each growth of memory refused in turn is an ordinary answer', async () => {
  const picture = text('examples', 'heart.ppm');
  const lines = 'clues\nmap\npaint 1 1 b\nverdict\nwhy 1 1 a\nreport\ncertify\nppm\nundo\nredo\n';
  const whole = (await fresh()).open(picture).say(lines);
  const engine = await fresh();
  let refused = 0;
  for (let nth = 1;; nth += 1) {
    let bench = null, said = null, kind = null;
    engine.refuse(nth);
    try {
      bench = engine.open(picture);
      said = bench.say(lines);
    } catch (fault) {
      assert.ok(
          fault instanceof Fault && fault.kind === 'memory',
          `${nth}: ${fault.kind} ${fault.message}`
      );
      kind = fault.kind;
    }
    engine.refuse(0);
    if (said === whole) break;
    refused += 1;
    assert.ok(kind || said.includes('refused: Memory\n'), `${nth}: ${said}`);
    bench?.close();
  }
  assert.ok(refused > 50, `${refused}`);
  assert.equal(engine.open(picture).say(lines), whole);
});

test(
    'each growth refused in turn while a certificate is checked or made is a fault of memory',
    async () => {
      const {engine, calls} = await watched();
      const picture = text('examples', 'given.ppm'),
            certificate = text('examples', 'given.ppm.cert'), givens = [[1, 1]];
      const lemmas = `nonolemma 1${certificate.slice(10)}`, unique = pictureOf('a./.b'),
            made = engine.prove(unique);
      const assessed = engine.assess(picture, {published: givens});
      const accepted =
          {accepted: true, status: 0, text: 'certificate accepted, givens 1\n', givens};
      const asked = [
        [() => engine.check(picture, certificate, {published: givens}), accepted],
        [() => engine.check(picture, lemmas, {anyGiven: true}), accepted],
        [() => engine.assess(picture, {published: givens}), assessed],
        [() => engine.assess(picture, {published: givens, certificate}), assessed],
        [() => engine.prove(unique), made],
        [() => engine.prove(DIAGONAL), {ruling: 'ambiguous', certificate: null}],
      ];
      for (const [call, wanted] of asked) {
        const turns = () => {
          const {answer, refused} = refusedInTurn(engine, call);
          assert.deepEqual(answer, wanted);
          assert.ok(refused > 10, `${refused}`);
        };
        turns();
        assert.equal(taken(calls, turns), 0);
      }
    }
);

test('an error says what was refused, its name and its place', async () => {
  const engine = await fresh();
  const given = 'nonocert 2\ngiven 1 1\nline r 1\nline c 1\nline r 2\ndone\n';
  for (const [call, ...wanted] of [
           [() => engine.open('P3 1 1 1 0 0 2'), 'picture', 'SampleOver', 13, null],
           [() => engine.assess('width 2\n'), 'picture', 'MissingSize', null, null],
           [() => engine.prove('P6'), 'picture', 'NotP3', 0, null],
           [
             () => engine.open('width 1\nheight 1\nrows\n1\ncolumns\n0\n'),
            'picture',
            'Fault',
            null,
            null
           ],
           [() => engine.assess(DIAGONAL, {published: [[1, 3]]}), 'givens', 'Place', null, 1],
           [
             () => engine.assess(DIAGONAL, {certificate: 'nonocert 1\nline r 3\n'}),
            'certificate',
            'Place',
            null,
            2
           ],
           [
             () => engine.assess(DIAGONAL, {certificate: given}),
            'certificate',
            'UnpublishedGiven',
            null,
            2
           ],
           [() => engine.clues(' '.repeat(16777217)), 'length', 'TooLong', null, null],
           [() => engine.open(DIAGONAL, {history: 0}), 'option', 'Fault', null, null]]) {
    assert.throws(call, (fault) => {
      assert.ok(fault instanceof Fault && fault.message === fault.text);
      assert.deepEqual([fault.kind, fault.name, fault.byte, fault.line], wanted);
      return true;
    });
  }
});

test('an engine is made of a module that is compiled, too', async () => {
  const module = await WebAssembly.compile(bytes);
  const engines = [await load(module), await load(module)];
  for (const engine of engines)
    assert.equal(engine.clues('P3 1 1 1 0 0 0').text, 'r 1: 1a\nc 1: 1a\n');
  assert.notEqual(engines[0].open(DIAGONAL), engines[1].open(DIAGONAL));
});

test('any bytes are answered, and the module goes on', async () => {
  const engine = await fresh();
  let seed = 1;
  const next = (n) => {
    seed = (Math.imul(seed, 1103515245) + 12345) >>> 0;
    return Math.floor((seed / 4294967296) * n);
  };
  const bench = engine.open(DIAGONAL);
  for (let i = 0; i < 2000; i += 1) {
    const noise = Uint8Array.from({length: next(300)}, () => next(256));
    const near = new TextEncoder().encode(DIAGONAL);
    near[next(near.length)] = next(256);
    for (const file of [noise, near]) {
      for (const format of ['ppm', 'non']) {
        try {
          engine.open(file, {format}).close();
        } catch (fault) {
          assert.equal(fault.kind, 'picture');
        }
      }
      assert.equal(typeof engine.check(file, noise).text, 'string');
      assert.equal(typeof engine.check(file, noise, {published: noise}).text, 'string');
    }
    assert.equal(typeof bench.say(noise), 'string');
  }
  assert.equal(engine.open(DIAGONAL).say('verdict\n'), 'ambiguous\n.a\na.\n');
});

// The text in front of a certificate, whose lines are free, and of two right lines the one that was
// given.
function chosen(wanted, got) {
  const lines = got.split('nonocert ')[0].split('\n');
  return wanted.split('nonocert ')[0]
      .split('\n')
      .map((line, at) => {
        const [one, other] = line.split(' or ');
        return other !== undefined && lines[at] !== one ? other : one;
      })
      .join('\n');
}

test('the sessions of the repository come out as they stand there', async () => {
  const engine = await fresh();
  let count = 0;
  for (const folder of ['tests/sessions', 'examples']) {
    for (const file of readdirSync(join(root, folder)
         ).filter((name) => name.endsWith('.session'))) {
      const stem = join(root, folder, file.slice(0, -'.session'.length));
      const word = (ending) =>
          (existsSync(stem + ending) ? readFileSync(stem + ending, 'utf8').trim() : undefined);
      if (waits(word('.since') ?? '0')) continue;
      const picture = existsSync(`${stem}.ppm`) ? `${stem}.ppm` : `${stem}.non`;
      const options = {
        format: picture.slice(-3),
        background: word('.ppm.background'),
        history: word('.history') && Number(word('.history'))
      };
      const bench = engine.open(readFileSync(picture), options);
      const said = bench.say(readFileSync(`${stem}.session`));
      assert.equal(
          said.split('nonocert ')[0], chosen(readFileSync(`${stem}.out`, 'utf8'), said), stem
      );
      bench.close();
      count += 1;
    }
  }
  assert.ok(count > 20, `${count}`);
});

// What it prints for examples/diagonal.ppm, which tests/cases/grade.case works out too.
const DIAGONAL_SAID = 'unique\nsize 2 2\ncolours 3\ngivens 0\nopen 0\ngrade easy 1 4 3 0 0\nfit\n';

// Runs the example from a folder, and gives what it printed and its status.
function uploaded(folder, ...words) {
  return uploadedBy(
      resolve(process.env.WASM ?? join(root, 'web', 'out', 'nonobench.wasm')), folder, ...words
  );
}

// The same by a module of that name.
function uploadedBy(name, folder, ...words) {
  const env = {...process.env, WASM: name};
  const run = spawnSync(
      process.execPath,
      [join(root, 'examples', 'check_upload.mjs'), ...words],
      {cwd: folder, env, encoding: 'utf8'}
  );
  return [run.stdout + run.stderr, run.status];
}

test(
    'the example checks an upload in a thread of its own, and its status tells a refusal',
    {skip: long},
    () => {
      const said = (...words) => uploaded(join(root, 'examples'), ...words);
      const folder = mkdtempSync(join(tmpdir(), 'nonobench-upload-'));
      const file = (name, lines) => (writeFileSync(join(folder, name), lines), join(folder, name));
      try {
        const one = file('one', 'given 1 1\n'),
              cross = file('cross.ppm', 'P3\n2 2\n1\n0 0 0 1 1 1\n1 1 1 0 0 0\n');
        const all =
            file('cross.cert', 'nonocert 2\ngiven 1 1\ngiven 1 2\ngiven 2 1\ngiven 2 2\ndone\n');
        assert.deepEqual(said('diagonal.ppm', 'diagonal.ppm.cert'), [DIAGONAL_SAID, 0]);
        const given = 'unique\nsize 2 2\ncolours 2\ngivens 1\nopen 0\ngrade easy 1 4 2 0 0\nfit\n';
        assert.deepEqual(said('given.ppm', 'given.ppm.cert', one), [given, 0]);
        const lemmas = file('lemmas.cert', 'nonolemma 2\ngiven 1 1\nline r1 c1 r2\ndone\n');
        assert.deepEqual(said('given.ppm', lemmas, one), [given, 0]);
        const two = file('two', 'given 2 2\ngiven 1 1\n');
        assert.deepEqual(
            said('given.ppm', 'given.ppm.cert', two), ['refused: flaw given 1 1\n', 1]
        );
        assert.deepEqual(
            said('given.ppm', 'given.ppm.cert', two, '255,0,0'),
            ['refused: flaw background; flaw given 1 1\n', 1]
        );
        for (const kind of ['blank', 'alike', 'background'])
          assert.deepEqual(
              said('--allow-flaw', kind, 'given.ppm', 'given.ppm.cert', two),
              ['refused: flaw given 1 1\n', 1]
          );
        const spare =
            'unique\nsize 2 2\ncolours 2\ngivens 2\nopen 0\ngrade easy 1 2 1 0 0\nflaw given 1 1\nunfit\n';
        for (const words of [['given'], ['any'], ['blank', '--allow-flaw', 'given']]) {
          assert.deepEqual(
              said('--allow-flaw', ...words, 'given.ppm', 'given.ppm.cert', two), [spare, 0]
          );
        }
        for (const words of [['--allow-flaw', 'spare'], ['--allow-flaw'], ['--other']]) {
          assert.deepEqual(said('given.ppm', 'given.ppm.cert', two, ...words), [
            'check_upload: usage: check_upload.mjs [--allow-flaw KIND ..] PICTURE CERTIFICATE [GIVENS [R,G,B]]\n',
            2
          ]);
        }
        assert.deepEqual(
            said('given.ppm', lemmas), ['refused: certificate UnpublishedGiven at line 2\n', 1]
        );
        assert.deepEqual(
            said('given.ppm', 'given.ppm.cert'),
            ['refused: certificate UnpublishedGiven at line 2\n', 1]
        );
        assert.deepEqual(
            said('given.ppm', 'diagonal.ppm.cert'), ['refused: certificate NotDead at line 5\n', 1]
        );
        assert.deepEqual(
            said(cross, all), ['refused: certificate UnpublishedGiven at line 2\n', 1]
        );
        assert.deepEqual(
            said(cross, all, one), ['refused: certificate UnpublishedGiven at line 3\n', 1]
        );
        assert.match(
            said('none.ppm', 'diagonal.ppm.cert')[0],
            /^check_upload: ENOENT: no such file or directory, open 'none.ppm'\n$/
        );
        assert.equal(said('none.ppm', 'diagonal.ppm.cert')[1], 3);
        assert.deepEqual(
            said('given.ppm', 'given.ppm.cert', cross), ['refused: givens BadLine at line 1\n', 1]
        );
        assert.equal(said('given.ppm')[1], 2);
        for (const ground of ['', '1,2', '1,2,3,4', '-1,0,0', '1e1,0,0', '65536,0,0', '1, 2,3']) {
          assert.deepEqual(
              said('given.ppm', 'given.ppm.cert', one, ground),
              ['check_upload: the background must be R,G,B\n', 2]
          );
        }
        assert.deepEqual(said('given.ppm', 'given.ppm.cert', one, '255,00255,255'), [given, 0]);
        const [text, status] = uploadedBy(
            join(folder, 'none.wasm'), join(root, 'examples'), 'diagonal.ppm', 'diagonal.ppm.cert'
        );
        assert.match(
            text,
            /^check_upload: the package nonobench is not installed here, and ENOENT: .*none\.wasm'\n$/
        );
        assert.equal(status, 3);
        const damaged = uploadedBy(
            file('damaged.wasm', 'x'), join(root, 'examples'), 'diagonal.ppm', 'diagonal.ppm.cert'
        );
        assert.match(damaged[0], /^check_upload: the module cannot be loaded: .*\n$/);
        assert.equal(damaged[1], 3);
      } finally {
        rmSync(folder, {recursive: true, force: true});
      }
    }
);

test('the example tells by its status that its answer could not be written', () => {
  const wasm = resolve(process.env.WASM ?? join(root, 'web', 'out', 'nonobench.wasm')),
        script = join(root, 'examples', 'check_upload.mjs');
  const asked = 'node "$1" "$2.ppm" "$2.ppm.cert"';
  for (const [picture, line] of [
           ['diagonal', `${asked} > /dev/full`],
           ['given', `${asked} > /dev/full`],
           ['diagonal', `(sleep 1; ${asked}) | true; exit \${PIPESTATUS[0]}`]]) {
    const run = spawnSync(
        'bash',
        ['-c', line, 'bash', script, picture],
        {cwd: join(root, 'examples'), env: {...process.env, WASM: wasm}, encoding: 'utf8'}
    );
    assert.match(run.stderr, /^check_upload: [^\n]*(ENOSPC|EPIPE)[^\n]*\n$/);
    assert.equal(run.status, 3);
  }
});

test('the example loads nothing from the current folder', () => {
  const folder = mkdtempSync(join(tmpdir(), 'nonobench-hostile-'));
  try {
    const mark = join(folder, 'ran'),
          hostile = `require('node:fs').appendFileSync(${JSON.stringify(mark)}, 'ran')`;
    const files = [
      'nonobench.mjs',
      'index.js',
      'worker_threads.js',
      'web/nonobench.mjs',
      'node_modules/worker_threads/index.js',
      'node_modules/fs/promises.js'
    ];
    for (const name of files) {
      mkdirSync(dirname(join(folder, name)), {recursive: true});
      writeFileSync(
          join(folder, name),
          name.endsWith('.mjs') ?
              `import { createRequire } from 'node:module'; const require = createRequire(import.meta.url); ${
                  hostile}` :
              hostile
      );
    }
    writeFileSync(
        join(folder, 'package.json'), '{"imports": {"#x": "./index.js"}, "main": "index.js"}'
    );
    writeFileSync(join(folder, 'nonobench.wasm'), 'no module');
    const pair = ['diagonal.ppm', 'diagonal.ppm.cert'].map((name) => join(root, 'examples', name));
    assert.deepEqual(uploaded(folder, ...pair), [DIAGONAL_SAID, 0]);
    assert.ok(!existsSync(mark));
  } finally {
    rmSync(folder, {recursive: true, force: true});
  }
});

test('a certificate that an editor changed is told so, beside NotCert', async () => {
  const engine = await fresh(), unique = pictureOf('a./.b'),
        certificate = engine.open(unique).say('certify\n');
  const utf16 = (isBig, hasMark) =>
      Buffer.from([...(hasMark ? '\ufeff' : ''), ...certificate].flatMap((sign) => {
        const code = sign.charCodeAt(0), pair = [code & 255, code >> 8];
        return isBig ? pair.reverse() : pair;
      }));
  const changed = [
    [certificate.replaceAll('\n', '\r\n'), 'its lines end with CR LF, and must end with LF only'],
    [
      `\ufeff${certificate}`,
      'it begins with a byte order mark, and must begin with its first word'
    ],
    ...[[false, false], [false, true], [true, false], [true, true]].map(
        (words) => [utf16(...words), 'it is UTF-16, and must be ASCII']
    ),
    ['', ''],
    ['nonocert 3\n', ''],
    ['nonocert 3\nline r 1\r\n', ''],
  ];
  for (const [file, hint] of changed) {
    const {text} = engine.check(unique, file);
    assert.deepEqual([text, hintOf(text, file)], ['certificate NotCert at line 1', hint]);
  }
  const late = certificate.replace('\n', '\n\r\n');
  assert.equal(hintOf(engine.check(unique, late).text, late), '');
  assert.equal(hintOf('certificate accepted\n', certificate.replaceAll('\n', '\r\n')), '');
});

// A folder of a test's own.
function ownFolder(t) {
  const folder = mkdtempSync(join(tmpdir(), 'nonobench-upload-'));
  t.after(() => rmSync(folder, {recursive: true, force: true}));
  return folder;
}

test('the example reads regular files alone, and none that is too long', {skip: long}, (t) => {
  const folder = ownFolder(t),
        [picture, certificate] =
            ['diagonal.ppm', 'diagonal.ppm.cert'].map((name) => join(root, 'examples', name));
  const pipe = join(folder, 'pipe'), long = join(folder, 'long');
  assert.equal(spawnSync('mkfifo', [pipe]).status, 0);
  for (const place of [0, 1, 2]) {
    for (const name of [pipe, '/dev/zero', folder]) {
      const words = [picture, certificate, join(root, 'examples', 'given.ppm.givens')];
      words[place] = name;
      assert.deepEqual(
          uploaded(folder, ...words), [`check_upload: not a regular file: ${name}\n`, 3]
      );
    }
  }
  writeFileSync(long, '');
  truncateSync(long, 3 * 2 ** 30);
  assert.deepEqual(
      uploaded(folder, long, certificate), ['check_upload: a file has more than 4194304 bytes\n', 1]
  );
  assert.deepEqual(
      uploaded(folder, picture, certificate, long),
      ['check_upload: a file has more than 4194304 bytes\n', 1]
  );
  // Of one that could be read whole, nothing is.
  truncateSync(long, 1500000000);
  const report = join(folder, 'report'), early = join(folder, 'early.cjs');
  writeFileSync(
      early,
      `process.on('exit', () => require('node:fs').writeFileSync(${
          JSON.stringify(report)}, String(process.resourceUsage().maxRSS)));`
  );
  const run = spawnSync(
      process.execPath,
      ['-r', early, join(root, 'examples', 'check_upload.mjs'), long, certificate],
      {
        env: {
          ...process.env,
          WASM: resolve(process.env.WASM ?? join(root, 'web', 'out', 'nonobench.wasm'))
        },
      }
  );
  assert.equal(run.status, 1);
  assert.ok(Number(readFileSync(report, 'utf8')) < 200 * 1024, readFileSync(report, 'utf8'));
  truncateSync(long, 4194304);
  assert.deepEqual(uploaded(folder, long, certificate), ['refused: ppm NotP3 at byte 0\n', 1]);
  assert.deepEqual(uploaded(folder, picture, writeCrlf(folder, certificate)), [
    'refused: certificate NotCert at line 1 (its lines end with CR LF, and must end with LF only)\n',
    1
  ]);
});

// A certificate as an editor of Windows saves it.
function writeCrlf(folder, certificate) {
  writeFileSync(
      join(folder, 'crlf.cert'), readFileSync(certificate, 'utf8').replaceAll('\n', '\r\n')
  );
  return join(folder, 'crlf.cert');
}

test(
    'the example ends a check that takes too long, by the processor or by the clock',
    {skip: long},
    async (t) => {
      const folder = ownFolder(t),
            [picture, certificate] =
                ['diagonal.ppm', 'diagonal.ppm.cert'].map((name) => join(root, 'examples', name));
      // A package whose check takes its time: as the script's name says.
      mkdirSync(join(folder, 'node_modules', 'nonobench'), {recursive: true});
      writeFileSync(
          join(folder, 'node_modules', 'nonobench', 'package.json'),
          '{"name": "nonobench", "exports": "./index.mjs"}'
      );
      writeFileSync(join(folder, 'node_modules', 'nonobench', 'index.mjs'), `
    const wait = (seconds) => Atomics.wait(new Int32Array(new SharedArrayBuffer(4)), 0, 0, seconds * 1000);
    const tasks = { some: () => wait(12), clock: () => wait(3600), processor: () => { for (;;); } };
    export const hintOf = () => '';
    export const load = async () => ({ assess() { tasks[/(\\w+)\\.mjs$/.exec(process.argv[1])[1]](); return { verdict: 'unique', flaws: [], text: 'fit\\n' }; } });
  `);
      const script = readFileSync(join(root, 'examples', 'check_upload.mjs'), 'utf8');
      const asked = async (name, limits) => {
        const own = Object.entries(limits).reduce(
            (text, [limit, value]) =>
                text.replace(new RegExp(`(?<=const ${limit} = )\\d+`), `${value}`),
            script
        );
        writeFileSync(join(folder, `${name}.mjs`), own);
        const child = spawn(
            process.execPath, [join(folder, `${name}.mjs`), picture, certificate], {cwd: folder}
        );
        let said = '';
        for (const stream of [child.stdout, child.stderr])
          stream.on('data', (bytes) => {
            said += bytes;
          });
        return [
          await new Promise((done) => {
            child.on('close', done);
          }),
          said
        ];
      };
      const answers = await Promise.all([
        asked('some', {}),
        asked('clock', {MOST_CLOCK: 3}),
        asked('processor', {MOST_PROCESSOR: 2, MOST_CLOCK: 3600})
      ]);
      assert.deepEqual(
          answers, [[0, 'fit\n'], [1, 'refused: took too long\n'], [1, 'refused: took too long\n']]
      );
    }
);
