// Tests of the package for npm by node's own runner: PACKAGE=folder NONOBENCH=program node --test
// packages/npm/test.mjs. The folder is as packages/npm/stage makes it. The arguments are compared
// with those of the native program; tests/program/ runs both.
import assert from 'node:assert/strict';
import {spawn, spawnSync} from 'node:child_process';
import {mkdirSync, mkdtempSync, readFileSync, rmSync, symlinkSync, writeFileSync} from 'node:fs';
import {tmpdir} from 'node:os';
import {dirname, join, resolve} from 'node:path';
import test from 'node:test';
import {fileURLToPath, pathToFileURL} from 'node:url';
import {Chance} from '../../tests/packages/chance.mjs';
import {waits} from '../../tests/waits.mjs';

const root = join(dirname(fileURLToPath(import.meta.url)), '..', '..');
const folder = resolve(process.env.PACKAGE);
const native = resolve(process.env.NONOBENCH);
const program = join(folder, 'program.mjs');
const own = (name) => import(pathToFileURL(join(folder, name)));
const {readWords} = await own('words.mjs');
const help = JSON.parse(readFileSync(join(folder, 'help.json'), 'utf8'));
const PATIENCE = 300000;  // milliseconds after which a test counts as one that does not end
const example = (name) => join(root, 'examples', name);

// A folder of a test's own, which goes when the test ends.
function ownFolder(t) {
  const made = mkdtempSync(join(tmpdir(), 'nonobench-npm-'));
  t.after(() => rmSync(made, {recursive: true, force: true}));
  return made;
}

// What the native program does with arguments, where no file has a name that is used here: its
// status and what it prints or says.
function done(args) {
  const {status, stdout, stderr} = spawnSync(native, args, {input: '', encoding: 'utf8', cwd: '/'});
  return {status, wrote: stdout, said: stderr};
}

// What the package's program would do.
function asked(args) {
  try {
    const {task, page, files, givens, certificate} = readWords(args);
    if (task === 'help') return {status: 0, wrote: help[page], said: ''};
    if (task === 'version') return {status: 0, wrote: done(['--version']).wrote, said: ''};
    if (task === 'clues') return done([]);
    const blocks =
        files.map(
                 (_, at) => `${files.length > 1 ? `puzzle ${at + 1}\n` : ''}refused read\n`
        ).join('');
    return {
      status: 3,
      wrote: task === 'assess' && (givens ?? certificate) === undefined ? blocks : '',
      said: 'nonobench: read failed\n'
    };
  } catch ({status, message}) {
    return {status, wrote: '', said: message};
  }
}

const PIECES = [
  'work',
  'check',
  'assess',
  'prove',
  'help',
  '--help',
  '-h',
  '--version',
  '-V',
  '--',
  '-',
  '',
  'one',
  'two',
  '-x',
  '-1',
  '--other',
  '--help=1',
  '-hV',
  '-Vh',
  '-xh',
  '--history',
  '--history=5',
  '--history=',
  '5',
  '+5',
  '007',
  '0',
  '1000',
  '1001',
  '5x',
  '--format',
  '--format=non',
  '--format=gif',
  'non',
  'ppm',
  '--format=1',
  '--format=2',
  '--givens',
  '--givens=',
  '--givens=three',
  '--certificate',
  '--certificate=four',
  '--allow',
  '--allow=0',
  '--allow=99999',
  '--allow=100000',
  '--allow=off',
  '--complete',
  '--complete=1',
  '--background',
  '--background=1,2,3',
  '--background=',
  '1,2,3',
  '1,2',
  '0,0,65536',
  '00001,2,3',
  '--no-help',
  '---',
  '--=x',
  '-=',
  '-h=1',
  '--histor'
];

test('arguments are taken and refused as by the native program', {skip: waits('0.8.0')}, () => {
  const chance = new Chance(20);
  for (let time = 0; time < 2000; time += 1) {
    const front = chance.below(4) === 0 ?
        [] :
        [['work', 'check', 'assess', 'prove', 'help'][chance.below(5)]];
    const args = front.concat(
        Array.from({length: chance.below(5)}, () => PIECES[chance.below(PIECES.length)])
    );
    const here = asked(args), there = done(args);
    // What a parser says of arguments is its own.
    if (there.said.startsWith('error: ') && here.said.startsWith('error: ')) here.said = there.said;
    assert.deepEqual(here, there, JSON.stringify(args));
  }
});

test('a certificate is made as the native program makes it, with givens too', async (t) => {
  const [picture, givens] = ['given.ppm', 'given.ppm.givens'].map(example);
  for (const args
           of [[picture],
               ['--givens', givens, picture],
               ['--format', '1', '--complete', '--givens', givens, picture],
               ['--givens', picture, picture]]) {
    const {status, out: wrote, err: said} = await started(t, ['prove', ...args]).ended;
    assert.deepEqual({status, wrote, said}, done(['prove', ...args]), args.join(' '));
  }
});

test('a word of the program is no name of an object', () => {
  for (const word of ['constructor', '__proto__', 'toString', '--constructor', '--__proto__=x']) {
    assert.equal(asked([word]).status, 2, word);
    assert.equal(asked(['work', 'one', word]).status, 2, word);
    assert.equal(asked(['help', word]).status, 2, word);
  }
});

// Starts the program, and gathers what it prints. It is killed where the test ends before it.
// `front` is what starts node.
function started(t, args, front = []) {
  const [first, ...others] = [...front, process.execPath, program, ...args];
  const child = spawn(first, others, {stdio: ['pipe', 'pipe', 'pipe']});
  t.after(() => child.kill('SIGKILL'));
  const said = {out: '', err: ''};
  child.stdout.on('data', (bytes) => {
    said.out += bytes;
  });
  child.stderr.on('data', (bytes) => {
    said.err += bytes;
  });
  child.ended =
      new Promise((done) => child.on('close', (status, signal) => done({status, signal, ...said})));
  child.printed = (text) => new Promise((done, failed) => {
    const look = () =>
        (said.out === text ? done() : !text.startsWith(said.out) && failed(new Error(said.out)));
    child.stdout.on('data', look);
    look();
  });
  return child;
}

test('each line is answered before the next one comes', {timeout: PATIENCE}, async (t) => {
  const child = started(t, ['work', example('diagonal.ppm')]);
  child.stdin.write('verdict\npai');
  await child.printed('unique\n');
  child.stdin.write('nt 1 1 .\n');
  await child.printed('unique\nok\n');
  child.stdin.end('undo');
  assert.deepEqual(await child.ended, {status: 0, signal: null, out: 'unique\nok\nok\n', err: ''});
});

test('a stream that does not wait is waited for', {timeout: PATIENCE}, async (t) => {
  if (spawnSync('python3', ['--version']).status !== 0) return t.skip('no python3');
  const front = [
    'python3',
    '-c',
    'import os, sys; os.set_blocking(0, False); os.execvp(sys.argv[1], sys.argv[1:])'
  ];
  const child = started(t, ['work', example('diagonal.ppm')], front);
  child.stdin.write('undo\n');
  await child.printed('refused: UndoEmpty\n');
  await new Promise((done) => {
    setTimeout(done, 500);
  });
  child.stdin.end('verdict\n');
  return assert.deepEqual(
      await child.ended, {status: 0, signal: null, out: 'refused: UndoEmpty\nunique\n', err: ''}
  );
});

// A chequerboard of 60 by 60 cells in four colours, whose verdict takes longer than anybody waits.
function chequered() {
  const colours = ['1 1 1', '0 0 0', '1 0 0', '0 0 1'];
  const cells =
      Array.from({length: 60 * 60}, (_, at) => colours[(Math.floor(at / 60) + at % 60) % 4]);
  return `P3 60 60 1\n${cells.join('\n')}\n`;
}

test('Ctrl-C ends a search', {timeout: PATIENCE}, async (t) => {
  const picture = join(ownFolder(t), 'board.ppm');
  writeFileSync(picture, chequered());
  const child = started(t, ['work', picture]);
  child.stdin.write('undo\nverdict\n');
  await child.printed('refused: UndoEmpty\n');
  await new Promise((done) => {
    setTimeout(done, 1000);
  });
  child.kill('SIGINT');
  assert.deepEqual(
      await child.ended, {status: null, signal: 'SIGINT', out: 'refused: UndoEmpty\n', err: ''}
  );
});

test('a line without an end takes no memory', {timeout: PATIENCE}, async (t) => {
  const child = started(t, ['work', example('diagonal.ppm')]);
  const piece = Buffer.alloc(1 << 20, 'x');
  for (let time = 0; time < 200; time += 1) {
    if (!child.stdin.write(piece))
      await new Promise((done) => {
        child.stdin.once('drain', done);
      });
  }
  const peak =
      Number(/VmHWM:\s+(\d+)/.exec(readFileSync(`/proc/${child.pid}/status`, 'utf8'))?.[1]);
  child.stdin.end('\nverdict\n');
  assert.deepEqual(
      await child.ended, {status: 0, signal: null, out: 'refused: LongLine\nunique\n', err: ''}
  );
  assert.ok(peak < 200 * 1024, `${peak} KiB`);
});

test('lines of 200 bytes and more are cut as by the native program', () => {
  const lines = [198, 199, 200, 201, 202, 1023, 1024, 1025, 4095, 4096, 4097].flatMap(
      (size) => ['', '\r', '\r\r'].map((end) => `${' '.repeat(size)}x${end}`)
  );
  for (const input of [lines.join('\n'), `${lines.join('\n')}\n`, '\r', 'undo\r', '\n\n', 'undo']) {
    const args = ['work', example('diagonal.ppm')];
    const here = spawnSync(process.execPath, [program, ...args], {input, encoding: 'utf8'});
    const there = spawnSync(native, args, {input, encoding: 'utf8'});
    assert.deepEqual(
        [here.status, here.stdout, here.stderr], [there.status, there.stdout, there.stderr]
    );
  }
});

test('the package is imported by its name, and brings its module', async (t) => {
  const place = ownFolder(t);
  mkdirSync(join(place, 'node_modules'));
  symlinkSync(folder, join(place, 'node_modules', 'nonobench'));
  writeFileSync(join(place, 'ask.mjs'), `
    import { readFile } from 'node:fs/promises';
    import { createRequire } from 'node:module';
    import { Fault, load } from 'nonobench';
    import { Worker } from 'nonobench/worker';
    const engine = await load();
    const other = await load(await readFile(createRequire(import.meta.url).resolve('nonobench/nonobench.wasm')));
    const [picture, certificate] = await Promise.all(process.argv.slice(2).map((name) => readFile(name)));
    for (const { check, version } of [engine, other].map((it) => ({ check: it.check(picture, certificate), version: it.version }))) {
      console.log(check.accepted, check.text.trim(), version);
    }
    try { engine.open('P6'); } catch (fault) { console.log(fault instanceof Fault, fault.text); }
    const worker = new Worker({ seconds: 300 });
    console.log((await worker.check(picture, certificate)).accepted, await worker.version);
    await worker.open('P6').catch((fault) => console.log(fault instanceof Fault, fault.name));
  `);
  const {stdout, stderr} = spawnSync(
      process.execPath,
      ['ask.mjs', example('diagonal.ppm'), example('diagonal.ppm.cert')],
      {cwd: place, encoding: 'utf8'}
  );
  const version = done(['--version']).wrote.trim().split(' ')[1];
  assert.equal(
      stdout,
      `true certificate accepted ${version}\n`.repeat(2) + 'true ppm NotP3 at byte 0\n' +
          `true ${version}\ntrue NotP3\n`,
      stderr
  );
});

// Two rows, black and white, white and black: another picture has the clues, and a given decides
// it.
const DIAGONAL = 'P3 2 2 255 0 0 0 255 255 255 255 255 255 0 0 0\n';
const GIVEN = 'nonocert 2\ngiven 1 1\nline r 1\nline c 1\nline r 2\ndone\n';
// A chequerboard in four colours, for which a search for a certificate takes minutes.
const INKS = ['1 1 1', '0 0 0', '1 0 0', '0 0 1'];
const ENDLESS = `P3 60 60 1 ${
    Array.from({length: 3600}, (_, at) => INKS[(Math.floor(at / 60) + at) % 4]).join(' ')}\n`;

// What a call answers, however busy the machine is: one that was too late is called again.
async function eventually(call) {
  for (const until = Date.now() + PATIENCE;;) {
    try {
      return await call();
    } catch (fault) {
      if (fault.kind !== 'timeout' || Date.now() > until) throw fault;
    }
  }
}

test('a worker answers as an engine does', async (t) => {
  const {Worker} = await own('worker.mjs'), {Fault, load} = await own('node.mjs');
  const engine = await load(), worker = new Worker({seconds: 300});
  t.after(() => worker.close());
  for (const ask
           of [(it) => it.check(DIAGONAL, GIVEN),
              (it) => it.check(DIAGONAL, GIVEN, {anyGiven: true}),
              (it) => it.assess(new TextEncoder().encode(DIAGONAL), {published: [[1, 1]]}),
              (it) => it.prove('P3 1 1 1 0 0 0'),
              (it) => it.clues(DIAGONAL, {background: '0,0,0'}),
              (it) => it.version]) {
    assert.deepEqual(await ask(worker), ask(engine));
  }
  for (const [call, kind, name] of [
           [() => worker.open('P6'), 'picture', 'NotP3'],
           [() => worker.assess(DIAGONAL, {certificate: GIVEN}), 'certificate', 'UnpublishedGiven'],
           [() => worker.open(DIAGONAL, {history: 0}), 'option', 'Fault']]) {
    await assert.rejects(call(), (fault) => {
      assert.deepEqual([fault instanceof Fault, fault.kind, fault.name], [true, kind, name]);
      return true;
    });
  }
  await assert.rejects(worker.check(1, 2), TypeError);
  await assert.rejects(worker.clues(() => {}), {name: 'DataCloneError'});
  const bytes = new TextEncoder().encode(DIAGONAL), asked = worker.clues(bytes);
  bytes.fill(0);
  assert.deepEqual(await asked, engine.clues(DIAGONAL));
  const bench = await worker.open(DIAGONAL);
  assert.deepEqual(bench.palette, engine.open(DIAGONAL).palette);
});

test('a bench of a worker answers until it or its worker ends', async (t) => {
  const {Worker} = await own('worker.mjs'), worker = new Worker({seconds: 300});
  t.after(() => worker.close());
  const [one, other] = await Promise.all([worker.open(DIAGONAL), worker.open(DIAGONAL)]);
  assert.equal(await one.say('pin 1 1\nverdict\n'), 'ok\nunique\n');
  assert.equal(await other.say('verdict\n'), 'ambiguous\n.a\na.\n');
  await one.close();
  await assert.rejects(one.say('verdict\n'), {kind: 'closed'});
  const asked = [other.say('verdict\n'), worker.version];
  worker.close();
  for (const call of asked) await assert.rejects(call, {kind: 'closed'});
  await assert.rejects(other.say('verdict\n'), {kind: 'ended'});
  assert.equal(await (await worker.open(DIAGONAL)).say('undo\n'), 'refused: UndoEmpty\n');
});

test('a call that takes too long ends the worker, and the next one starts another', async (t) => {
  const {Worker} = await own('worker.mjs'), worker = new Worker({seconds: 2});
  t.after(() => worker.close());
  const bench = await eventually(() => worker.open(DIAGONAL));
  // The second waits for its turn as long.
  const late = {kind: 'timeout', name: 'TimeoutError', text: 'no answer within 2 seconds'};
  const asked = [worker.prove(ENDLESS), worker.clues(DIAGONAL)];
  for (const call of asked) await assert.rejects(call, late);
  await assert.rejects(bench.say('verdict\n'), {kind: 'ended'});
  const clues = await eventually(() => worker.clues(DIAGONAL));
  assert.equal(clues.text, 'r 1: 1a\nr 2: 1a\nc 1: 1a\nc 2: 1a\n');
  for (const seconds of [0, -1, NaN, Infinity, '5'])
    assert.throws(() => new Worker({seconds}), {kind: 'option'});
});

test('a module that cannot be loaded in a worker is told', async (t) => {
  const place = ownFolder(t);
  assert.equal(spawnSync('cp', ['-r', `${folder}/.`, place]).status, 0);
  rmSync(join(place, 'nonobench.wasm'));
  const {Worker} = await import(pathToFileURL(join(place, 'worker.mjs')));
  const worker = new Worker({seconds: 300});
  for (let turn = 0; turn < 2; turn += 1)
    await assert.rejects(worker.version, {kind: 'ended', text: /^the module cannot be loaded: /});
  rmSync(join(place, 'thread.mjs'));
  await assert.rejects(worker.version, {kind: 'ended'});
});

test('a certificate that an editor changed is told so, on a line of its own', (t) => {
  const file = join(ownFolder(t), 'crlf.cert');
  writeFileSync(file, readFileSync(example('diagonal.ppm.cert'), 'utf8').replaceAll('\n', '\r\n'));
  const args = ['check', example('diagonal.ppm'), file];
  const {status, stdout, stderr} =
      spawnSync(process.execPath, [program, ...args], {encoding: 'utf8'});
  const hint = 'nonobench: its lines end with CR LF, and must end with LF only\n';
  assert.deepEqual([status, stdout, stderr], [1, '', done(args).said + hint]);
});

test('a module that fails is told, with a status', (t) => {
  const place = ownFolder(t);
  assert.equal(spawnSync('cp', ['-r', `${folder}/.`, place]).status, 0);
  writeFileSync(join(place, 'nonobench.mjs'), `
    export class Fault extends Error { constructor(kind, text) { super(text); this.kind = kind; this.text = text; } }
    export const hintOf = () => '';
    export const load = async () => ({ clues() { throw new Fault('ended', 'the module has ended: unreachable'); } });
  `);
  const {status, stdout, stderr} =
      spawnSync(process.execPath, [join(place, 'program.mjs')], {input: '', encoding: 'utf8'});
  assert.deepEqual(
      [status, stdout, stderr], [1, '', 'nonobench: the module has ended: unreachable\n']
  );
});

test('a module that cannot be loaded refuses nothing', (t) => {
  const place = ownFolder(t);
  assert.equal(spawnSync('cp', ['-r', `${folder}/.`, place]).status, 0);
  const module = join(place, 'nonobench.wasm'), bytes = readFileSync(module);
  for (const damage
           of [() => writeFileSync(module, bytes.subarray(0, 1000)), () => rmSync(module)]) {
    damage();
    for (const args
             of [['check', example('diagonal.ppm'), example('diagonal.ppm.cert')],
                 ['assess', example('diagonal.ppm')]]) {
      const {status, stdout, stderr} =
          spawnSync(process.execPath, [join(place, 'program.mjs'), ...args], {encoding: 'utf8'});
      assert.deepEqual([status, stdout], [3, '']);
      assert.match(stderr, /^nonobench: the module cannot be used: .+\n$/);
    }
  }
});
