// The two sides that compare.mjs compares: the native program, and the module in node. Each has a
// call `answer`, which gives {out, said, status}: what is written, what is said on standard error,
// and the status. It is asked {call: 'work', file, lines, options}, {call: 'check', file,
// certificate, givens, options}, where there may be no givens, {call: 'prove', file, options}
// or {call: 'clues', file, options}, as bytes.
import {spawnSync} from 'node:child_process';
import {closeSync, mkdtempSync, openSync, readFileSync, rmSync, writeFileSync} from 'node:fs';
import {tmpdir} from 'node:os';
import {join} from 'node:path';
import {load} from '../../web/nonobench.mjs';

/** The native program, with its files in a folder of its own. */
export class Program {
  constructor(path) {
    this.path = path;
    this.folder = mkdtempSync(join(tmpdir(), 'nonobench-compare-'));
  }

  #kept(name, bytes) {
    const path = join(this.folder, name);
    writeFileSync(path, bytes);
    return path;
  }

  answer({call, file, lines, certificate, givens, options}) {
    const {format, background, history} = options;
    if (call === 'clues') return this.#ran([], file);
    const words = [call, this.#kept('file', file)];
    if (certificate !== undefined) words.push(this.#kept('certificate', certificate));
    if (givens !== undefined) words.push('--givens', this.#kept('givens', givens));
    if (call === 'work') words.push('--format', format);
    if (background !== undefined) words.push('--background', background);
    if (history !== undefined) words.push('--history', String(history));
    return this.#ran(words, lines ?? '');
  }

  // Its input is a file, since a program that refuses its words reads none of it.
  #ran(words, input) {
    const given = openSync(this.#kept('input', input));
    const run = spawnSync(this.path, words, {stdio: [given, 'pipe', 'pipe'], maxBuffer: 1 << 30});
    closeSync(given);
    if (run.error) throw run.error;
    return {out: run.stdout.toString(), said: run.stderr.toString(), status: run.status};
  }

  end() {
    rmSync(this.folder, {recursive: true, force: true});
  }
}

// What an engine answers, as the program would.
function answerOf(engine, {call, file, lines, certificate, givens, options}) {
  const answered = (out) => ({out, said: '', status: 0});
  const refused = (text, status) => ({out: '', said: `nonobench: ${text}\n`, status});
  try {
    if (call === 'clues') return answered(engine.clues(file, options).text);
    if (call === 'check') {
      const asked = {...options, published: givens, anyGiven: givens === undefined};
      const {accepted, text, status} = engine.check(file, certificate, asked);
      return accepted ? answered(text) : refused(text, status);
    }
    if (call === 'prove') {
      const {ruling, certificate: made} = engine.prove(file, {...options, published: givens});
      return made === null ? {...answered(`${ruling}\n`), status: 1} : answered(made);
    }
    const bench = engine.open(file, options);
    try {
      return answered(bench.say(lines));
    } finally {
      bench.close();
    }
  } catch (fault) {
    return refused(fault.text, fault.text === 'background must be R,G,B' ? 2 : 1);
  }
}

/** The call of the module. */
export async function answerBy(module) {
  const engine = await load(module);
  return (asked) => answerOf(engine, asked);
}
