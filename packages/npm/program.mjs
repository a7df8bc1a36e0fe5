#!/usr/bin/env node
// The program nonobench over the module: the arguments, the bytes and the statuses of the native
// one, wherever node runs. Only where an editor changed a certificate, a further line says so.
import {readFileSync} from 'node:fs';
import {Ending, ended} from './ending.mjs';
import {Fault, hintOf} from './nonobench.mjs';
import {load} from './node.mjs';
import {eachLine, readFile, readInput, say, write} from './streams.mjs';
import {readWords} from './words.mjs';

const beside = (name) => JSON.parse(readFileSync(new URL(name, import.meta.url), 'utf8'));

// Checks a certificate: prints what was accepted, or ends.
async function check({files, givens, options: {background}}) {
  const [picture, certificate] = files.map(readFile);
  const published = givens === undefined ? undefined : readFile(givens),
        anyGiven = givens === undefined;
  const {accepted, status, text} =
      (await load()).check(picture, certificate, {background, published, anyGiven});
  const hint = hintOf(text, certificate);
  if (!accepted) throw ended(status, hint ? `${text}\nnonobench: ${hint}` : text);
  write(text);
}

// The kinds of faults of files.
const FILES = ['picture', 'certificate', 'givens'];

// The block of a puzzle's file, and its status: 0 if the puzzle is fit, 1 if it is not or is
// refused, 3 if it could not be read.
function blockOf(engine, path, options) {
  try {
    const {text, fit} = engine.assess(readFile(path), options);
    return [text, fit ? 0 : 1];
  } catch (error) {
    if (error instanceof Fault && FILES.includes(error.kind)) return [`refused ${error.text}\n`, 1];
    if (!(error instanceof Ending)) throw error;
    return error.status === 3 ? ['refused read\n', 3] : ['refused too long\n', 1];
  }
}

const TASKS = {
  // The texts were printed by the native program when the package was made.
  help: async ({page}) => write(beside('help.json')[page]),

  version: async () => write(`nonobench ${beside('package.json').version}\n`),

  async clues({options}) {
    const picture = readInput();
    write((await load()).clues(picture, options).text);
  },

  check,

  async assess({files, givens, certificate, options: {format, background, allowance}}) {
    const [published, lines] =
        [givens, certificate].map((path) => (path === undefined ? undefined : readFile(path)));
    const engine = await load();
    let worst = 0;
    for (const [at, path] of files.entries()) {
      const [block, status] =
          blockOf(engine, path, {format, background, allowance, published, certificate: lines});
      write(files.length > 1 ? `puzzle ${at + 1}\n${block}` : block);
      worst = Math.max(worst, status);
    }
    if (worst === 3) throw ended(3, 'read failed');
    if (worst === 1) throw new Ending(1, '');  // the blocks say why
  },

  async prove({files, givens, complete, options: {background, format}}) {
    const [picture, published] =
        [files[0], givens].map((path) => (path === undefined ? undefined : readFile(path)));
    const {ruling, certificate} =
        (await load()).prove(picture, {background, published, complete, format: Number(format)});
    write(certificate ?? `${ruling}\n`);
    if (certificate === null) throw new Ending(1, '');  // the word says why
  },

  async work({files, options}) {
    const bench = (await load()).open(readFile(files[0]), options);
    eachLine((line) => write(bench.say(line)));
  },
};

// How the program ends on what was thrown. What nobody expects, such as a module that cannot be
// loaded, is no refusal.
function endingOf(error) {
  if (error instanceof Ending) return error;
  return error instanceof Fault ? ended(1, error.text) :
                                  ended(3, `the module cannot be used: ${error.message}`);
}

try {
  const asked = readWords(process.argv.slice(2));
  await TASKS[asked.task](asked);
} catch (error) {
  const {message, status} = endingOf(error);
  say(message);
  process.exitCode = status;
}
