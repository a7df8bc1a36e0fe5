// Compares the module with the native program, byte for byte:
// NONOBENCH=program WASM=module node tests/packages/compare.mjs [CASES] [SEED].
// All sessions and worked rows of tests/ and examples/, certificates of 12 MB, and CASES made by
// chance (1,000): pictures and puzzles with lines, files with a byte changed, backgrounds, and
// certificates that are right and wrong. What differs is printed, and the status is then 1.
import {existsSync, readFileSync, readdirSync} from 'node:fs';
import {dirname, join} from 'node:path';
import {fileURLToPath} from 'node:url';
import {bytesOf, casesOf, pairOf} from '../cases.mjs';
import {Chance} from './chance.mjs';
import {Program, answerBy} from './sides.mjs';

const root = join(dirname(fileURLToPath(import.meta.url)), '..', '..');
const [cases = '1000', seed = '1'] = process.argv.slice(2);
const program =
    new Program(process.env.NONOBENCH ?? join(root, 'crates', 'nonobench', 'out', 'nonobench'));
const inside =
    await answerBy(readFileSync(process.env.WASM ?? join(root, 'web', 'out', 'nonobench.wasm')));
const chance = new Chance(Number(seed));
const counts = {
  differences: 0,
  bytes: 0,
  answers: 0
};

// Asks both sides, puts a difference down, and gives what the program wrote.
function ask(name, asked) {
  const bytes = Object.fromEntries(Object.entries(asked).map(
      ([key, value]
      ) => [key, typeof value === 'string' && key !== 'call' ? Buffer.from(value) : value]
  ));
  const native = program.answer(bytes), answered = inside(bytes);
  counts.answers += 1;
  counts.bytes += native.out.length;
  if (['out', 'said', 'status'].some((key) => native[key] !== answered[key])) {
    counts.differences += 1;
    console.log(`${name}: the module and the program differ:\n${
        JSON.stringify(answered).slice(0, 400)}\n${JSON.stringify(native).slice(0, 400)}`);
  }
  return native.out;
}

const session = (name, file, lines, options) => ask(name, {call: 'work', file, lines, options});
const check = (name, file, certificate, background, givens) =>
    ask(name, {call: 'check', file, certificate, givens, options: {background}});
const prove = (name, file, background) => ask(name, {call: 'prove', file, options: {background}});

// The sessions that stand in the repository.
function sessions() {
  let count = 0;
  for (const folder of ['examples', 'tests/sessions']) {
    for (const file of readdirSync(join(root, folder))
             .filter((name) => name.endsWith('.session'))
             .sort()) {
      const stem = join(root, folder, file.slice(0, -'.session'.length));
      const word = (ending) =>
          (existsSync(stem + ending) ? readFileSync(stem + ending, 'utf8').trim() : undefined);
      const format = existsSync(`${stem}.ppm`) ? 'ppm' : 'non',
            background = word('.ppm.background'), history = word('.history');
      const picture = readFileSync(`${stem}.${format}`);
      const out = session(
          stem,
          picture,
          readFileSync(`${stem}.session`),
          {format, background, history: history && Number(history)}
      );
      const at = out.indexOf('nonocert ');
      if (at >= 0 && format === 'ppm')
        check(`${stem}, its certificate`, picture, out.slice(at), background);
      if (format === 'ppm')
        check(
            `${stem}, what is proved`,
            picture,
            prove(`${stem}, proved`, picture, background),
            background
        );
      count += 1;
    }
  }
  return count;
}

// The worked rows of tests/cases.
const ROWS = {
  pictures: (name, text) =>
      ask(name, {call: 'clues', file: bytesOf(text), options: {format: 'ppm'}}),
  puzzles: (name, text) => session(name, bytesOf(text), 'write non\n', {format: 'non'}),
  certificates: (name, text) => check(name, ...pairOf(text), undefined),
};
ROWS.lemmas = ROWS.certificates;

function rows() {
  let count = 0;
  for (const [kind, run] of Object.entries(ROWS)) {
    for (const [text] of casesOf(kind)) {
      run(`a row of ${kind}: '${text}'`, text);
      count += 1;
    }
  }
  return count;
}

// Certificates of 12 MB: a line many times over before a tree, a tree that goes on behind its end,
// and one of splits that ends early; and with lemmas: without literals, with branches that end
// early, and with lines.
function longest() {
  const picture = readFileSync(join(root, 'examples', 'diagonal.ppm')),
        whole = readFileSync(join(root, 'examples', 'diagonal.ppm.cert'), 'latin1');
  const at = whole.indexOf('\n') + 1, many = (line) => line.repeat(12000000 / line.length);
  check(
      'a certificate of 12 MB', picture, whole.slice(0, at) + many('line r 1\n') + whole.slice(at)
  );
  check('12 MB behind a whole tree', picture, whole + many('done\n'));
  check('12 MB of splits', picture, whole.slice(0, at) + many('split 1 1\n'));
  check('12 MB of lemmas', picture, `nonolemma 1\nlemma\n${many('line r 1\n')}`);
  check('12 MB of branches', picture, `nonolemma 1\n${many('part 1 1 a\n')}`);
  check(
      '12 MB with lemmas',
      picture,
      `nonolemma 1\n${
          many('line r 1\n')}part 1 1 a\nline r 1\ndead c 2\nline r 1\nline c 1\nline r 2\ndone\n`
  );
}

function byChance(number) {
  const made = chance.picture();
  const options = {format: 'ppm'};
  if (chance.below(3) === 0) options.history = 1 + chance.below(5);
  if (chance.below(4) === 0)
    options.background = chance.oneOf(['0,255,0', '255,255,255', '1,2,3', '40,225,1']);
  const lines = Array.from({length: 1 + chance.below(25)}, () => chance.line(made)).join('\n') +
      chance.oneOf(['', '\n']);
  session(`case ${number}`, made.text, lines, options);
  if (number % 4 === 0)
    session(`case ${number}, marred`, chance.marred(made.text), 'report\n', options);
  if (number % 4 === 1) {
    const out =
        session(`case ${number}, certified`, made.text, 'allow 2000\ncertify\n', {format: 'ppm'});
    const certificate = out.slice(out.indexOf('\n') + 1);
    check(`case ${number}, check`, made.text, certificate, options.background);
    check(
        `case ${number}, check of a marred one`, made.text, chance.marred(certificate), undefined
    );
    const proved = prove(`case ${number}, proved`, made.text, undefined);
    check(`case ${number}, check of what is proved`, made.text, proved, options.background);
    check(`case ${number}, check of a marred one`, made.text, chance.marred(proved), undefined);
    const givens = (certificate.match(/^given .*\n/gm) ?? []).join('');
    check(
        `case ${number}, with what is published`,
        made.text,
        certificate,
        undefined,
        chance.below(2) ? givens : chance.marred(givens)
    );
  }
  if (number % 4 === 2) {
    const puzzle =
        session(`case ${number}, as a puzzle`, made.text, 'write non\n', {format: 'ppm'});
    const goal = chance.below(2) ? puzzle : puzzle.replace(/^goal.*\n?/m, '');
    session(`case ${number}, puzzle`, goal, lines, {format: 'non'});
    session(`case ${number}, marred puzzle`, chance.marred(goal), 'report\n', {format: 'non'});
  }
  if (number % 4 === 3)
    ask(`case ${number}, clues`, {
      call: 'clues',
      file: chance.below(2) ? made.text : chance.marred(made.text),
      options: {format: 'ppm'}
    });
}

try {
  const standing =
      `${sessions()} sessions that stand, ${rows()} worked rows, 6 certificates of 12 MB`;
  longest();
  for (let number = 0; number < Number(cases); number += 1) byChance(number);
  console.log(`${standing}, ${cases} cases by chance from seed ${seed}; ${
      counts.answers} answers, ${counts.bytes} bytes: ${counts.differences} differences`);
} finally {
  program.end();
}
process.exit(counts.differences === 0 ? 0 : 1);
