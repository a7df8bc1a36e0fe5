// What tests of the module in node share: the lines of the files in tests/cases, and calls that
// must end with a Fault.
import assert from 'node:assert/strict';
import {readFileSync} from 'node:fs';

const SAMPLES = {
  '.': '255 255 255',
  a: '0 0 0',
  b: '255 0 0'
};
const SIGNS = {
  n: 10,
  r: 13,
  t: 9,
  v: 11,
  f: 12,
  '\\': 92
};

/** The lines of a file with the extension .case: each what is asked, and the answer. */
export function casesOf(kind) {
  const lines = readFileSync(new URL(`cases/${kind}.case`, import.meta.url), 'utf8').split('\n');
  return lines.filter(
                  (line) => line !== '' && !line.startsWith('#')
  ).map((line) => /^([^]*) => (.*)$/.exec(line).slice(1));
}

/** The bytes of a text, whose signs are those of printf. */
export function bytesOf(text) {
  const parts = text.match(/\\x[0-9a-f]{2}|\\.|[^\\]/gu) ?? [];
  return Buffer.concat(parts.map((part) => {
    if (part[0] !== '\\') return Buffer.from(part);
    return Buffer.from([part[1] === 'x' ? parseInt(part.slice(2), 16) : SIGNS[part[1]]]);
  }));
}

/**
 * The P3 text of a picture of white, black (a) and red (b) cells, of its rows with `/` between
 * them.
 */
export function pictureOf(cells) {
  const rows = cells.split('/');
  return `P3\n${rows[0].length} ${rows.length}\n255\n${
          [...rows.join('')].map((cell) => SAMPLES[cell]).join('\n')}\n`;
}

/** The picture and the certificate of a case, which has a blank between them. */
export function pairOf(asked) {
  const at = asked.indexOf(' ');
  return [pictureOf(asked.slice(0, at)), bytesOf(asked.slice(at + 1))];
}

// Whether an answer is no refusal, and the text that goes with it.
const answerOf = (answer) =>
    (answer.startsWith('! ') ? [false, answer.slice(2)] : [true, `${answer}\n`]);

// The cells of a list in a case.
const placesOf = (word) =>
    (word === '-' ? [] : word.split(';').map((place) => place.split(',').map(Number)));

/**
 * Checks that a call which checks a pair answers as published.case says: it gets a picture, a
 * certificate and the options.
 */
export function mustCheckPublished(check) {
  const cases = casesOf('published');
  for (const [asked, answer] of cases) {
    const [cells, published, ...lines] = asked.split(' '), [given, ...rest] = answer.split(' ');
    const [accepted, text] = answerOf(rest.join(' '));
    const said =
        check(pictureOf(cells), bytesOf(lines.join(' ')), published === 'any' ? {anyGiven: true} : {
          published: placesOf(published)
        });
    assert.deepEqual(
        said, {accepted, status: accepted ? 0 : 1, text, givens: placesOf(given)}, asked
    );
  }
  assert.ok(cases.length > 30, `${cases.length}`);
}

/** The same as certificates.case and lemmas.case say of certificates of all forms. */
export function mustCheckForms(check) {
  for (const kind of ['certificates', 'lemmas']) {
    const cases = casesOf(kind);
    for (const [asked, answer] of cases) {
      const {accepted, text} = check(...pairOf(asked));
      assert.deepEqual([accepted, text], answerOf(answer), asked);
    }
    assert.ok(cases.length > 40, `${cases.length}`);
  }
}

/** The kind and the text of what a call throws, which must be such a Fault. */
export function faultBy(Fault, call) {
  try {
    call();
  } catch (fault) {
    assert.ok(fault instanceof Fault, String(fault));
    return [fault.kind, fault.text];
  }
  return assert.fail('nothing was thrown');
}

/**
 * Refuses each growth of an engine's memory in turn while a call runs, which must say so: its
 * answer at last, and how many were refused.
 */
export function refusedInTurn(engine, call) {
  for (let nth = 1;; nth += 1) {
    engine.refuse(nth);
    try {
      return {answer: call(), refused: nth - 1};
    } catch (fault) {
      assert.deepEqual([fault.kind, fault.text], ['memory', 'memory'], `${nth}`);
    } finally {
      engine.refuse(0);
    }
  }
}
