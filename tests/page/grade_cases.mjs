// Tests of grades: the cases that Python passes too, as the module tells them. Run: node --test
// tests/page/grade_cases.mjs
import assert from 'node:assert/strict';
import {readFileSync} from 'node:fs';
import {test} from 'node:test';
import {engine, needsModule} from '../../page/test/worker.mjs';
import {waits} from '../waits.mjs';

const FORM = /^(\S+)(?: given ([\d, ]+?))?(?: cert (.*))?$/;
const COLOURS = {
  '.': '255 255 255',
  a: '0 0 0',
  b: '255 0 0',
  c: '0 0 255'
};

// The grade in one line, as the cases have it.
function gradeText({open, grade: {word, rounds, evaluations, wait, splits, depth}}) {
  const lines = `${word.replace('-', ' ')}: rounds ${rounds}, evaluations ${
      evaluations}, longest wait ${wait}`;
  return open > 0 ? `${lines}, open ${open}, splits ${splits}, depth ${depth}` : lines;
}

// What a grade has from line logic alone.
const figuresOf = (grade) => grade.replace(/^[a-z ]+: /, '').replace(/, splits .*$/, '');

// What is said of a case's puzzle: its grade, or the verdict where it has none.
function gradeOfCase(module, words) {
  const [, rows, givens = '', certificate] = FORM.exec(words);
  const picture = rows.split('/');
  const text = `P3 ${picture[0].length} ${picture.length} 255\n${
          [...picture.join('')].map((letter) => COLOURS[letter]).join('\n')}\n`;
  const places = givens.split(' ').filter(Boolean).map((word) => word.split(',').map(Number));
  const said =
      module.assess(text, {published: places, certificate: certificate?.replaceAll('\\n', '\n')});
  return said.grade ? gradeText(said) : `no grade: ${said.verdict}`;
}

const lines = readFileSync(
                  new URL('../cases/grade.case', import.meta.url), 'utf8'
).split('\n').filter((line) => line && !line.startsWith('#'));
const skip = needsModule.skip || waits('0.8.0');
test('grades are those of the cases', {skip}, async () => {
  const module = await engine();
  for (const line of lines) {
    const [words, wanted] = line.split(' => '), said = gradeOfCase(module, words);
    const [bare, cert] = words.split(' cert ');
    if (cert) {
      // The engine makes a tree of its own, whichever certificate comes with the puzzle.
      assert.equal(said, gradeOfCase(module, bare), line.slice(0, 60));
      assert.equal(figuresOf(said), figuresOf(wanted), line.slice(0, 60));
    } else {
      assert.equal(said, wanted, line.slice(0, 60));
    }
  }
  assert.ok(lines.length > 20);
});
