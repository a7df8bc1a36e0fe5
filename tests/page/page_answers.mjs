// Tests of the page's reader of answers. The texts are those of docs/SESSION.md and of small
// pictures worked by hand. Run: node --test tests/page/page_answers.mjs
import assert from 'node:assert/strict';
import {test} from 'node:test';
import '../../page/test/limits.mjs';
import {TextFault, answersTo} from '../../page/engine/answers.js';

const REPORT = `size 2 2
colours 2 maxval 255
. 255 255 255
a 0 0 0
picture
aa
a.
clues
r 1: 2a
r 2: 1a
c 1: 2a
c 2: 1a
map
aa
a.
open 0
verdict unique
history 0 1
`;
const GIVEN = REPORT.replace('clues\n', 'given 1 2\ngiven 2 1\nclues\n');
const size = {
  rows: 2,
  columns: 2
};
const one = (line, text, known = size) => answersTo([line], text, known)[0];
const fails = (lines, text, known = size) =>
    assert.throws(() => answersTo([].concat(lines), text, known), TextFault);

test('a report', () => {
  const report = one('report', REPORT, null);
  assert.deepEqual(
      [report.rows, report.columns, report.maxval, report.open, report.word],
      [2, 2, 255, 0, 'unique']
  );
  assert.deepEqual(report.colours, [[255, 255, 255], [0, 0, 0]]);
  assert.deepEqual(report.picture, ['aa', 'a.']);
  assert.deepEqual(report.clues.rows, [[{length: 2, letter: 'a'}], [{length: 1, letter: 'a'}]]);
  assert.deepEqual([report.past, report.future], [0, 1]);
  assert.equal(report.text, REPORT);
  assert.deepEqual(one('report', GIVEN).givens, [[1, 2], [2, 1]]);
  assert.equal(
      one('report', REPORT.replace('verdict unique', 'verdict undecided')).word, 'undecided'
  );
});

test('a report with a line less, more or another is no report', () => {
  const lines = REPORT.trimEnd().split('\n');
  for (let at = 0; at < lines.length; at++) {
    fails('report', lines.filter((_, other) => other !== at).join('\n') + '\n');
    fails('report', [...lines.slice(0, at), 'zz', ...lines.slice(at)].join('\n') + '\n');
    fails(
        'report', [...lines.slice(0, at), 'verdict maybe', ...lines.slice(at + 1)].join('\n') + '\n'
    );
  }
  fails('report', REPORT.slice(0, -1));
  fails('report', REPORT + 'ok\n');
  fails('report', '');
});

test('a session of several lines', () => {
  const lines = ['verdict', 'paint 1 1 .', 'map', 'verdict', 'undo', 'report'];
  const text = `unique\nok\n??\n??\nambiguous\na.\n.a\nok\n${REPORT}`;
  const answers = answersTo(lines, text, size);
  assert.deepEqual(
      answers.map((answer) => answer.kind), ['verdict', 'ok', 'map', 'verdict', 'ok', 'report']
  );
  assert.deepEqual(answers[2].map, ['??', '??']);
  assert.deepEqual(answers[3].other, ['a.', '.a']);
});

test('refusals stand in the place of any answer', () => {
  for (const line
           of ['paint 9 9 a',
               'map',
               'report',
               'verdict',
               'why 1 3 a',
               'certify',
               'write non',
               'nonsense',
               'clues']) {
    assert.deepEqual(one(line, 'refused: Place\n'), {kind: 'refused', name: 'Place'});
  }
  fails('paint 9 9 a', 'refused: Place 2\n');
});

test('rows that look like other answers', () => {
  assert.deepEqual(
      answersTo(['map', 'redo'], 'ok\nno\nok\n', size).map((answer) => answer.kind), ['map', 'ok']
  );
});

test('the size moves with lines, and is not known behind an undo', () => {
  const answers = answersTo(
      ['insert row 1', 'map', 'delete column 2', 'map'], 'ok\n..\n??\n??\nok\n.\n.\na\n', size
  );
  assert.deepEqual([answers[1].map, answers[3].map], [['..', '??', '??'], ['.', '.', 'a']]);
  assert.deepEqual(
      answersTo(['insert row 1', 'map'], 'refused: TooLarge\n..\n..\n', size)[1].map, ['..', '..']
  );
  fails(['undo', 'map'], 'ok\n..\n..\n');
  fails(['map'], '..\n..\n', null);
  fails(['map'], '..\n...\n');
});

test('verdicts', () => {
  assert.deepEqual(one('verdict', 'unique\n'), {kind: 'verdict', word: 'unique'});
  assert.deepEqual(
      one('verdict', 'undecided 10000\n'), {kind: 'verdict', word: 'undecided', splits: 10000}
  );
  fails('verdict', 'undecided\n');
  fails('verdict', 'ambiguous\na.\n');
  fails('verdict', 'ambiguous\na?\n??\n');
});

test('reasons', () => {
  assert.equal(one('why 1 1 a', 'possible\n').word, 'possible');
  assert.equal(one('why 1 1 .', 'given\n').word, 'given');
  const reason = one('why 1 2 a', 'by r 1 given 1=a 12=.bo\n');
  assert.deepEqual([reason.axis, reason.at], ['r', 1]);
  assert.deepEqual(reason.premises, [{at: 1, letters: 'a'}, {at: 12, letters: '.bo'}]);
  assert.deepEqual(one('why 1 2 a', 'by c 12\n').premises, []);
  for (const text
           of ['by r 1 given\n',
               'by r\n',
               'by r 1 given 1=\n',
               'by r 1 given 1=z\n',
               'by r 1 1=a\n',
               'perhaps\n'])
    fails('why 1 2 a', text);
});

test('certificates, and what follows one', () => {
  const text = 'nonocert 2\ngiven 1 1\nline r 1\nsplit 2 2\ndead c 1\nline r 2\ndone\n';
  assert.equal(one('certify', text).text, text);
  assert.deepEqual(one('certify', 'ambiguous\n'), {kind: 'ambiguous'});
  const answers = answersTo(
      ['certify', 'paint 1 1 a', 'certify', 'report'], `${text}ok\n${text}${REPORT}`, size
  );
  assert.deepEqual(answers.map((answer) => answer.kind), ['text', 'ok', 'text', 'report']);
  fails('certify', 'nonocert 3\ndone\n');
});

test('texts of files', () => {
  const ppm = 'P3\n2 1\n255\n255 255 255\n0 0 0\n';
  assert.equal(one('write ppm', ppm).text, ppm);
  fails('write ppm', ppm.replace('0 0 0\n', ''));
  const non = 'width 2\nheight 2\nrows\n2\n1\ncolumns\n2\n1\ngoal "1110"\n';
  assert.equal(one('write non', non).text, non);
  assert.deepEqual(one('write non', 'refused: TwoColoursOnly\n').name, 'TwoColoursOnly');
});

test('clues without a known size', () => {
  const answer = one('clues', 'r 1: 2a 1b\nr 2: 0\nc 1: 12o\n', null);
  assert.deepEqual(answer.rows, [[{length: 2, letter: 'a'}, {length: 1, letter: 'b'}], []]);
  assert.deepEqual(answer.columns, [[{length: 12, letter: 'o'}]]);
  fails('clues', 'r 1: 2a\nr 2: 0\nc 1: 2 a\nc 2: 0\n');
  fails('clues', 'r 1: 2a\nc 1: 1a\nc 2: 1a\n');
});

test('blank lines ask for nothing', () => {
  assert.deepEqual(answersTo(['', ' \t', 'undo'], 'ok\n', size), [{kind: 'ok'}]);
});

test('a path: each look by its line, rows first, and what fell by its place in the picture', () => {
  // By hand: row 2 of two settles both, then column 1 its first cell.
  const path =
      one('path',
          'r 2 1 2 1=a 2=. stands\nc 1 1 1 given 2=.ab\nc 2 2 1 1=a stands given 1=ab 2=.\nopen 1\n'
      );
  assert.deepEqual(path, {
    kind: 'path',
    open: 1,
    looks: [
      {
        line: 1,
        round: 1,
        excluded: 2,
        falls: [{index: 2, letter: 'a'}, {index: 3, letter: '.'}],
        stands: true,
        needs: []
      },
      {
        line: 2,
        round: 1,
        excluded: 1,
        falls: [],
        stands: false,
        needs: [{index: 2, letters: '.ab'}]
      },
      {
        line: 3,
        round: 2,
        excluded: 1,
        falls: [{index: 1, letter: 'a'}],
        stands: true,
        needs: [{index: 1, letters: 'ab'}, {index: 3, letters: '.'}]
      },
    ],
  });
  assert.deepEqual(one('path', 'open 0\n'), {kind: 'path', open: 0, looks: []});
  for (const text
           of ['',
               'open\n',
               'r 1 1\nopen 0\n',
               'r 1 1 1 1=\nopen 0\n',
               'open 0\nopen 0\n',
               'r 1 1 1 given\nopen 0\n',
               'r 1 1 1 given 1=a stands\nopen 0\n'])
    fails('path', text);
  fails('path', 'open 0\n', null);
});
