// Tests of the page's searches in the second worker, and of what a solver's marks cross off. The
// pictures are worked by hand. Run: node --test tests/page/page_searches.mjs
import assert from 'node:assert/strict';
import {test} from 'node:test';
import '../../page/test/limits.mjs';
import {cellsThatDiffer} from '../../page/document/shapes.js';
import {Searches} from '../../page/engine/searches.js';
import {crossedOff, isMet, marksOf} from '../../page/play/crossing.js';
import {keepMarks, keptMarks} from '../../page/play/kept.js';

const COLOURS = [[255, 255, 255], [0, 0, 0], [255, 0, 0], [0, 0, 255]];
const stateOf = (picture, givens = []) => ({
  rows: picture.length,
  columns: picture[0].length,
  maxval: 255,
  colours: COLOURS,
  picture,
  givens: new Set(givens),
  verdict: {kind: 'verdict', word: 'undecided', splits: 100},
});

// An engine that answers from a list; a text that is missing is never answered.
function engineOf(texts, log) {
  return {
    open() {
      log.push('open');
      return Promise.resolve();
    },
    say(lines) {
      log.push(lines.join('; '));
      const text = texts.shift();
      return text === undefined ? new Promise(() => {}) : Promise.resolve(text);
    },
    call(name, fields, report) {
      log.push(`${name} ${JSON.stringify(fields)}`);
      const value = texts.shift();
      for (const one of value?.tells ?? []) report(one);
      return value === undefined ? new Promise(() => {}) : Promise.resolve(value.ok);
    },
    end: () => log.push('end'),
  };
}
function searchesOf(texts, seconds = 60) {
  const log = [];
  const seen = {progress: [], judged: [], ended: [], failed: []};
  const searches = new Searches({
    start: () => {
      log.push('start');
      return engineOf(texts, log);
    },
    progress: (what) => seen.progress.push(what),
    judged: (verdict) => seen.judged.push(verdict),
    ended: (name, why) => seen.ended.push(why),
    failed: (name, fault) => seen.failed.push(fault.message),
    seconds: () => seconds,
  });
  searches.state = stateOf(['ab', 'ca']);
  return {searches, log, seen};
}
// The picture of these searches as it is written.
const PPM = 'P3\n2 2\n255\n0 0 0\n255 0 0\n0 0 255\n0 0 0\n';
const pause = (ms) => new Promise((go) => setTimeout(go, ms));
const until = async (holds) => {
  while (!holds()) await pause(5);
};

test('a verdict has no allowance: the time alone ends it', async () => {
  const {searches, log, seen} = searchesOf(['ok\nambiguous\nba\nac\n']);
  await searches.judge();
  assert.deepEqual(log, ['start', 'open', 'allow off; verdict']);
  assert.deepEqual(seen.judged, [{kind: 'verdict', word: 'ambiguous', other: ['ba', 'ac']}]);
  assert.equal(seen.progress.at(-1), null);
  assert.deepEqual(seen.ended, []);
});

test(
    'the worker that was through with one search serves the next on the same picture',
    async () => {
      const certificate = 'nonocert 1\nline r 1\ndone\n';
      const {searches, log} =
          searchesOf(['ok\nunique\n', PPM, {ok: {ruling: 'unique', certificate}}]);
      await searches.judge();
      assert.equal(await searches.prove(), certificate);
      assert.equal(log.filter((line) => line === 'open').length, 1);
    }
);

test('Stop, a stroke and the end of the time end the worker at once', async () => {
  const ends = [
    [(searches) => searches.stop(), 'stopped'],
    [(searches) => searches.strokeBegun(), 'stroke'],
    [() => {}, 'time']
  ];
  for (const [how, why] of ends) {
    const {searches, log, seen} = searchesOf([], why === 'time' ? 0.05 : 60);
    const found = searches.prove();
    await pause(20);
    how(searches);
    assert.equal(await found, null);
    assert.deepEqual(
        [log.at(-1), seen.ended, seen.progress.at(-1), searches.running], ['end', [why], null, null]
    );
  }
});

test(
    'a certificate is made of the picture as it is written, with its givens, and tells the verdict',
    async () => {
      const certificate = 'nonolemma 2\ndone\n', pinned = 'ok\nok\n';
      const {searches, log, seen} =
          searchesOf([pinned, PPM, {ok: {ruling: 'unique', certificate}}]);
      searches.state = stateOf(['ab', 'ca'], [1, 2]);
      assert.equal(await searches.prove(), certificate);
      assert.deepEqual(log, [
        'start',
        'open',
        'pin 1 2; pin 2 1',
        'write ppm',
        `prove ${JSON.stringify({
          picture: PPM,
          background: '255,255,255',
          published: [[1, 2], [2, 1]],
          complete: true
        })}`
      ]);
      assert.deepEqual(seen.judged.map((verdict) => verdict.word), ['unique']);
      const other = searchesOf(
          [PPM, {ok: {ruling: 'ambiguous', certificate: null}}, 'ok\nambiguous\nba\nac\n']
      );
      assert.equal(await other.searches.prove(), null);
      assert.deepEqual(other.seen.judged.map((verdict) => verdict.word), ['ambiguous']);
    }
);

test('an undecided verdict is searched for once no stroke comes', async () => {
  const {searches, log, seen} = searchesOf(['ok\nunique\n']);
  searches.shown(stateOf(['ab', 'ca']));
  searches.shown(stateOf(['ab', 'ca']));
  await until(() => seen.judged.length > 0);
  assert.equal(log.filter((line) => line === 'open').length, 1);
  assert.deepEqual(seen.judged.map((verdict) => verdict.word), ['unique']);
  searches.shown({...stateOf(['ab', 'ca']), verdict: {word: 'unique'}});
  await pause(250);
  assert.equal(log.filter((line) => line === 'open').length, 1);
});

test('lack of memory is told', async () => {
  const {searches, seen} = searchesOf(['ok\nrefused: Memory\n']);
  assert.equal(await searches.judge(), null);
  assert.deepEqual(seen.failed, ['memory ran out']);
});

test('a long call tells what it finds, and the copy is opened anew after it', async () => {
  const {searches, log} = searchesOf([{tells: [{found: 1}, {found: 2}], ok: 3}, 'ok\nunique\n']);
  const heard = [];
  assert.equal(
      await searches.job(
          'Repair',
          60,
          (copy) => copy.work('repair', {goal: 'unique'}, (one) => heard.push(one.found))
      ),
      3
  );
  assert.deepEqual(heard, [1, 2]);
  await searches.judge();
  assert.equal(log.filter((line) => line === 'open').length, 2);
});

test('a job without a name is not told, neither its end nor its failure', async () => {
  const {searches, seen} = searchesOf(['refused: Memory\n']);
  const name = '';
  assert.equal(await searches.job(name, 60, (copy) => copy.say('path')), null);
  assert.deepEqual([seen.progress, seen.ended, seen.failed], [[], [], []]);
  const stopped = searchesOf([]);
  const job = stopped.searches.job(name, 60, (copy) => copy.say('path'));
  await pause(20);
  stopped.searches.strokeBegun();
  assert.equal(await job, null);
  assert.deepEqual([stopped.seen.progress, stopped.seen.ended], [[], []]);
});

// What the engine says of the picture of these tests, whose letters are a, b and c by first
// appearance.
const SAID = {
  verdict: 'unique',
  other: null,
  open: 0,
  grade: {word: 'easy'},
  flaws: ['given 1 2', 'alike a b'],
  fit: false
};
const ASKED =
    'assess {"puzzle":"P3\\n2 2\\n255\\n0 0 0\\n255 0 0\\n0 0 255\\n0 0 0\\n","options":{"background":"255,255,255","published":[],"allowance":"off","format":"ppm"}}';

test(
    'what is said of a picture without a guess and without givens is a moment of the worker',
    async () => {
      const {searches, log} = searchesOf([{ok: SAID}]);
      searches.state = {...stateOf(['ab', 'ca']), open: 0};
      const {flaws, grade} = await searches.assess(60);
      assert.deepEqual(
          [grade.word, flaws],
          ['easy', [{kind: 'given', place: [1, 2]}, {kind: 'alike', letters: ['a', 'b']}]]
      );
      assert.deepEqual(log, ['start', ASKED], 'nothing is opened for it');
    }
);

test('else it is a job; colours are those of the document, wherever they appear', async () => {
  const {searches, log} = searchesOf([
    'ok\nok\nok\n',
    {ok: {...SAID, verdict: 'ambiguous', other: ['ba', 'b.'], flaws: ['alike . a', 'alike a b']}}
  ]);
  searches
      .state = {...stateOf(['cb', 'b.'], [3]), open: 2, colours: [[9, 9, 9], ...COLOURS.slice(1)]};
  const {flaws, other} = await searches.assess(60);
  assert.deepEqual(
      flaws, [{kind: 'alike', letters: ['.', 'c']}, {kind: 'alike', letters: ['b', 'c']}]
  );
  assert.deepEqual(other, ['bc', 'b.']);
  assert.equal(log.includes('open'), true);
  assert.ok(
      log.at(-1).endsWith(
          '"options":{"background":"9,9,9","published":[[2,2]],"allowance":"off","format":"ppm"}}'
      ),
      log.at(-1)
  );
});

test('what is said without a guess goes on below a stroke', async () => {
  const {searches, log} = searchesOf([]);
  searches.state = {...stateOf(['ab', 'ca']), open: 0};
  searches.assess(60);
  searches.strokeBegun();
  assert.equal(log.includes('end'), false);
});

test('what differs', () => {
  assert.deepEqual(cellsThatDiffer(['ab', '..'], ['ab', '.a']), [3]);
});

const clue = (text) =>
    text.split(' ').map((word) => ({length: Number(word.slice(0, -1)), letter: word.at(-1)}));

test('blocks crossed off', () => {
  const crossed = (text, cells) => crossedOff(clue(text), [...cells]).map(Number).join('');
  assert.equal(crossed('2a 1b', 'aa????'), '10');
  assert.equal(crossed('2a 1b', '.aa???'), '10');
  assert.equal(crossed('2a 1b', '?aa???'), '00', 'the first cell may belong to it');
  assert.equal(crossed('2a 1b', 'a?????'), '00');
  assert.equal(crossed('2a 1b', 'aaa???'), '00', 'too long');
  assert.equal(crossed('2a 1b', '????b.'), '01');
  assert.equal(crossed('2a 1b', 'aa?b??'), '11', 'met');
  assert.equal(crossed('1a 1a 1a', 'a?a??a'), '111');
  assert.equal(crossed('1a 1a 1a', 'a????a'), '101');
  assert.equal(crossed('1a 1a 1a', '?a???.'), '000');
  assert.deepEqual(crossedOff([], ['?', '.']), []);
  assert.deepEqual(crossedOff([], ['.', '.']), [true], 'its 0');
  assert.deepEqual(crossedOff([], ['.', 'a']), []);
});

test('clues met', () => {
  assert.ok(isMet(clue('2a 1b'), [...'aab']));
  assert.ok(isMet(clue('2a 1b'), [...'?aa.b?']));
  assert.ok(!isMet(clue('2a'), [...'a?a']));
  assert.ok(!isMet(clue('2a'), [...'aa.a']));
  assert.ok(isMet([], [...'.?']));
});

test('a puzzle begins with its givens', () => {
  assert.deepEqual(marksOf(stateOf(['a.', '.b'], [1, 3])).map((row) => row.join('')), ['?.', '?b']);
});

test(
    'the browser keeps the marks of the puzzles played last, by their clues, until they are solved',
    () => {
      const kept = new Map();
      globalThis.localStorage = {
        getItem: (name) => kept.get(name) ?? null,
        setItem: (name, value) => kept.set(name, value)
      };
      const puzzle = (length, givens = []) => ({
        rows: 1,
        columns: 3,
        colours: [[], []],
        clues: {rows: [[{length, letter: 'a'}]], columns: [[], [], []]},
        givens: new Set(givens),
        picture: ['a..']
      });
      const text = (state) => keptMarks(state)?.flat().join('') ?? null;
      assert.equal(text(puzzle(1)), null);
      keepMarks(puzzle(1), [['?', 'a', '.']], false);
      keepMarks(puzzle(2), [['.', '?', '?']], false);
      assert.deepEqual([text(puzzle(1)), text(puzzle(2)), text(puzzle(3))], ['?a.', '.??', null]);
      assert.equal(text(puzzle(1, [0])), 'aa.', 'what is given stands');
      keepMarks(puzzle(2), [['a', 'a', '?']], true);
      keepMarks(puzzle(1), [['?', '?', '?']], false);
      assert.deepEqual(
          [text(puzzle(1)), text(puzzle(2))],
          [null, null],
          'neither what is solved nor what has no mark'
      );
      for (let length = 1; length <= 40; length++)
        keepMarks(puzzle(length), [['.', '?', '?']], false);
      assert.deepEqual(
          [text(puzzle(40)), text(puzzle(25)), text(puzzle(24))],
          ['.??', '.??', null],
          'and 16 at most'
      );
      for (const other
               of ['',
                   'x',
                   '7',
                   'null',
                   '[null]',
                   '[[1, 2]]',
                   kept.get('nonobench-marks').replaceAll('.??', '.b?'),
                   kept.get('nonobench-marks').replaceAll('.??', '.?')]) {
        kept.set('nonobench-marks', other);
        assert.equal(text(puzzle(40)), null, other);
      }
      keepMarks(puzzle(1), [['?', 'a', '.']], false);
      assert.equal(text(puzzle(1)), '?a.');
      globalThis.localStorage = {
        getItem() {
          throw new Error('refused');
        },
        setItem() {
          throw new Error('refused');
        }
      };
      keepMarks(puzzle(1), [['?', 'a', '.']], false);
      assert.equal(text(puzzle(1)), null);
      delete globalThis.localStorage;
    }
);
