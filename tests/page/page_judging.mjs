// Tests of the verdict that the dialog for pictures tells while one slides: over the real module
// where there is one (page/test/worker.mjs). Run: node --test tests/page/page_judging.mjs
import assert from 'node:assert/strict';
import {test} from 'node:test';
import {needsModule, workers} from '../../page/test/worker.mjs';
import {emptyDoc} from '../../page/document/document.js';
import {Client, EngineFault} from '../../page/engine/client.js';
import {Judging, judgedText} from '../../page/import/judging.js';
import {waits} from '../waits.mjs';

const needsAssess = {
  skip: needsModule.skip || waits('0.8.0')
};

const docOf = (picture, more = {}) =>
    ({...emptyDoc(picture[0].length, picture.length), picture, ...more});
const UNIQUE = docOf(['aaa', '.a.', 'aaa']);
const PAIR = docOf(['a.', '.a']);
const GUESS = docOf(
    ['a.', '.b'], {colours: [[255, 255, 255], [0, 0, 0], [200, 0, 0]]}
);  // the rows and columns tell where each colour is

// What is said of documents that are asked for one behind the other; with `isBusy`, each once one
// before it is worked on.
async function heardOf(docs, {seconds = 300, isBusy = false} = {}) {
  const heard = [];
  const made = [];
  const start = () => new Client(workers({made})());
  let asked = 0;
  let done = null;
  const end = new Promise((go) => {
    done = go;
  });
  const judging = new Judging((found) => {
    heard.push(found);
    if (asked === docs.length && found.word !== 'works') done();
  }, {start, seconds, rest: 5});
  for (const doc of docs) {
    asked++;
    judging.ask(doc);
    while (isBusy && made.length === 0) await new Promise((go) => setImmediate(go));
  }
  await end;
  await new Promise((go) => setTimeout(go, 50));
  judging.end();
  return heard;
}

test('unique with its grade, and not unique', needsAssess, async () => {
  const unique = (await heardOf([UNIQUE])).at(-1);
  assert.deepEqual([unique.word, unique.open, unique.grade.word], ['unique', 0, 'easy']);
  assert.deepEqual((await heardOf([PAIR])).at(-1), {word: 'ambiguous', open: 4, grade: null});
  assert.equal((await heardOf([GUESS])).at(-1).word, 'unique');
});

test('the newest wins, and what it replaces is never told', needsAssess, async () => {
  const quick = await heardOf([PAIR, PAIR, UNIQUE]);
  assert.deepEqual(quick.map(({word}) => word), ['works', 'works', 'works', 'unique']);
  // the second comes while the first is worked on
  const slow = await heardOf([PAIR, UNIQUE], {isBusy: true});
  assert.deepEqual(slow.map(({word}) => word), ['works', 'works', 'unique']);
});

test('a search that does not end is given up', needsAssess, async () => {
  let seed = 5;
  const chance = (below) => (seed = (seed * 48271) % 2147483647) % below;
  const noise =
      docOf(Array.from({length: 40}, () => Array.from({length: 40}, () => '.a'[chance(2)]).join(''))
      );
  const [first] = (await heardOf([noise], {seconds: 0.001})).slice(-1);
  assert.ok(['undecided', 'ambiguous'].includes(first.word), first.word);
});

test('what was asked for is not told once another document comes', needsAssess, async () => {
  const heard = [];
  const judging = new Judging(
      (found) => heard.push(found.word), {start: () => new Client(workers({made: []})()), rest: 1}
  );
  judging.ask(UNIQUE);
  judging.wait();
  await new Promise((go) => setTimeout(go, 300));
  judging.end();
  assert.deepEqual(heard, ['works', 'works']);
});

// An engine that fails at once, or never answers until it is ended.
const failing = (isAtOnce) => () => {
  let fail;
  const answer = new Promise((_, reject) => {
    fail = () => reject(new EngineFault({kind: 'ended', text: 'the worker failed'}));
  });
  return {
    call: () => {
      if (isAtOnce) fail();
      return answer;
    },
    end: () => fail()
  };
};

test('an engine that fails is told apart from one that takes too long', async () => {
  for (const [isAtOnce, word] of [[true, 'failed'], [false, 'undecided']]) {
    const found = await new Promise((go) => {
      const judging = new Judging(
          (one) => one.word !== 'works' && go(one),
          {start: failing(isAtOnce), seconds: isAtOnce ? 300 : 0.01, rest: 1}
      );
      judging.ask(UNIQUE);
    });
    assert.equal(found.word, word);
  }
});

test('what is told, in words', () => {
  assert.equal(judgedText({word: 'unique', open: 0, grade: {word: 'easy'}}), 'Unique, easy');
  assert.equal(
      judgedText({word: 'unique', open: 1200, grade: {word: 'expert'}}),
      'Unique, 1,200 cells need more than line logic, expert'
  );
  assert.equal(judgedText({word: 'ambiguous', open: 4}), 'Ambiguous, 4 cells are open');
  assert.equal(judgedText({word: 'undecided'}), 'Not decided within a few seconds');
  assert.equal(judgedText({word: 'works'}), 'Looking for another solution …');
});
