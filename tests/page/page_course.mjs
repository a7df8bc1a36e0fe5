// Trials of the solving path in the panel: the film strip, the difficulty curve, and what is known
// later.
import assert from 'node:assert/strict';
import {pause} from './page_browser.mjs';
import {isOpen} from './page_common.mjs';
import {ppmOf} from './page_trial.mjs';

// Each row says all of itself, so the path has a step for each.
const STRIPES = ['aaaaa', '.....', 'aaaaa', '.....'];

const reads = (page, id, wanted) =>
    page.until((one, text) => document.getElementById(one).textContent === text, id, wanted);

// Moves a slider one step on.
async function stepOn(user, selector) {
  await user.tabTo(selector);
  await user.page.press('ArrowRight');
}

/**
 * The film strip shows the picture after shares of the path, the slider after any step; half of
 * what is selected is known at a share; a stroke brings the path of the new picture.
 */
export async function filmPoint(user) {
  const {page, trial} = user;
  await trial.open(ppmOf(STRIPES), 'stripes');
  await isOpen(page);
  assert.equal(await trial.judged(), 'unique');
  await user.menu('check', 'course');
  await reads(page, 'film-said', 'After 4 of 4 steps (100%): 20 of 20 cells known.');
  await user.press('#film [data-share="50"]');
  await reads(page, 'film-said', 'After 2 of 4 steps (50%): 10 of 20 cells known.');
  await stepOn(user, '#film-at');
  await reads(page, 'film-said', 'After 3 of 4 steps (75%): 15 of 20 cells known.');
  await user.tool('select');
  await user.stroke([1, 1], [2, 5]);
  await reads(page, 'film-half', 'Half of the selection is known at 25%.');
  await user.stroke([4, 2], [4, 4]);
  await reads(page, 'film-half', 'Half of the selection is known at 100%.');
  await user.tool('pencil');
  await user.stroke([2, 1]);
  // Rows 1, 3 and 4, and then a cell of row 2 by each column.
  await reads(page, 'film-said', 'After 6 of 8 steps (75%): 18 of 20 cells known.');
}

// Lines alone do not solve it; wherever one guesses, one cell in that row or column mends it.
const GUESSED = ['aaaa..', '..a.a.', '.a..a.', '..aaaa', '...a.a', '.a....'];
const cliffs = (page, wanted) => page.until(
    (why) => [...document.querySelectorAll('#cliffs button')].some(({title}) => title === why),
    wanted
);

/**
 * The curve has its cliffs; one shows its step, in words and in the picture, and what softens it is
 * looked for in the lines of that step alone.
 */
export async function curvePoint(user) {
  const {page, trial} = user;
  await trial.open(ppmOf(STRIPES), 'stripes');
  await isOpen(page);
  await user.menu('check', 'course');
  await cliffs(page, 'the hardest step');
  await user.press('#cliffs button');
  await reads(
      page,
      'cliff-said',
      'Step 1, the hardest step. Row 1: columns 1–5 are black, as its blocks fill the line.'
  );
  assert.deepEqual(await page.run(() => sheet.framed), [0, 1, 2, 3, 4]);
  assert.ok(await page.run(() => document.getElementById('cliff-ease').disabled), 'easy already');

  await trial.open(ppmOf(GUESSED), 'guessed');
  assert.equal(await trial.judged(), 'unique');
  assert.deepEqual(await page.run(() => sheet.framed), [], 'another picture');
  await cliffs(page, 'a guess');
  await page.run(() => {
    for (const one of document.querySelectorAll('#cliffs button'))
      one.toggleAttribute('data-guess', one.title === 'a guess');
  });
  await user.press('#cliffs [data-guess]');
  const [place] = await page.run(() => sheet.framed);
  await user.press('#cliff-ease');
  await page.until(() => document.querySelector('#fix-list button') && !searches.running);
  await user.press('#fix-list button');
  await page.until((rows) => bench.state.picture.join() !== rows, GUESSED.join());
  const after = (await trial.picture()).join('');
  const changed = [...after].flatMap((letter, at) => (letter === GUESSED.join('')[at] ? [] : [at]));
  const isInLines = (at) => Math.floor(at / 6) === Math.floor(place / 6) || at % 6 === place % 6;
  assert.ok(changed.every(isInLines), `${changed} for a guess at ${place}`);
  assert.equal(await trial.judged(), 'unique');
  assert.equal((await trial.state()).open, 0);
}

const shareIn = (text) => Number(/known at (\d+)%/.exec(text)?.[1]);
const isListed = (page) => page.until(
    () => /found\./.test(document.getElementById('fix-said')?.textContent) && !searches.running
);

/**
 * Later wants a part to be selected; then it lists repaints by which half of it is known later, as
 * the film strip says it; lines still solve the picture, and one undo takes one back.
 */
export async function laterPoint(user) {
  const {page, trial} = user;
  await trial.example('crab');
  assert.equal(await trial.judged(), 'unique');
  const before = await trial.picture();
  await user.menu('check', 'later');
  await reads(page, 'said', 'First select the part that is to be known later, such as a face (s).');
  assert.equal(await page.run(() => tools.name), 'select');
  await user.stroke([3, 4], [4, 6]);
  await user.menu('check', 'later');
  await isListed(page);
  const now = shareIn(await trial.text('#fix-said'));
  const cards = await page.run(
      () => [...document.querySelectorAll('#fix-list button')].map((button) => button.ariaLabel)
  );
  assert.ok(cards.length > 0 && cards.every((text) => shareIn(text) >= now + 2), cards.join('\n'));
  await pause(300);  // a press before that may be meant for what was listed before
  await user.press('#fix-list button');
  await page.until((rows) => bench.state.picture.join() !== rows, before.join());
  assert.equal(await trial.judged(), 'unique');
  assert.equal((await trial.state()).open, 0);
  await user.press('#fix-close');
  await user.menu('check', 'course');
  await reads(page, 'film-half', `Half of the selection is known at ${shareIn(cards[0])}%.`);
  await user.undo();
  assert.deepEqual(await trial.picture(), before, 'one undo takes it back');
  await reads(page, 'film-half', `Half of the selection is known at ${now}%.`);
}
