// Trials of the safe brush: dots where painting would cost the one solution, and strokes that paint
// only what does not.
import assert from 'node:assert/strict';
import {fresh, said} from './page_common.mjs';
import {ppmOf} from './page_trial.mjs';

// One cell in its corner: with that across from it there are two solutions, and with one beside it
// there is one. With three cells there is one, too.
const CORNER = ['a.', '..'];
const CTRL = 2;

const warned = (page) => page.run(() => [...sheet.warned]);
const isWarned = (page, marks) =>
    page.until((wanted) => JSON.stringify([...sheet.warned]) === wanted, JSON.stringify(marks));
const isPicture = (page, rows) =>
    page.until((wanted) => bench.state.picture.join() === wanted && !bench.running, rows.join());

/** The dot, a stroke that leaves its cell out, and one that may paint it. */
export async function safePoint(user, {page, trial}) {
  await trial.open(ppmOf(CORNER), 'corner');
  await trial.judged();
  await user.menu('view', 'safe-dots');
  await isWarned(page, [[3, 'breaks']]);
  await user.menu('edit', 'safe-only');
  await user.stroke([2, 2], [1, 2]);
  await isPicture(page, ['aa', '..']);
  assert.match(await said(page), /^1 cell was not painted/);
  await isWarned(page, []);
  await user.stroke([2, 2]);
  await isPicture(page, ['aa', '.a']);
  await user.undo();
  await user.undo();
  await isPicture(page, CORNER);
  await isWarned(page, [[3, 'breaks']]);
  await user.menu('edit', 'safe-only');
  await user.stroke([2, 2]);
  await isPicture(page, ['a.', '.a']);
  assert.equal(await trial.judged(), 'ambiguous');
  await isWarned(page, []);
}

/** A key that is held does the same for one stroke; without one solution nothing is painted. */
export async function safeKey({browser, url, folder}) {
  const {page, trial} = await fresh(browser, url, folder, 'safe-key');
  await trial.open(ppmOf(CORNER), 'corner');
  await trial.judged();
  const [across, beside] = [await trial.cell(2, 2), await trial.cell(1, 2)];
  await page.drag([across, beside], {keys: CTRL});
  await isPicture(page, ['aa', '..']);
  assert.deepEqual(await warned(page), [], 'dots are shown on wish');
  await page.press('Control+z');
  await isPicture(page, CORNER);
  await page.drag([across]);
  await isPicture(page, ['a.', '.a']);
  await trial.judged();
  await page.drag([beside], {keys: CTRL});
  await page.until(() => /^Nothing was painted/.test(document.getElementById('said').textContent));
  await isPicture(page, ['a.', '.a']);
  await page.close();
}

/** A stroke does not wait for the dots, and those of the picture before it go. */
export async function safeWaits({browser, url, folder}) {
  const {page, trial} = await fresh(browser, url, folder, 'safe-waits');
  const rows = Array.from({length: 30}, () => '.'.repeat(30));
  rows[4] = rows[4].replace(/^..../, '....a').slice(0, 30);
  await trial.open(ppmOf(rows), 'dot');
  await trial.judged();
  await page.press('d');
  await trial.drag([[5, 6]]);
  assert.equal((await trial.picture())[4].slice(3, 7), '.aa.');
  // Two cells in row 5 and one in row 6, column 7, may also be columns 6 and 7, and column 5.
  await page.until(() => sheet.warned.get(156) === 'breaks');
  assert.equal(await page.run(() => sheet.warned.has(5 * 30 + 5)), false, 'below the second cell');
  await page.close();
}
