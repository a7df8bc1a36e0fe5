// Trials of books: pictures of the library are chosen, repaired and ordered by grade, with a cover,
// numbers and solutions, in one dialog; many of them with what stops it.
import assert from 'node:assert/strict';
import {readFileSync} from 'node:fs';
import {downloaded, examples, fresh} from './page_common.mjs';
import {SLACK} from './page_trial.mjs';

const NO_PRINT = () => {
  window.print = () => {
    window.isPrinted = true;
  };
};
const MOST_MS = 60000;  // for two hundred puzzles

// Puts examples into the library, as if they had been opened.
async function fill(page, names) {
  for (const name of names)
    await page.run(
        (text, file) => takeFile(new File([text], `${file}.ppm`)),
        readFileSync(new URL(`${name}.ppm`, examples), 'utf8'),
        name
    );
  await page.until(() => keep.keeper.isDone && keep.isKept);
}

// Presses the button of the open dialog whose text begins so.
const pressInDialog = (page, words) => page.run(
    (text) => [...document.querySelectorAll('dialog .buttons button')]
                  .find((one) => one.textContent.startsWith(text))
                  .click(),
    words
);

const judged = (page) => page.until(
    () => document.getElementById('book-stop')?.disabled &&
        / on \d+ sheets?/.test(document.getElementById('book-status').textContent)
);
const ticked = (page) => page.run(
    () => [...document.querySelectorAll('#book-list .page')]
              .filter((one) => one.querySelector('input').checked)
              .map((one) => one.dataset.name)
              .sort()
);
const printed = (page) =>
    page.run(() => [...document.querySelectorAll('.printed')].map((one) => one.textContent));

/** What is fit is in the book, what is ambiguous once it is repaired; a tick leaves one out. */
export async function bookPoint(user, {page}) {
  await page.run(NO_PRINT);
  await fill(page, ['boat', 'balloon', 'heart']);
  await user.menu('file', 'book');
  await judged(page);
  assert.deepEqual(await ticked(page), ['boat', 'heart'], 'the balloon is ambiguous');
  await user.press('#book-repair');
  await page.until(() => document.querySelectorAll('#book-list input:checked').length === 3);
  await judged(page);
  await user.tick('#book-list [data-name="heart"] input');
  await page.until(
      () => /^2 puzzles on 4 sheets/.test(document.getElementById('book-status').textContent)
  );
  await user.press('#book-after');
  await page.until(() => document.getElementById('book-sheet').value === '2 of 4');
  await user.press('dialog button.main');
  await page.until(() => window.isPrinted);
  const [cover, first, second, solutions] = await printed(page);
  assert.match(cover, /^\s*Nonograms\s*2 puzzles, easy/);
  assert.match(first, /Puzzle 1/);
  assert.match(second, /Puzzle 2/);
  assert.doesNotMatch(first + second, /boat|balloon/, 'titles would tell what they are');
  assert.match(solutions, /Solution 1.*Solution 2/s);
  await page.run(() => dispatchEvent(new Event('afterprint')));
}

// So many pictures of 20 by 20 cells with some blots, put into the library.
const fillMany = (page, count) => page.run(async (most) => {
  await keep.ready();
  let state = 9;
  const chance = (below) => (state = (state * 48271) % 2147483647) % below;
  for (let at = 0; at < most; at++) {
    const rows = Array.from({length: 20}, () => Array(20).fill('.'));
    for (let blot = 0; blot < 6; blot++) {
      const [row, col, side] = [chance(14), chance(14), 3 + chance(4)];
      for (let dy = 0; dy < side; dy++) rows[row + dy].fill('.ab'[1 + (blot % 2)], col, col + side);
    }
    const doc = {
      rows: 20,
      columns: 20,
      maxval: 255,
      colours: [[255, 255, 255], [0, 0, 0], [200, 40, 40]],
      picture: rows.map((row) => row.join('')),
      givens: [],
      inks: [],
      locks: [],
      extras: [],
      about: {}
    };
    const record = {
      version: 2,
      id: `many-${at}`,
      name: `many ${at}`,
      when: at,
      isSaved: true,
      doc,
      past: [],
      future: []
    };
    await keep.keeper.put(record);
  }
}, count);

/** Two hundred puzzles are judged and printed in a minute, by rising grade; Stop ends judging. */
export async function manyInBook({browser, url, folder}) {
  const {page} = await fresh(browser, url, folder, 'many-book');
  await page.run(NO_PRINT);
  await fillMany(page, 200);
  const begun = Date.now();
  await page.run(() => {
    runAction('book');
  });
  await page.until(() => document.querySelectorAll('#book-list .page').length === 200);
  await page.run(() => document.getElementById('book-stop').click());
  await judged(page);
  const some = (await ticked(page)).length;
  assert.ok(some < 200, 'it was stopped');
  await page.press('Escape');
  await page.run(() => {
    runAction('book');
  });
  await page.until(() => !document.getElementById('book-stop').disabled);  // it goes on
  await judged(page);
  const puzzles = (await ticked(page)).length;
  assert.ok(puzzles > 100, `${puzzles} of them are fit`);
  await page.run(() => {
    document.getElementById('print-grade').click();
    document.querySelector('dialog button.main').click();
  });
  await page.until(() => window.isPrinted);
  assert.ok(Date.now() - begun < MOST_MS * SLACK, `${Date.now() - begun} ms`);
  const grades =
      (await printed(page))
          .map(
              (text) => ['easy', 'medium', 'hard', 'very hard', 'expert'].indexOf(
                  /Puzzle \d+\s*20 by 20, (easy|medium|hard|very hard|expert)/.exec(text)?.[1]
              )
          )
          .filter((at) => at >= 0);
  assert.equal(grades.length, puzzles);
  assert.deepEqual(grades, [...grades].sort(), 'the easiest first');
  await page.close();
}

/** A table of several files becomes a book, too, and the book is saved as files. */
export async function bookOfFiles({browser, url, folder}) {
  const {page, own} = await fresh(browser, url, folder, 'book-files');
  await page.run(
      (texts) => {
        const dataTransfer = new DataTransfer();
        for (const [name, text] of texts) dataTransfer.items.add(new File([text], name));
        document.body.dispatchEvent(
            new DragEvent('drop', {dataTransfer, bubbles: true, cancelable: true})
        );
      },
      ['boat', 'heart'].map(
          (name) => [`${name}.ppm`, readFileSync(new URL(`${name}.ppm`, examples), 'utf8')]
      )
  );
  await page.until(() => document.getElementById('several'));
  await pressInDialog(page, 'Make a book');
  await judged(page);
  assert.deepEqual(await ticked(page), ['boat', 'heart']);
  await pressInDialog(page, 'Save all');
  const {name} = await downloaded(page, own, '.zip');
  assert.equal(name, 'Nonograms.zip');
  await page.close();
}

/**
 * An icon that is no pixel art is made a puzzle, and what is no puzzle is listed with the reason;
 * the list, its ticks and the title stay as they were left, until the list is emptied.
 */
export async function bookOfIcons({browser, url, folder}) {
  const {page} = await fresh(browser, url, folder, 'book-icons');
  await page.run(async () => {
    const canvas = Object.assign(document.createElement('canvas'), {width: 201, height: 201});
    const pen = canvas.getContext('2d');
    pen.fillStyle = '#fff';
    pen.fillRect(0, 0, 201, 201);
    pen.fillStyle = '#c03020';
    pen.arc(100, 100, 80, 0, 2 * Math.PI);
    pen.fill();
    const icon = new File([await new Promise((go) => canvas.toBlob(go))], 'disc.png');
    const dataTransfer = new DataTransfer();
    for (const file of [icon, new File(['nothing'], 'notes.txt')]) dataTransfer.items.add(file);
    document.body.dispatchEvent(
        new DragEvent('drop', {dataTransfer, bubbles: true, cancelable: true})
    );
  });
  await page.until(() => document.getElementById('several'));
  await pressInDialog(page, 'Make a book');
  await judged(page);
  assert.deepEqual(await ticked(page), ['disc']);
  const text = (id) => page.run((one) => document.getElementById(one).textContent, id);
  assert.match(await text('book-list'), /notes it is neither a picture nor a puzzle/);
  assert.match(await text('book-status'), /^1 puzzle on .* 1 file not read\.$/);
  await page.run(() => {
    document.querySelector('#book-list input').click();
    document.getElementById('book-title').value = 'Icons';
  });
  await page.press('Escape');
  const open = () => page.run(() => {
    runAction('book');
  });
  await open();
  await judged(page);
  assert.equal(await page.run(() => document.querySelectorAll('#book-list .page').length), 1);
  assert.deepEqual(await ticked(page), []);
  assert.equal(await page.run(() => document.getElementById('book-title').value), 'Icons');
  await page.run(() => document.getElementById('book-empty').click());
  assert.equal(await page.run(() => document.getElementById('book-list').children.length), 0);
  await page.close();
}
