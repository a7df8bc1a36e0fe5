// Tests in the browser of the page's languages: a walk in German by mouse, keys and fingers,
// another language with all that was done, and what is written from right to left.
import assert from 'node:assert/strict';
import {readFileSync} from 'node:fs';
import {clean, examples, fresh, serve} from './page_common.mjs';
import {Trial, ppmOf} from './page_trial.mjs';

const KEPT = 'nonobench-language';
const MIRRORED = 'en-x-mirrored';

// Starts the page in a language that was chosen before.
async function chooseLanguage(trial, language) {
  await trial.page.run((name, value) => localStorage.setItem(name, value), KEPT, language);
  await trial.load();
}

// What is cut, outside the window, or over something else, of what a user reads or presses.
const MISLAID = () => {
  const wrong = [];
  const isShown = (one) => one.checkVisibility({visibilityProperty: true, opacityProperty: true}) &&
      one.getClientRects().length > 0;
  // A part that scrolls, or that shows the rest of a name by dots, has what does not fit.
  const scroller = (one) => {
    for (let up = one.parentElement; up; up = up.parentElement)
      if (/auto|scroll/.test(getComputedStyle(up).overflowX + getComputedStyle(up).overflowY))
        return up;
    return null;
  };
  const top = [...document.querySelectorAll('dialog[open]')].at(-1) ??
      document.querySelector('.menu:popover-open');
  const all = [
    ...(top ?? document.body
    ).querySelectorAll('button, input, select, textarea, h1, h2, h3, label, p, legend, dt, dd')
  ].filter(isShown);
  for (const one of all) {
    const {left, right, width} = one.getBoundingClientRect();
    const name = `${one.tagName} ${one.id || one.dataset.action || one.textContent.slice(0, 30)}`;
    if (width > 1 && !scroller(one) && (left < -1 || right > innerWidth + 1))
      wrong.push(`outside the window: ${name}`);
    if (one.matches('button') && one.scrollWidth > one.clientWidth + 1) wrong.push(`cut: ${name}`);
  }
  // The longest word of a choice, and the arrow behind it, in a language that users read.
  const isRead = ['de', 'fr'].includes(document.documentElement.lang);
  const pen = document.createElement('canvas').getContext('2d');
  for (const one of all.filter((select) => isRead && select.matches('select'))) {
    pen.font = getComputedStyle(one).font;
    const longest =
        Math.max(...[...one.options].map((option) => pen.measureText(option.text).width));
    if (longest + 18 > one.clientWidth && longest < 200)
      wrong.push(`cut: ${one.id}, ${Math.round(longest)} in ${one.clientWidth}`);
  }
  const header = document.querySelector('header');
  if (isRead && header.scrollWidth > header.clientWidth + 1)
    wrong.push(`the header is ${header.scrollWidth} px wide`);
  // The button for more of a tile lies in its corner.
  const buttons =
      all.filter(
             (one) => one.matches('button, select, input:not([type=checkbox]):not([type=radio])') &&
                 !one.closest('.tile-more')
      ).map((one) => [one, one.getBoundingClientRect()]);
  for (const [at, [one, box]] of buttons.entries()) {
    for (const [other, next] of buttons.slice(at + 1)) {
      const over = Math.min(box.right, next.right) - Math.max(box.left, next.left) > 2 &&
          Math.min(box.bottom, next.bottom) - Math.max(box.top, next.top) > 2;
      if (over && scroller(one) === scroller(other) && !one.closest('.view') &&
          !other.closest('.view'))
        wrong.push(`one over the other: ${one.id || one.textContent.slice(0, 30)}, ${
            other.id || other.textContent.slice(0, 30)}`);
    }
  }
  if (document.documentElement.scrollWidth > innerWidth + 1)
    wrong.push(`the page is ${document.documentElement.scrollWidth} px wide`);
  return wrong;
};

// English words in what is shown, or told of what is shown.
const ENGLISH = () => {
  const word =
      /\b(the|and|with|of|cells?|colou?rs?|pictures?|delete|remove|rows?|columns?|undo|redo|shows?|search|open|save|print|close)\b/i;
  const texts = [...document.querySelectorAll('body *')].flatMap(
      (one) =>
          [one.getAttribute('aria-label'),
           one.title,
           ...[...one.childNodes]
               .filter(
                   (node) =>
                       node.nodeType === 3 && !one.matches('script, style, #version, #needs *')
               )
               .map((node) => node.textContent)]
  );
  return [...new Set(
      texts.filter((text) => text && word.test(text.replace(/„nonobench [^“]*“/g, '')))
  )];
};

const opened = (page) =>
    page.until(() => window.bench?.state && !document.getElementById('work').hidden);
const closed = (page) => page.run(() => new Promise((go) => {
                                    const dialog = document.querySelector('dialog[open]');
                                    dialog.addEventListener('close', () => setTimeout(go));
                                    dialog.close();
                                  }));

// All menus and some dialogs, one behind the other.
async function overThePage(page, where, hears = false) {
  for (const place of ['file', 'edit', 'picture', 'view', 'check', 'help']) {
    await page.run((one) => document.getElementById(`menu-${one}`).showPopover(), place);
    assert.deepEqual(await page.run(MISLAID), [], `${where}, the menu ${place}`);
    if (hears) assert.deepEqual(await page.run(ENGLISH), [], `${where}, the menu ${place}`);
    await page.run((one) => document.getElementById(`menu-${one}`).hidePopover(), place);
  }
  for (const id of ['guide', 'keys', 'resize', 'about', 'print', 'paste', 'vision', 'share']) {
    await page.run((one) => runAction(one), id);
    await page.until(() => document.querySelector('dialog[open]'));
    assert.deepEqual(await page.run(MISLAID), [], `${where}, the dialog ${id}`);
    if (hears) assert.deepEqual(await page.run(ENGLISH), [], `${where}, the dialog ${id}`);
    await closed(page);
  }
}

// ---- German

// The examples are read once the library is listed.
const isListed = (page) => page.until(() => 'listed' in document.getElementById('start').dataset);

/**
 * German is chosen in the menu View; then a walk in it, in which nothing is cut and no English is
 * left.
 */
export async function germanPoint(user, {page, trial}) {
  await user.press('#examples [data-name="heart"]');
  await opened(page);
  const loaded = new Promise((go) => page.wakes.push(go));
  await user.menu('view', 'language-de');
  await loaded;
  await opened(page);
  assert.deepEqual(
      await page.run(() => [document.documentElement.lang, document.documentElement.dir]),
      ['de', 'ltr']
  );
  await trial.judged();
  assert.equal(await trial.text('#verdict'), 'Eindeutig');
  const before = (await trial.picture())[2][2];
  await user.colour(before === '.' ? 'a' : '.');
  await user.stroke([3, 3]);
  assert.notEqual((await trial.picture())[2][2], before, 'a cell is painted');
  await user.undo();
  assert.equal((await trial.picture())[2][2], before, 'and taken back');
  await trial.open(ppmOf(['a...', '.a..', '..a.', '...a']));
  assert.equal(await trial.judged(), 'ambiguous');
  assert.equal(await trial.text('#verdict'), 'Mehrdeutig');
  if (await page.run(() => document.getElementById('verdict-open').checkVisibility()))
    await user.press('#verdict-open');
  await user.press('#verdict-do [data-action="fix"]');
  assert.match(await trial.text('#fix'), /Neu suchen/);
  assert.deepEqual(await page.run(MISLAID), [], 'Fix it');
  await user.menu('file', 'about');
  await page.until(() => document.querySelector('dialog[open]'));
  assert.match(await trial.text('dialog[open]'), /Titel, Autor und Texte/);
  await closed(page);
  await overThePage(page, 'German', true);
  await user.menu('file', 'new');
  await isListed(page);
  assert.match(await trial.text('#start'), /Beispiele.*Ballon.*Herz/);
  assert.deepEqual(
      [await page.run(MISLAID), await page.run(ENGLISH)], [[], []], 'the start screen'
  );
}

/**
 * In the dialog for pictures nothing is English, and shares are written as the language writes
 * them.
 */
export async function germanImport({trial, page}) {
  await chooseLanguage(trial, 'de');
  await page.run((bytes) => {
    takeFile(new File([Uint8Array.from(bytes)], 'duck.png'));
  }, [...readFileSync(new URL('duck.png', examples))]);
  await page.until(() => document.querySelector('#import-ink')?.value);
  assert.match(
      await page.run(() => document.getElementById('import-ink').value),
      /^Weiß #ffffff, 50,0\s%, Hintergrund$/
  );
  await page.until(
      () => /Mehrdeutig, 6 Felder/.test(document.getElementById('import-verdict').textContent)
  );
  assert.deepEqual([await page.run(ENGLISH), await page.run(MISLAID)], [[], []]);
  await page.press('Escape');
}

/** French, which has three forms for numbers, is laid out as well. */
export async function frenchPoint(user, {page, trial}) {
  await user.press('#examples [data-name="heart"]');
  await opened(page);
  const loaded = new Promise((go) => page.wakes.push(go));
  await user.menu('view', 'language-fr');
  await loaded;
  await opened(page);
  assert.deepEqual(
      await page.run(() => [document.documentElement.lang, document.documentElement.dir]),
      ['fr', 'ltr']
  );
  await trial.open(ppmOf(['a...', '.a..', '..a.', '...a']));
  assert.equal(await trial.judged(), 'ambiguous');
  assert.equal(await trial.text('#verdict'), 'Ambiguë');
  if (await page.run(() => document.getElementById('verdict-open').checkVisibility()))
    await user.press('#verdict-open');
  await user.press('#verdict-do [data-action="fix"]');
  assert.match(await trial.text('#fix'), /Chercher de nouveau/);
  assert.deepEqual(await page.run(MISLAID), [], 'Fix it');
  await overThePage(page, 'French');
  await user.menu('file', 'new');
  await isListed(page);
  assert.match(await trial.text('#start'), /Exemples.*cœur/);
  assert.deepEqual(await page.run(MISLAID), [], 'the start screen');
}

export async function languageOfTheBrowser({browser, url, folder}) {
  const trial = await Trial.start(browser, url, folder);
  const {page} = trial;
  assert.equal(await page.run(() => document.documentElement.lang), 'en');
  await page.before(
      'Object.defineProperty(navigator, \'languages\', { get: () => [\'it\', \'de-AT\'] });'
  );
  await trial.load();
  assert.equal(await page.run(() => document.documentElement.lang), 'de');
  await page.close();
}

// ---- another language

export async function languageKeepsAll({trial, page}) {
  await clean(page);
  await page.click('#examples [data-name="heart"]');
  await opened(page);
  await trial.judged();
  const before = await trial.picture();
  await trial.drag([[1, 1], [1, 3]]);
  const painted = await trial.picture();
  assert.notDeepEqual(painted, before);
  await page.run(() => document.getElementById('menu-view').showPopover());
  const loaded = new Promise((go) => page.wakes.push(go));
  await page.click('#menu-view [data-action="language-de"]');
  await loaded;
  await opened(page);
  await trial.judged();
  assert.deepEqual(page.dialogs, [], 'nothing is asked');
  assert.equal(await page.run(() => document.documentElement.lang), 'de');
  assert.deepEqual(await trial.picture(), painted, 'the picture stays');
  assert.match(await trial.text('#said'), /^$/, 'it is no copy');
  await trial.press('Control+z');
  assert.deepEqual(await trial.picture(), before, 'and its undo');
  assert.equal(
      await page.run(async () => (await keep.keeper.cards()).length),
      1,
      'one picture in the library'
  );
}

export async function languageKeepsABlankPicture({trial, page}) {
  await page.click('#new-go');
  await page.until(() => bench.state);
  await page.run(() => keep.ready().then(() => true));
  const size = await page.run(() => [bench.state.rows, bench.state.columns]);
  const loaded = new Promise((go) => page.wakes.push(go));
  await page.run(() => {
    runAction('language-de');
  });
  await loaded;
  await page.until(() => window.bench?.state);
  assert.deepEqual(await page.run(() => [bench.state.rows, bench.state.columns]), size);
  assert.equal(await trial.text('#menus > button'), 'Datei');
}

export async function languageWaitsWhereNothingIsKept({trial, page}) {
  await page.click('#examples [data-name="heart"]');
  await opened(page);
  await trial.judged();
  await trial.drag([[1, 1], [1, 3]]);
  const painted = await trial.picture();
  await page.run(() => {
    keep.keeper.shelf.putAll = () => Promise.reject(new Error('no'));
  });
  await page.run(() => {
    runAction('language-de');
  });
  await page.until(() => /reload the page/.test(document.getElementById('said').textContent));
  assert.deepEqual(await trial.picture(), painted, 'the page stays as it is');
  assert.equal(await page.run(() => document.documentElement.lang), 'en');
  await page.run(() => {
    bench.isSaved = true;
  });  // the test leaves it
  assert.equal(
      await page.run((name) => localStorage.getItem(name), KEPT), 'de', 'the next start has it'
  );
}

/**
 * The file that Ctrl+S writes stays the same; a page from a file cannot show it, since browsers
 * give it no files of its own.
 */
export async function languageKeepsTheFile({browser, folder}) {
  const {url, end} = await serve(folder);
  const {page, trial} = await fresh(browser, url, folder, 'kept-file', {
    before:
        'delete window.showOpenFilePicker; window.showSaveFilePicker = async () => (window.asked = true, (await navigator.storage.getDirectory()).getFileHandle("mine.ppm", { create: true }));'
  });
  const written = () => page.run(
      async () => (await (await (await navigator.storage.getDirectory()).getFileHandle('mine.ppm')
                   ).getFile()
      ).text()
  );
  await page.run(
      (rows) => openDoc(
          {
            rows: 2,
            columns: 2,
            maxval: 255,
            colours: [[255, 255, 255], [0, 0, 0]],
            picture: rows,
            givens: new Set()
          },
          {name: 'mine'}
      ),
      ['a.', '.a']
  );
  await page.press('Control+s');
  await page.until(() => bench.isSaved && saving.handle?.name === 'mine.ppm');
  const before = await written();
  const loaded = new Promise((go) => page.wakes.push(go));
  await page.run(() => {
    runAction('language-de');
  });
  await loaded;
  await opened(page);
  await page.until(() => saving.handle !== null);
  await trial.drag([[1, 2]]);
  await page.press('Control+s');
  await page.until(() => bench.isSaved);
  assert.deepEqual(
      await page.run(() => [window.asked ?? false, saving.form]),
      [false, 'ppm'],
      'it is not asked for again'
  );
  assert.match(before, /\n2 2\n255\n0 0 0\n255 255 255\n/);
  assert.match(await written(), /\n2 2\n255\n0 0 0\n0 0 0\n/);
  await page.close();
  await end();
}

// ---- from right to left

/** What lays things out is mirrored; grids are read from the left. */
export async function mirroredPoint(user, {page, trial}) {
  await chooseLanguage(trial, MIRRORED);
  assert.equal(await page.run(() => document.documentElement.dir), 'rtl');
  assert.deepEqual(await page.run(MISLAID), [], 'the start screen');
  await trial.example('apple');
  await trial.judged();
  const edges = await page.run(() => {
    const {geometry: at} = sheet;
    return [at.x(0), at.x(1), at.y(0), at.y(1)];
  });
  assert.ok(edges[0] < edges[1] && edges[2] < edges[3], 'columns go from left to right');
  const [[x1], [x2]] = [await trial.cell(2, 2), await trial.cell(2, 3)];
  assert.ok(x1 < x2);
  const [, from] = await trial.picture();
  await user.colour(from[1] === '.' ? 'a' : '.');
  await user.stroke([2, 2]);
  const [, row] = await trial.picture();
  assert.ok(
      row[0] === from[0] && row[1] !== from[1] && row.slice(2) === from.slice(2),
      'the pencil paints the cell that it is at'
  );
  await page.run(() => {
    cursor.row = 0;
    cursor.col = 0;
    document.querySelector('.cell').focus();
  });
  await page.press('ArrowRight');
  assert.deepEqual(
      await page.run(() => [cursor.row, cursor.col]), [0, 1], 'an arrow goes to the right'
  );
  if (await page.run(() => document.getElementById('verdict-open').checkVisibility()))
    await user.press('#verdict-open');
  await page.run(() => runAction('fix'));
  assert.deepEqual(await page.run(MISLAID), [], 'the bench');
  assert.equal(
      await page.run(() => document.querySelectorAll('[data-action*="mirrored"]').length),
      0,
      'it is in no menu'
  );
  await overThePage(page, 'mirrored');
}
