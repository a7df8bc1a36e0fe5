// Trials of what the browser keeps of the work, in Chromium. Each is a test of the runner
// tests/page/page_test.mjs.
import assert from 'node:assert/strict';
import {readFileSync} from 'node:fs';
import {join} from 'node:path';
import {clean, drop, examples, fresh, goOn, isKept, isOpen, said} from './page_common.mjs';
import {Trial} from './page_trial.mjs';

// A blank picture is open, and the library has no other.
async function freshPicture(page) {
  await clean(page);
  await page.click('#new-go');
  await isOpen(page);
}

// A stroke in one cell, which is kept.
async function keptStroke(trial, cell) {
  await trial.drag([cell]);
  await isKept(trial.page);
}

/**
 * A reload and a closed tab lose nothing: strokes come back with their undo, and the start screen
 * offers to go on.
 */
export async function kept({browser, page, trial, url, folder}) {
  await freshPicture(page);
  await trial.drag([[2, 2], [2, 6]]);
  await trial.drag([[4, 4]]);
  await page.run(() => bench.stroke(['pin 4 4']));
  await isKept(page);
  const before = await trial.state();
  await trial.load();
  assert.ok(page.dialogs.includes('beforeunload'));
  await page.until(() => document.querySelector('#kept .kept'));
  assert.match(await trial.text('#kept .kept'), /picture.*20 by 15.*not in a file/);
  await page.shot(join(folder, 'start.png'));
  await goOn(page);
  await isOpen(page);
  const after = await trial.state();
  assert.deepEqual(
      [after.picture, after.givens, after.colours, after.strokes],
      [before.picture, before.givens, before.colours, [3, 0]]
  );
  await page.run(() => bench.undo().then(() => bench.undo()));
  await isKept(page);
  await page.close();
  const again = await Trial.start(browser, url, folder);
  await goOn(again.page);
  await isOpen(again.page);
  assert.deepEqual((await again.state()).strokes, [1, 2]);
  await again.page.run(() => bench.redo());
  assert.equal((await again.picture())[3], '...a................');
  await again.page.close();
}

/**
 * A damaged record is left out, one whose strokes are damaged gives its picture, and a damaged
 * card hides none.
 */
export async function damaged({page, trial}) {
  await freshPicture(page);
  await keptStroke(trial, [2, 2]);
  await page.run(async () => {
    const shelf = keep.keeper.shelf;
    const key = (await shelf.keys()).find((one) => one.startsWith('work:'));
    const record = await shelf.get(key);
    await shelf.put('work:bad', {version: 2, id: 'bad', doc: {rows: 1e9}});
    await shelf.put(key, {...record, past: [{rows: [[99, 'x']]}]});
    const card = key.replace('work:', 'card:');
    await shelf.put(
        card,
        {...await shelf.get(card), verdict: 'constructor', grade: 'constructor', when: -Infinity}
    );
  });
  await trial.load();
  await page.until(() => document.querySelector('#kept .kept'));
  assert.equal(await page.run(() => document.querySelectorAll('#kept .kept').length), 1);
  await goOn(page);
  await isOpen(page);
  await page.until(() => bench.state.picture[1] === '.a..................');
  await isKept(page);
  assert.doesNotMatch(await said(page), /another tab/);
  assert.equal(await page.run(async () => (await keep.keeper.cards()).length), 1);
}

// A tab beside one in which a new picture with a cell is open and kept.
async function besideKept({browser, page, trial, url, folder}) {
  await freshPicture(page);
  await keptStroke(trial, [2, 2]);
  return Trial.start(browser, url, folder);
}

/**
 * Two tabs have a picture each; where both would keep the same one the second says so, and adds a
 * copy only once it changes.
 */
export async function tabsApart({browser, page, trial, url, folder}) {
  const other = await besideKept({browser, page, trial, url, folder});
  await goOn(other.page);
  await isOpen(other.page);
  await other.page.until(
      () => document.getElementById('said').textContent.includes('open in another tab')
  );
  for (let again = 0; again < 3; again++) {
    await other.page.run(() => runAction('new'));
    await goOn(other.page);
    await other.page.until(() => document.getElementById('start').hidden);
    await isKept(other.page);
  }
  assert.equal(
      await page.run(async () => (await keep.keeper.cards()).length),
      1,
      'opened again and again it is one picture'
  );
  await keptStroke(other, [5, 5]);
  await keptStroke(trial, [7, 7]);
  const names = await page.run(
      async () => (await keep.keeper.cards()
      ).map((card) => card.doc.picture.join('').replaceAll('.', '').length)
  );
  assert.deepEqual(names, [2, 2]);
  await other.page.close();
}

/**
 * A picture that is renamed in one tab while another one has it open keeps that name, and what is
 * painted there.
 */
export async function renamedElsewhere({browser, page, trial, url, folder}) {
  const other = await besideKept({browser, page, trial, url, folder});
  await other.page.until(() => document.querySelector('#kept .kept'));
  await other.page.click('#library .tile-more button');
  await other.page.run(() => document.querySelector('#library [role=menuitem]').click());
  await other.page.press('Control+a', ...'leaf', 'Enter');
  await other.page.until(() => document.querySelector('#library b')?.textContent === 'leaf');
  await page.run(() => new Promise((go) => {
                   setTimeout(go, 500);
                 }));
  assert.match(await trial.text('#title'), /^leaf/);
  await keptStroke(trial, [5, 5]);
  const found = await page.run(
      async () => (await keep.keeper.cards()
      ).map(({name, doc}) => [name, doc.picture.join('').replaceAll('.', '').length])
  );
  assert.deepEqual(found, [['leaf', 2]]);
  await other.page.close();
}

/**
 * Where there is no database, the browser's local storage keeps the work, until there is one;
 * where there is neither, that is reported.
 */
export async function otherShelves({browser, url, folder}) {
  const hidden = (name) => `Object.defineProperty(window, '${
      name}', { get() { throw new DOMException('hidden', 'SecurityError'); } });`;
  const {page, trial} = await fresh(browser, url, folder, 'local', {before: hidden('indexedDB')});
  await freshPicture(page);
  await keptStroke(trial, [2, 2]);
  await trial.load();
  await goOn(page);
  await isOpen(page);
  assert.equal((await trial.picture())[1], '.a..................');
  await page.close();
  const {page: next, trial: third} = await fresh(browser, url, folder, 'next');
  await goOn(next);
  await isOpen(next);
  assert.deepEqual(
      [
        (await third.picture())[1],
        await next.run(
            () => Object.keys(localStorage).filter((key) => key.startsWith('nonobench:'))
        )
      ],
      ['.a..................', []]
  );
  await clean(next);
  await next.close();
  const {page: bare, trial: other} = await fresh(
      browser, url, folder, 'bare', {before: hidden('indexedDB') + hidden('localStorage')}
  );
  await freshPicture(bare);
  await other.drag([[2, 2]]);
  await bare.until(() => /keeps nothing/.test(document.getElementById('said').textContent));
  await bare.run(async () => {
    location.hash = await fragmentOf(bench.state, 'play');
  });
  await bare.until(
      () => document.querySelector('dialog[open]')?.textContent.includes('would be lost')
  );
  await bare.press('Escape');
  await bare.until(() => !document.querySelector('dialog[open]'));
  assert.equal(
      await bare.run(
          () => document.getElementById('menus').checkVisibility({visibilityProperty: true})
      ),
      true,
      'what is not left is seen'
  );
  assert.equal((await other.picture())[1], '.a..................');
  await bare.close();
}

/**
 * A storage that is full is told once, and the work goes on; a table of files stays where it is
 * not left for a row.
 */
export async function toldFull({browser, url, folder}) {
  const {page, trial} = await fresh(browser, url, folder, 'full', {
    before:
        `IDBObjectStore.prototype.put = () => { throw new DOMException('full', 'QuotaExceededError'); };`
  });
  await freshPicture(page);
  await trial.drag([[2, 2]]);
  await page.until(() => /storage is full/.test(document.getElementById('said').textContent));
  assert.match(await trial.text('#title'), /not kept/);
  const own = join(folder, 'full');
  await drop(page, own, 'flower.ppm', readFileSync(new URL('flower.ppm', examples)));
  await page.until(
      () => document.querySelector('dialog[open]')?.textContent.includes('would be lost')
  );
  await page.press('Escape');
  assert.equal((await trial.state()).columns, 20);
  await page.run((text) => {
    const data = new DataTransfer();
    for (const name of ['one.ppm', 'two.ppm']) data.items.add(new File([text], name));
    window.dispatchEvent(new DragEvent('drop', {dataTransfer: data, cancelable: true}));
  }, readFileSync(new URL('flower.ppm', examples), 'utf8'));
  await page.until(() => document.querySelector('#several tbody tr'));
  await page.run(() => document.querySelector('#several tbody tr').click());
  await page.until(
      () => /would be lost/.test([...document.querySelectorAll('dialog[open]')].at(-1)?.textContent)
  );
  await page.press('Escape');
  await page.until(() => document.querySelectorAll('dialog[open]').length < 2);
  assert.equal(
      await page.run(() => document.getElementById('several')?.checkVisibility() ?? false),
      true,
      'the table is there'
  );
  await page.close();
}

/**
 * A database that is closed under the page is opened again; where it does not open that is
 * reported, and what needs no library goes on.
 */
export async function closedDatabase({page, trial}) {
  await freshPicture(page);
  await page.run(() => new Promise((go, no) => {
                   Object.assign(
                       indexedDB.deleteDatabase('nonobench'),
                       {onsuccess: () => go(), onerror: () => no()}
                   );
                 }));
  await page.run(() => {
    window.own = IDBFactory.prototype.open;
    IDBFactory.prototype.open = () => {
      throw new Error('no');
    };
  });
  await trial.drag([[2, 2]]);
  await page.until(() => /refuses to store it/.test(document.getElementById('said').textContent));
  await page.run(() => runAction('print'));
  await page.until(() => document.querySelector('dialog[open] #print-notes'));
  await page.press('Escape');
  await page.run(() => {
    IDBFactory.prototype.open = window.own;
  });
  await trial.drag([[3, 3]]);
  await page.until(() => keep.isKept && document.getElementById('said').textContent === '');
  assert.equal(await page.run(async () => (await keep.keeper.cards()).length), 1);
}

/**
 * However many pictures there are, one transaction of the database lists them, and one more reads
 * each record without a card.
 */
export async function listedAtOnce({page, trial}) {
  await freshPicture(page);
  await keptStroke(trial, [2, 2]);
  const listed = await page.run(async () => {
    const {keeper, id} = keep;
    const {record, card} = await keeper.entry(id);
    const entries = Array.from(
        {length: 499},
        (_, at) => [['work', record], ['card', card]].map(
            ([kind, value]) => [`${kind}:more${at}`, {...value, id: `more${at}`}]
        )
    );
    await keeper.shelf.putAll(entries.flat());
    await keeper.shelf.drop('card:more7');
    const keys = await keeper.shelf.keys();
    const bare = keys.filter(
        (key) => key.startsWith('work:') && !keys.includes(key.replace('work:', 'card:'))
    );  // also a damaged one of before
    const {transaction} = IDBDatabase.prototype;
    let count = 0;
    IDBDatabase.prototype.transaction = function(...words) {
      count += words[1] === 'readonly';
      return transaction.apply(this, words);
    };
    const cards = await keeper.cards();
    IDBDatabase.prototype.transaction = transaction;
    return {cards: cards.length, more: count - bare.length, isBare: bare.includes('work:more7')};
  });
  assert.deepEqual(listed, {cards: 500, more: 1, isBare: true});
  await clean(page);
}
