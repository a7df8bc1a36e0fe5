// Trials, in Chromium, that nothing is lost and nothing moves: the library, texts under undo, keys
// after a choice, panels and pictures that stay under the pointer, certificates, warnings, and
// marks that are seen. Each is a test of the runner tests/page/page_test.mjs.
import assert from 'node:assert/strict';
import {phrase} from '../../page/texts/phrase.js';
import {
  act,
  clean,
  downloaded,
  drop,
  fresh,
  goOn,
  isKept,
  isOpen,
  menu,
  said
} from './page_common.mjs';
import {noise, ppmOf} from './page_trial.mjs';

const MIXED = ['..aa....bb', '.abba..b.b', 'a.bba.bb..', '..aaa.b...', '...a..cc..'];
const cards = (page) => page.run(
    async () =>
        (await keep.keeper.cards()).map(({name, isSaved, verdict}) => ({name, isSaved, verdict}))
);
const saysThat = (page, text) =>
    page.until((wanted) => document.getElementById('said').textContent.includes(wanted), text);

/**
 * Thirty pictures that are in no file stay, are found, renamed, copied, deleted and brought back,
 * and go through an archive.
 */
export async function library({browser, url, folder}) {
  const {page, own} = await fresh(browser, url, folder, 'library');
  await clean(page);
  for (let at = 1; at <= 30; at++) {
    await page.run(
        (text, name) => takeFile(new File([text], name)).then(() => bench.stroke(['paint 1 1 a'])),
        ppmOf([`.${'a'.repeat(at)}`]),
        `picture ${at}.ppm`
    );
    await isKept(page);
  }
  assert.equal((await cards(page)).length, 30, 'nothing goes that is in no file');
  await page.run(() => runAction('new'));
  await page.until(() => document.querySelectorAll('#library .kept').length === 30);
  await page.until(
      () => /30 pictures in this browser, .* room for/.test(document.getElementById('room'
      ).textContent)
  );
  await page.click('#library-search');
  await page.press(...'ure 7');
  assert.deepEqual(
      await page.run(
          () => [...document.querySelectorAll('#library b')].map((one) => one.textContent)
      ),
      ['picture 7']
  );
  const more = async (name) => {
    await page.click('#library .tile-more button');
    await page.run(
        (wanted) => [...document.querySelectorAll('#library [role=menuitem]')]
                        .find((one) => one.textContent === wanted)
                        .click(),
        name
    );
  };
  await more('Rename …');
  await page.press('Control+a', ...'ure 7 tree', 'Enter');
  await page.until(() => document.querySelector('#library b')?.textContent === 'ure 7 tree');
  await more('Duplicate');
  await page.until(() => document.querySelectorAll('#library .kept').length === 2);
  await more('Delete');
  await page.until(() => document.querySelectorAll('#library .kept').length === 1);
  assert.equal((await cards(page)).length, 30);
  await page.click('#said button');
  await page.until(() => document.querySelectorAll('#library .kept').length === 2);
  await page.click('#library-export');
  const {content} = await downloaded(page, own, '.zip');
  await page.run(() => keep.end());  // the open picture would be kept again once it is graded
  await clean(page);
  await drop(page, own, 'all.zip', content);
  await saysThat(page, '31 pictures added to the library');
  const back = await cards(page);
  assert.deepEqual(
      [back.length, back.filter((one) => one.name.startsWith('ure 7 tree')).length], [31, 2]
  );
  assert.deepEqual(page.faults, []);
  await page.close();
}

/** A storage that is full asks what may go, and takes nothing of its own. */
export async function makesRoom({browser, url, folder}) {
  const {page, trial} = await fresh(browser, url, folder, 'room', {
    before: `const put = IDBObjectStore.prototype.put; window.isFull = false;
        IDBObjectStore.prototype.put = function (...words) { if (window.isFull) throw new DOMException('full', 'QuotaExceededError'); return put.apply(this, words); };`
  });
  await clean(page);
  await page.run(
      (text) => takeFile(new File([text], 'old.ppm')).then(() => bench.stroke(['paint 1 1 a'])),
      ppmOf(MIXED)
  );
  await isKept(page);
  await page.run((text) => takeFile(new File([text], 'now.ppm')), ppmOf(MIXED));
  await page.run(() => {
    window.isFull = true;
  });
  await trial.drag([[1, 1]]);
  await saysThat(page, 'storage is full');
  assert.equal((await cards(page)).length, 2);
  await page.click('#said button');
  await page.until(() => document.querySelector('dialog[open] input[type=checkbox]'));
  await page.click('dialog input[type=checkbox]');
  assert.match(
      await trial.text('dialog'),
      /old.*not in a file.*has not been saved. Deleting cannot be undone/
  );
  await page.run(() => {
    window.isFull = false;
  });
  await page.click('dialog button.main');
  await isKept(page);
  await page.until(async () => (await keep.keeper.cards()).length === 1);
  assert.equal((await cards(page))[0].name, 'now');
  await page.close();
}

/**
 * Texts about the puzzle, names, signs and locks are part of the document: unsaved once they
 * change, and kept; all but texts are under undo.
 */
export async function textsAreKept({browser, url, folder}) {
  const {page, trial} = await fresh(browser, url, folder, 'texts');
  await clean(page);
  await page.run((text) => takeFile(new File([text], 'texts.ppm')), ppmOf(MIXED));
  await isOpen(page);
  assert.equal(await page.run(() => bench.isSaved), true);
  await menu(page, 'about');
  await page.until(() => document.querySelector('dialog[open] input'));
  await page.press(...'Tree', 'Tab', ...'Jan', 'Enter');
  await page.until(() => bench.state.about.title === 'Tree');
  assert.deepEqual(
      await page.run(() => [bench.isSaved, bench.state.about]),
      [false, {title: 'Tree', author: 'Jan'}]
  );
  await page.press('b', '2');  // the bucket, and the colour b
  await page.click('#ink-name');
  await page.press(...'leaf', 'Enter');
  await page.until(() => bench.state.inks[2]?.name === 'leaf');
  await page.press('Escape', 'Escape');
  await page.run(() => document.activeElement.blur());
  await page.press('k');
  await trial.drag([[1, 1], [1, 3]]);
  await page.until(() => bench.state.locks.size === 3);
  await isKept(page);
  await trial.load();
  await goOn(page);
  await isOpen(page);
  const now = () => page.run(
      () => [bench.state.about.title ?? '', bench.state.inks[2]?.name ?? '', bench.state.locks.size]
  );
  assert.deepEqual(await now(), ['Tree', 'leaf', 3]);
  for (const [key, wanted] of [
           ['Control+z', ['Tree', 'leaf', 0]],
           ['Control+z', ['Tree', '', 0]],
           ['Control+z', ['Tree', '', 0]],
           ['Control+y', ['Tree', 'leaf', 0]],
           ['Control+y', ['Tree', 'leaf', 3]]]) {
    await trial.press(key);
    assert.deepEqual(await now(), wanted);
  }
  await page.close();
}

/** A picture without texts is proposed the author that was typed last, until that is cleared. */
export async function authorProposed({browser, url, folder}) {
  const {page} = await fresh(browser, url, folder, 'author');
  await clean(page);
  let count = 0;
  const about = async (...keys) => {
    await page.run(
        (text) => takeFile(new File([text], 'author.ppm')).then(() => true),
        ppmOf([`.${'a'.repeat(++count)}`])
    );
    await menu(page, 'about');
    await page.until(() => document.querySelector('dialog[open] input'));
    const {value} =
        await page.run(() => ({value: document.querySelectorAll('dialog[open] input')[1].value}));
    await page.press(...keys, 'Enter');
    await page.until(() => !document.querySelector('dialog[open]') && !bench.queue.length);
    return [value, await page.run(() => bench.state.about)];
  };
  assert.deepEqual(await about('Tab', ...'Jan'), ['', {author: 'Jan'}]);
  assert.deepEqual(await about(...'Tree'), ['Jan', {title: 'Tree', author: 'Jan'}]);
  assert.deepEqual(await about('Tab', 'Control+a', 'Backspace'), ['Jan', {}]);
  assert.deepEqual(await about(), ['', {}]);
  await page.close();
}

/**
 * The page's keys work after a choice was used, and Escape closes a menu whose greyed entry was
 * clicked.
 */
export async function keysAfterChoice({trial, page}) {
  await trial.open(ppmOf(MIXED), 'keys');
  await trial.drag([[1, 1]]);
  await page.run(() => document.querySelector('#hatching').focus());
  await page.press('ArrowDown');
  await trial.press('Control+z');
  assert.equal((await trial.picture())[0], MIXED[0], 'undo while a choice has the focus');
  await page.click('#seconds');  // by the mouse, whose choice is not drawn where there is no screen
  await page.run(
      () => document.querySelector('#seconds').dispatchEvent(new Event('change', {bubbles: true}))
  );
  await page.press('l');
  assert.equal(await page.run(() => tools.name), 'line', 'a letter after a choice by the mouse');
  await page.press('Escape');
  await page.click('#menus [popovertarget="menu-edit"]');
  await page.until(() => document.querySelector('#menu-edit:popover-open [data-action="cut"]'));
  await page.click('#menu-edit [data-action="redo"][aria-disabled], #menu-edit [data-action="cut"]'
  );
  await page.press('Escape');
  assert.equal(
      await page.run(() => document.querySelector('.menu:popover-open')),
      null,
      'Escape closes the menu'
  );
}

/**
 * What stands in the panels stays where it is, whatever is painted and however many colours there
 * are.
 */
export async function panelsStay({trial, page}) {
  await trial.open(ppmOf(MIXED), 'panels');
  await trial.judged();
  const places = () => page.run(
      () => [...document.querySelectorAll(
                 '#audit, #colours, #cell, #lines, #details, #details :is(button, select)'
             )].map((one) => `${one.id || one.dataset.action} ${one.getBoundingClientRect().top}`)
                .join('\n')
  );
  const first = () =>
      page.run(() => document.querySelector('#palette button').getBoundingClientRect().top);
  const palette = await first();
  const before = await places();
  for (const lines
           of [['fill 1 1 5 10 a'],
               ['paint 3 3 .'],
               ['fill 1 1 5 10 .'],
               ['paint 1 1 a', 'paint 2 2 a'],
               ['pin 1 1'],
               ['fill 1 1 2 10 b', 'fill 4 1 5 10 c']]) {
    await page.run((one) => bench.stroke(one), lines);
    await trial.judged();
    assert.equal(await places(), before, lines[0]);
  }
  await page.run(() => bench.stroke(['fill 1 1 5 10 a', 'paint 3 3 b']));
  await page.until(
      () => !['–', ''].includes(document.getElementById('grade')?.textContent ?? 'no grade')
  );  // it comes once the user rests
  assert.equal(await places(), before, 'graded');
  for (let count = 5; count <= 13; count++) {
    await page.click('[data-action="colour-add"]');
    await trial.settled();
    await page.until((wanted) => bench.state.colours.length === wanted, count);
    assert.equal(await first(), palette, `${count} colours`);
  }
}

// Where the first cell lies in the window, and how large it is.
const placeOfGrid = (page) => page.run(() => {
  const {left, top} = sheet.view.getBoundingClientRect();
  return [left + sheet.geometry.x(0), top + sheet.geometry.y(0), sheet.geometry.cell].join();
});
const isCut = (page) => page.run(() => !document.getElementById('cut').hidden);

/**
 * A picture that is fitted stays where it is, and its clues are whole, also once they have as many
 * blocks as their lines can have.
 */
export async function pictureStays({trial, page}) {
  await page.click('#new-go');
  await isOpen(page);
  const before = await placeOfGrid(page);
  for (let col = 1; col <= 19; col += 2) await trial.drag([[8, col]]);
  for (let row = 1; row <= 15; row += 2) await trial.drag([[row, 10]]);
  await page.click('[data-tool="bucket"]');
  await trial.drag([[1, 1]]);
  assert.equal(await placeOfGrid(page), before);
  assert.equal(await isCut(page), false);
}

const placeOfMenus = (page) => page.run(
    () => ['menus', 'quick'].map(
                                (id) => document.getElementById(id).getBoundingClientRect().left
    ).join()
);

/**
 * Strokes, what is said of them, and whether a file has them move no cell and no menu; clues that
 * have no room are told, and a press there shows more.
 */
export async function stillPoint(user) {
  const {page, trial} = user;
  await user.press('#new-go');
  await isOpen(page);
  const [before, menus] = [await placeOfGrid(page), await placeOfMenus(page)];
  for (const row of [2, 4, 6]) await user.stroke([row, 3]);
  await page.run(
      () => bench.stroke(Array.from({length: 10}, (_, at) => `paint 8 ${2 * at + 1} a`)
      ).then(() => true)
  );
  await user.tool('bucket');
  await user.stroke([1, 1]);
  await isKept(page);
  assert.equal(await placeOfGrid(page), before, 'nothing moves');
  assert.match(await trial.text('#title'), /not in a file/);
  assert.equal(await placeOfMenus(page), menus, 'kept');
  await page.press('Control+s');
  await page.until(() => !/not in a file/.test(document.getElementById('title').textContent));
  assert.equal(await placeOfMenus(page), menus, 'saved');
  assert.equal(await isCut(page), false, 'ten blocks stand whole');
  const side = await page.run(() => innerWidth) > 1500 ?
      120 :
      60;  // a large window has room for all clues of 60 lines
  await trial.open(ppmOf(noise(side, side, '.abc')), 'long clues');
  await page.until(() => !document.getElementById('cut').hidden);
  assert.match(await trial.text('#cut'), /^([1-9][0-9]* clues cut off|Zoom in for numbers)$/);
  const {cell} = await page.run(() => ({cell: sheet.geometry.cell}));
  await user.press('#cut');
  await page.until((side) => sheet.geometry.cell > side, cell);
}

/** A certificate that is dropped is checked against the open picture. */
export async function certificateDropped({browser, url, folder}) {
  const {page, trial, own} = await fresh(browser, url, folder, 'certificate');
  await page.run((text) => takeFile(new File([text], 'cross.ppm')), ppmOf(['.a.', 'aaa', '.a.']));
  await isOpen(page);
  await trial.judged();
  const certificate = await page.run(() => certificateText());
  assert.match(certificate, /^nono(?:cert 1|lemma 2)\n/);
  await drop(page, own, 'cross.cert', certificate);
  await saysThat(page, 'It proves that this picture is the only solution.');
  assert.equal(await page.run(() => document.getElementById('said').dataset.kind), '');
  await page.run(() => bench.stroke(['fill 1 1 3 3 .', 'paint 1 1 a', 'paint 2 2 a']));
  await drop(page, own, 'cross.cert', certificate);
  await saysThat(page, 'does not prove this picture');
  await page.run(() => bench.stroke(['pin 1 1']));
  await trial.judged();
  const given = await page.run(() => certificateText());
  assert.match(given, /^nono(?:cert|lemma) 2\ngiven 1 1\n/);
  await drop(page, own, 'given.cert', given);
  await saysThat(page, 'only solution with its given cells');
  await page.run(() => bench.stroke(['unpin 1 1']));
  await drop(page, own, 'given.cert', given);
  await saysThat(page, 'relies on given cells that this puzzle does not have');
  await page.close();
}

/** What is wrong with a certificate is said in words, beside those of the checker. */
export async function certificateInWords({browser, url, folder}) {
  const {page, trial, own} = await fresh(browser, url, folder, 'words');
  await trial.open(ppmOf(['.a.', 'aaa', '.a.']), 'cross');
  await trial.judged();
  const certificate = await page.run(() => certificateText());
  const wanted = {
    'nonocert 1\nline r 9\n':
        '(certificate Place at line 2). Its line 2 names a row, column or cell that this picture does not have.',
    'nonocert 1\nnonsense\n':
        '(certificate BadLine at line 2). Its line 2 is not a line of a certificate.',
    'nonocert 1\ndead r 2\n':
        '(certificate NotDead at line 2). What its line 2 rules out is possible in this picture.',
    'nonocert 1\ndone\n':
        '(certificate NotDone at line 2). At its line 2, a cell may still have another colour than in this picture.',
    'nonocert 1\nline r 1\n':
        '(certificate Ended at line 3). It ends too early: its line 3 is missing.',
    [`${certificate}done\n`]: `. Its line ${certificate.split('\n').length} comes after its end.`,
  };
  for (const [text, words] of Object.entries(wanted)) {
    await drop(page, own, 'wrong.cert', text);
    await saysThat(page, words);
  }
  await page.close();
}

// A picture whose tree repeats much: its certificate with lemmas is shorter.
const LEARNT = [
  'a...a....a..',
  '.a..a.a.a.a.',
  'a..aa.a..a..',
  'aaaa...a.a..',
  'aa..a..aaa..',
  '.a.......a..',
  '.a....aa.aaa',
  '..aaaa......',
  '...aa.a.a.aa',
  'a..a..aa..aa',
  '.aa....aa.aa',
  '...a...aaa.a'
];

/**
 * Where a certificate with lemmas is shorter it is saved; one that is dropped is checked against
 * the open picture.
 */
export async function lemmasSavedAndDropped({browser, url, folder}) {
  const {page, trial, own} = await fresh(browser, url, folder, 'lemmas');
  await page.run((text) => takeFile(new File([text], 'learnt.ppm')), ppmOf(LEARNT));
  await isOpen(page);
  await trial.judged();
  await act(page, 'certificate');
  const certificate = (await downloaded(page, own, '.cert')).content.toString();
  assert.match(certificate, /^nonolemma 2\n/);
  await drop(page, own, 'learnt.cert', certificate);
  await saysThat(page, 'It proves that this picture is the only solution.');
  await drop(page, own, 'cut.cert', certificate.slice(0, -5));
  await saysThat(page, 'does not prove this picture');
  await drop(page, own, 'crlf.cert', certificate.replaceAll('\n', '\r\n'));
  await saysThat(
      page, 'does not prove this picture (certificate NotCert at line 1). Its lines end with CR LF'
  );
  await drop(page, own, 'wide.cert', Buffer.from(`\ufeff${certificate}`, 'utf16le'));
  await saysThat(page, 'It is UTF-16');
  await page.run(() => bench.stroke(['paint 12 12 .']));
  await drop(page, own, 'learnt.cert', certificate);
  await saysThat(page, 'does not prove this picture');
  await drop(page, own, 'given.cert', `nonolemma 2\ngiven 1 1\n${certificate.slice(12)}`);
  await saysThat(page, 'does not prove this picture');
  await page.close();
}

/**
 * A puzzle that is not unique goes out with a word of that; what is pasted and is no puzzle is
 * told.
 */
export async function warned({browser, url, folder}) {
  const {page, trial} = await fresh(browser, url, folder, 'warned');
  await trial.open(ppmOf(['a.', '.a']), 'two');
  await trial.judged();
  for (const id of ['export-xml', 'export-empty', 'export-non']) {
    await page.run(() => document.getElementById('said').replaceChildren());
    await page.run((one) => runAction(one), id);
    await saysThat(page, 'Another picture has the same clues');
  }
  await page.run(() => bench.stroke(['fill 1 1 2 2 a']));
  await trial.judged();
  await page.run(() => runAction('export-xml'));
  await saysThat(page, 'two.xml saved.');
  assert.doesNotMatch(await said(page), /Another picture/);
  await page.run(() => {
    const data = new DataTransfer();
    data.setData('text/plain', 'some words, no puzzle');
    document.body.dispatchEvent(
        new ClipboardEvent('paste', {clipboardData: data, bubbles: true, cancelable: true})
    );
  });
  await saysThat(page, 'What was pasted could not be opened');
  await page.close();
}

/** Why tells of colours of the palette alone, by name, where the session leaves others open too. */
export async function whyNames({trial, page}) {
  // Painted stroke by stroke, the bench keeps reasons with as little as they need: a cell that is
  // no background, or no black, for one.
  await trial.open(ppmOf(Array(6).fill('......')), 'why');
  await page.run(() => bench.stroke(['colour add 0 0 0', 'colour add 200 40 40']));
  const rows = noise(6, 6, '.ab.', 1);
  for (const [row, line] of rows.entries()) {
    for (const [col, letter] of [...line].entries())
      if (letter !== '.')
        await page.run((one) => bench.stroke([one]), `paint ${row + 1} ${col + 1} ${letter}`);
  }
  const asked = await page.run(async () => {
    const lines = [];
    for (let row = 1; row <= 6; row++)
      for (let col = 1; col <= 6; col++)
        for (const letter of '.ab') lines.push(`why ${row} ${col} ${letter}`);
    const answers = [await bench.ask(lines)].flat();
    const at =
        answers.findIndex((one) => one.premises?.some((premise) => /[c-o]/.test(premise.letters)));
    return at < 0 ? null : lines[at].split(' ').slice(1, 3).map(Number);
  });
  assert.ok(asked, 'some reason leaves a colour open that the palette does not have');
  await page.press('w');
  await trial.drag([asked]);
  await page.until(
      (wanted) => document.querySelector('#why h3')?.textContent.startsWith(wanted),
      phrase('view.rowColumnWhyNot', {row: asked[0], col: asked[1]})
  );
  assert.doesNotMatch(await trial.text('#why'), /\b[c-o]\b/);
  const names = await page.run(
      () => [...document.querySelectorAll('#why .swatch-chip')].map((one) => one.textContent)
  );
  assert.ok(
      names.length >= 3 && names.every((name) => ['white', 'black', 'red'].includes(name)),
      names.join()
  );
}

/**
 * A given cell has its mark on the page, in Play and on paper, also one of the background; colours
 * that are alike are told.
 */
export async function givensAndColours({browser, url, folder}) {
  const {page, trial} = await fresh(browser, url, folder, 'givens');
  await trial.open(
      ppmOf(
          ['ab..', '.c..', '....', 'abc.'],
          {'.': '255 255 255', a: '0 0 0', b: '12 12 12', c: '250 250 250'}
      ),
      'givens'
  );
  await page.run(() => bench.stroke(['pin 1 1', 'pin 1 3', 'pin 2 2']));
  await trial.judged();
  const diamond = (canvas, x, y, side) => page.run((name, left, top, wide) => {
    const {data} = document.querySelector(name).getContext('2d'
    ).getImageData(Math.round(left + wide * 0.24), Math.round(top + wide * 0.24), 1, 1);
    return [...data].slice(0, 3).join();
  }, canvas, x, y, side);
  const {at, cell} = await page.run(
      () => ({
        at: [[0, 0], [0, 2], [1, 1]].map(([row,
                                           col]) => [sheet.geometry.x(col), sheet.geometry.y(row)]),
        cell: sheet.geometry.cell
      })
  );
  for (const [x, y] of at) assert.equal(await diamond('.cells', x, y, cell), '255,255,255');
  assert.match(
      await trial.text('#near'),
      /the background and “darker white” \(c\); “black” \(a\) and “lighter black” \(b\)/
  );
  await page.run(() => {
    window.print = () => {};
  });
  await page.run(() => {
    runAction('export-empty');
  });
  await page.until(() => /cannot tell the clues apart/.test(document.body.textContent));
  await page.press('Control+p');
  await page.until(() => document.querySelector('dialog[open]'));
  assert.match(await trial.text('dialog'), /Too similar.* So the sheet has letters/);
  assert.deepEqual(
      await page.run(
          () =>
              [document.querySelector('#print-show').value,
               document.querySelector('#print-show [value="colours"]').disabled]
      ),
      ['letters', true]
  );
  await page.press('Enter');
  await page.until(() => document.querySelectorAll('.printed').length === 2);
  assert.deepEqual(
      await page.run(
          () => [...document.querySelectorAll('.printed')].map(
              (sheet) => sheet.querySelectorAll('polygon').length
          )
      ),
      [3, 0]
  );
  await page.close();
}

/**
 * In the dark, Play begins unscrolled, and black cells stand out from those without a mark by
 * three to one at least.
 */
export async function playInTheDark({browser, url, folder}) {
  const {page, trial} =
      await fresh(browser, url, folder, 'dark', {size: {width: 1280, height: 800}});
  await trial.open(
      ppmOf(Array.from(
          {length: 60},
          (_, row) => Array.from({length: 60}, (_, col) => '.a'[(row * col + row) % 2]).join('')
      )),
      'dark'
  );
  await page.run(() => {
    document.documentElement.dataset.scheme = 'dark';
  });
  await page.run(() => runAction('play'));
  await page.until(() => document.getElementById('play-field'));
  assert.deepEqual(
      await page.run(
          () =>
              [document.getElementById('play-board').scrollTop,
               document.getElementById('play-board').scrollLeft]
      ),
      [0, 0]
  );
  await page.press(' ');
  const [marked, blank] = await page.run(() => {
    const pen = document.getElementById('play-field').getContext('2d');
    const point = (col
    ) => [...pen
              .getImageData(Math.round((col + 0.5) * play.side), Math.round(0.5 * play.side), 1, 1)
              .data]
             .slice(0, 3);
    return [point(0), point(2)];
  });
  const light = (triple) =>
      triple.map((one) => one / 255)
          .map((one) => (one <= 0.04045 ? one / 12.92 : ((one + 0.055) / 1.055) ** 2.4))
          .reduce((sum, one, at) => sum + one * [0.2126, 0.7152, 0.0722][at], 0.05);
  const [a, b] = [light(marked), light(blank)];
  assert.deepEqual(marked, [0, 0, 0]);
  assert.notEqual(a, b, `${marked} on ${blank}`);
  await page.close();
}

/** All puzzles of a set come in: the first is opened, the others go to the library. */
export async function wholeSet({browser, url, folder}) {
  const {page, own} = await fresh(browser, url, folder, 'set');
  await clean(page);
  const puzzle = (title, rows) => `<puzzle><title>${title}</title><solution><image>${
      rows.map((row) => `|${row}|`).join('\n')}</image></solution></puzzle>`;
  await drop(page, own, 'set.xml', `<puzzleset>${puzzle('one', ['X.'])}${puzzle('two', [
               'XX'
             ])}${puzzle('three', ['.X', 'X.'])}</puzzleset>`);
  await saysThat(page, 'The first of 3 puzzles is open, and 2 others went to the library.');
  await isKept(page);
  assert.deepEqual((await cards(page)).map((card) => card.name).sort(), ['set', 'three', 'two']);
  await page.close();
}
