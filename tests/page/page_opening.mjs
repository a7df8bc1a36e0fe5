// Trials of how pictures come into the page, in Chromium: a new picture, files that are dropped,
// pasted or chosen. Each is a test of the runner tests/page/page_test.mjs.
import assert from 'node:assert/strict';
import {readFileSync} from 'node:fs';
import {join} from 'node:path';
import {drop, DUCK, examples, frames, fresh, isOpen, said} from './page_common.mjs';
import {SIZES, SLACK} from './page_trial.mjs';

/** A painted cell within two clicks, by mouse and by keyboard. */
export async function newPicture({page, trial}) {
  await page.click('#new-go');
  await isOpen(page);
  const {rows, columns} = await trial.state();
  assert.deepEqual([columns, rows], [20, 15]);
  await trial.drag([[3, 4]]);
  assert.equal((await trial.picture())[2], '...a................');
  await trial.load();
  await page.run(() => {
    document.getElementById('new-columns').value = '7';
    document.getElementById('new-background').value = '#204060';
  });
  await page.press('Enter');  // the button has the focus
  await isOpen(page);
  const state = await trial.state();
  assert.deepEqual([state.columns, state.colours[0]], [7, [32, 64, 96]]);
}

/** A small PNG comes in cell by cell, with its own colours. */
export async function droppedPng({page, folder, trial}) {
  await drop(page, folder, 'duck.png', readFileSync(new URL('duck.png', examples)));
  await page.until(
      () =>
          document.querySelector('#import-facts')?.textContent.includes('10 by 10 cells, 4 colours')
  );
  await page.shot(join(folder, 'importing.png'));
  await page.press('Enter');
  await isOpen(page);
  const state = await trial.state();
  assert.deepEqual(state.picture, DUCK);
  assert.deepEqual(state.colours, [[255, 255, 255], [250, 210, 40], [240, 130, 20], [20, 20, 20]]);
  assert.equal(state.maxval, 255);
}

/**
 * A photo of 12 megapixels that is pasted: its preview follows each change, its part, size and
 * colours are what was chosen.
 */
export async function pastedPhoto({page, folder, trial}) {
  await page.run(async () => {
    const canvas = Object.assign(document.createElement('canvas'), {width: 4000, height: 3000});
    const pen = canvas.getContext('2d');
    const sky = pen.createLinearGradient(0, 0, 0, 3000);
    for (const [at, ink] of [[0, '#8fc7ff'], [0.6, '#eaf6ff'], [0.6, '#3c7a2c'], [1, '#204d18']])
      sky.addColorStop(at, ink);
    pen.fillStyle = sky;
    pen.fillRect(0, 0, 4000, 3000);
    for (const [ink, ...box] of [
             ['#e8d8b0', 1330, 1125, 1330, 1125],
             ['#c03028', 1160, 845, 1670, 375],
             ['#503820', 1830, 1595, 330, 655]]) {
      pen.fillStyle = ink;
      pen.fillRect(...box);
    }
    const blob = await new Promise((go) => canvas.toBlob(go, 'image/jpeg', 0.85));
    const clipboardData = new DataTransfer();
    clipboardData.items.add(new File([blob], 'photo.jpg', {type: 'image/jpeg'}));
    dispatchEvent(new ClipboardEvent('paste', {clipboardData}));
  });
  const facts = (text) => page.until(
      (wanted) => document.querySelector('#import-facts')?.textContent.includes(wanted), text
  );
  await facts('40 by 30 cells, 6 colours');
  const times = [];
  for (const [id, value, wanted] of [
           ['import-columns', '120', '120 by 90 cells'],
           ['import-colours', '16', 'colours'],
           ['import-colours', '2', '2 colours'],
           ['import-columns', '60', '60 by 45 cells'],
           ['import-colours', '8', 'colours']]) {
    await page.run((one, text) => {
      const field = document.getElementById(one);
      field.value = text;
      field.dispatchEvent(new Event('input', {bubbles: true}));
    }, id, value);
    await frames(page);
    await facts(wanted);
    times.push(await page.run(() => Number(document.querySelector('#import-preview').dataset.ms)));
  }
  for (const left of [300, 305, 310, 315]) {  // a part is taken
    await page.run((value) => {
      const field = [...document.querySelectorAll('.importing label')]
                        .find((one) => one.textContent === 'Left')
                        .querySelector('input');
      field.value = value;
      field.dispatchEvent(new Event('input', {bubbles: true}));
    }, left);
    await frames(page);
    times.push(await page.run(() => Number(document.querySelector('#import-preview').dataset.ms)));
  }
  await page.run(
      () => [...document.querySelectorAll('.importing button')]
                .find((one) => one.textContent === 'Whole image')
                .click()
  );
  const middle = [...times].sort((one, two) => one - two)[Math.floor(times.length / 2)];
  assert.ok(middle <= 100 * SLACK, `previews took ${times.join(', ')} ms`);
  await page.shot(join(folder, 'photo.png'));
  const box = await page.run(() => {
    const {left, top, width, height} =
        document.querySelector('#import-source').getBoundingClientRect();
    return [left, top, width, height];
  });
  const at = (x, y) => [box[0] + box[2] * x, box[1] + box[3] * y];
  await page.drag([at(0.25, 0.25), at(0.4, 0.5), at(0.75, 0.75)]);
  await facts('60 by 45 cells');
  await page.press('Enter');
  await isOpen(page);
  const state = await trial.state();
  assert.deepEqual([state.columns, state.rows], [60, 45]);
  assert.ok(state.colours.length > 4 && state.colours.length <= 8, String(state.colours.length));
}

/** Dark and light by a threshold, turned. */
export async function twoColours({page, folder, trial}) {
  await drop(page, folder, 'apple.png', readFileSync(new URL('duck.png', examples)));
  await page.until(() => document.querySelector('#import-facts')?.textContent);
  await page.run(
      () => [...document.querySelectorAll('.importing label')]
                .find((one) => one.textContent.includes('Two colours'))
                .querySelector('input')
                .click()
  );
  await page.until(() => document.querySelector('#import-facts').textContent.includes('2 colours'));
  await page.press('Enter');
  await isOpen(page);
  assert.deepEqual((await trial.state()).colours, [[255, 255, 255], [0, 0, 0]]);
}

/** A picture with another maxval has 8-bit samples, so a colour that is added stays what it is. */
export async function otherMaxval({page, folder, trial}) {
  await drop(page, folder, 'one.ppm', 'P3\n2 2\n1\n1 1 1 1 0 0\n0 0 0 1 1 1\n');
  await isOpen(page);
  const state = await trial.state();
  assert.deepEqual(
      [state.maxval, state.colours, state.picture],
      [255, [[255, 255, 255], [255, 0, 0], [0, 0, 0]], ['.a', 'b.']]
  );
  await page.run(() => bench.stroke(['colour add 200 100 50']));
  assert.deepEqual((await trial.state()).colours[3], [200, 100, 50]);
  const raw = Buffer.concat([Buffer.from('P6 2 1 15\n'), Buffer.from([15, 15, 15, 15, 7, 0])]);
  await drop(page, folder, 'two.ppm', raw);
  await page.until(() => bench.state.columns === 2 && bench.state.rows === 1);
  assert.deepEqual((await trial.state()).colours, [[255, 255, 255], [255, 119, 0]]);
}

/**
 * A photo of more pixels than a camera's is made smaller while it is read, and becomes a puzzle.
 */
export async function largePhoto({page}) {
  await page.run(async () => {
    const canvas = Object.assign(document.createElement('canvas'), {width: 6000, height: 4000});
    const pen = canvas.getContext('2d');
    pen.fillStyle = '#fff';
    pen.fillRect(0, 0, 6000, 4000);
    pen.fillStyle = '#c02020';
    pen.fillRect(0, 0, 3000, 4000);
    const blob = await new Promise((go) => canvas.toBlob(go, 'image/jpeg'));
    takeFile(new File([blob], 'photo.jpg', {type: 'image/jpeg'}));
  });
  await page.until(() => document.querySelector('dialog[open] .importing'));
  await page.press('Enter');
  await isOpen(page);
  const {rows, columns, picture} = await page.run(() => bench.state);
  assert.deepEqual(
      [columns, rows, new Set(picture).size, /^(.)\1{19}(.)\2{19}$/.test(picture[0])],
      [40, 27, 1, true]
  );
}

/** What is no picture, or too large, is told and changes nothing. */
export async function refusedFiles({page, folder}) {
  const head = Buffer.concat([
    Buffer.from('\x89PNG\r\n\x1a\n\0\0\0\rIHDR', 'latin1'),
    Buffer.from([0, 0, 0x4e, 0x20, 0, 0, 0x4e, 0x20, 8, 2, 0, 0, 0, 0, 0, 0, 0])
  ]);
  const tries = {
    'large.png': [head, /20,000 by 20,000 pixels; the page reads at most 100,000,000/],
    'broken.png': [
      Buffer.concat([head.subarray(0, 16), Buffer.from([0, 0, 0, 9, 0, 0, 0, 9]), head.subarray(24)]
      ),
      /browser does not read/
    ],
    'long.bin': [Buffer.alloc(17 << 20, 65), /16 MiB/],
    'noise.bin': [Buffer.from([0, 1, 2, 3, 255]), /neither a picture nor a puzzle/],
    'bad.ppm': ['P3 2 2 255 1 2 x', /is not a number/],
    'bad.xml': ['<puzzle><b>', /not closed/],
    'bad.non': ['width 2\nheight 1\nrows\n3\ncolumns\n1\n1\n', /longer than its line|not opened/],
    'empty': ['', /neither a picture nor a puzzle/]
  };
  for (const [name, [content, wanted]] of Object.entries(tries)) {
    await page.run(() => {
      document.getElementById('said').textContent = '';
    });
    await drop(page, folder, name, content);
    await page.until(
        () => document.getElementById('said').textContent.includes('could not be opened')
    );
    assert.match(await said(page), wanted, name);
    assert.equal(await page.run(() => bench.state), null, name);
  }
}

/** A file that is dropped or pasted while a dialog is open is taken: the dialog is left. */
export async function droppedOnDialogs({page, folder, trial}) {
  const duck = readFileSync(new URL('duck.png', examples));
  const opened = (wanted) => page.until((name) => bench.name === name, wanted);
  await drop(page, folder, 'first.png', duck);
  await page.until(() => document.querySelector('#dialog-title')?.textContent.startsWith('first'));
  await drop(page, folder, 'second.png', duck);  // beside the dialog and over it
  await page.until(() => document.querySelector('#dialog-title')?.textContent.startsWith('second'));
  assert.equal(await page.run(() => document.querySelectorAll('dialog').length), 1);
  await page.press('Enter');
  await isOpen(page);
  assert.deepEqual(await trial.picture(), DUCK);
  for (const [dialog, name] of [['play', 'flower'], ['resize', 'apple'], ['keys', 'heart']]) {
    await page.run((id) => runAction(id), dialog);
    await page.until(() => document.querySelector('dialog[open]'));
    await drop(page, folder, `${name}.ppm`, readFileSync(new URL(`${name}.ppm`, examples)));
    await opened(name);
    assert.equal(
        await page.run(() => document.querySelectorAll('dialog').length), 0, `${dialog} is left`
    );
  }
  await page.run(() => runAction('keys'));
  await page.run((text) => {
    const clipboardData = new DataTransfer();
    clipboardData.setData('text/plain', text);
    dispatchEvent(new ClipboardEvent('paste', {clipboardData}));
  }, readFileSync(new URL('boat.ppm', examples), 'utf8'));
  await opened('pasted');
  await page.run(() => runAction('keys'));
  await drop(page, folder, 'none.bin', 'x'.padEnd(20, '\0'));
  await page.until(
      () => document.getElementById('said').textContent.includes('“none.bin” could not be opened')
  );
}

/** Clues without a goal open, and a search that would not end is stopped. */
export async function cluesAlone({browser, url, folder}) {
  const {page, trial, own} = await fresh(browser, url, folder, 'clues');
  await drop(page, own, 'three.non', 'width 3\nheight 2\nrows\n3\n1\ncolumns\n1\n2\n1\n');
  await isOpen(page);
  assert.deepEqual(await trial.picture(), ['aaa', '.a.']);
  // Two cells in each line of 60 by 60 but the last, which has three: no picture has as many cells
  // by rows as by columns.
  const lines = (last) => [...Array(59).fill('1,1'), last].join('\n');
  await drop(
      page,
      own,
      'none.non',
      `width 60\nheight 60\nrows\n${lines('1,1')}\ncolumns\n${lines('1,1,1')}\n`
  );
  await page.until(
      () => document.querySelector('dialog[open]')?.textContent.includes('Searching for a picture')
  );
  await page.press('Enter');
  await page.until(() => document.getElementById('said').textContent.includes('stopped'));
  assert.deepEqual(await trial.picture(), ['aaa', '.a.']);
  await page.close();
}

/**
 * Keys and pasted text leave a picture alone that the start screen covers; behind it the work goes
 * on.
 */
export async function coveredPicture({page, trial}) {
  await page.click('#new-go');
  await isOpen(page);
  await trial.drag([[3, 4]]);
  const before = await trial.picture();
  await page.run(() => runAction('new'));
  await trial.press('Control+z', 'Control+a', 'Delete', 'Alt+ArrowDown', 'Control+Alt+m', 's', 'n');
  await page.run(() => {
    const clipboardData = new DataTransfer();
    clipboardData.setData('text/plain', 'aa\na\n');
    dispatchEvent(new ClipboardEvent('paste', {clipboardData}));
  });
  await trial.settled();
  assert.deepEqual(
      [await trial.picture(), await page.run(() => [tools.name, selection.box, bench.past.length])],
      [before, ['pencil', null, 1]]
  );
  await page.click('#start-back');
  await trial.press('Control+z');
  assert.equal(
      (await trial.picture()).join('').replaceAll('.', ''), '', 'an undo takes back what is seen'
  );
}

/** Nothing is wider than the window of a phone. */
export async function narrowStart({browser, url, folder}) {
  const {page, own} = await fresh(browser, url, folder, 'phone', {size: SIZES.phone});
  const wide = () => page.run(
      () => [...document.querySelectorAll('#start *, dialog *')]
                .filter((one) => one.getBoundingClientRect().right > innerWidth + 1)
                .map((one) => one.outerHTML.slice(0, 80))
  );
  assert.deepEqual(await wide(), []);
  await page.shot(join(folder, 'start-phone.png'));
  await drop(page, own, 'duck.png', readFileSync(new URL('duck.png', examples)));
  await page.until(() => document.querySelector('#import-facts')?.textContent);
  await frames(page);
  assert.deepEqual(await wide(), []);
  await page.shot(join(folder, 'importing-phone.png'));
  await page.close();
}
