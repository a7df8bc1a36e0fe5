// Trials of pictures that come in: the palette while one chooses, sliders with the verdict, large
// photos, palette files.
import assert from 'node:assert/strict';
import {readFileSync, writeFileSync} from 'node:fs';
import {join} from 'node:path';
import {downloaded, drop, examples, fresh, isOpen, said} from './page_common.mjs';
import {drawn} from './page_icons.mjs';
import {pause} from './page_browser.mjs';
import {ppmOf} from './page_trial.mjs';

const colours = (page) => page.run(
    () => [...document.querySelectorAll('#import-palette button')].map((one) => one.title)
);
const facts = (page, text, ms = 10000) => page.until(
    (wanted) => document.querySelector('#import-facts')?.textContent.includes(wanted), text
);

/** Opens the dialog on an icon of the tests. */
async function openIcon(page, name, side = 200) {
  const {image} = drawn(name, side);
  await page.run(async (width, data) => {
    const canvas = Object.assign(document.createElement('canvas'), {width, height: width});
    canvas.getContext('2d').putImageData(
        new ImageData(
            Uint8ClampedArray.from(atob(data), (sign) => sign.charCodeAt(0)), width, width
        ),
        0,
        0
    );
    const blob = await new Promise((go) => canvas.toBlob(go, 'image/png'));
    takeFile(new File([blob], 'icon.png', {type: 'image/png'}));
  }, side, Buffer.from(image.data).toString('base64'));
  await page.until(() => document.querySelector('#import-facts')?.textContent);
}

/** Moves a slider by keys, or by a press on its track: to its least or its greatest value. */
async function slide(user, id, toMost) {
  const {page} = user;
  if (user.byKeys) {
    await user.tabTo(`#${id}`);
    return page.press(toMost ? 'End' : 'Home');
  }
  const [x, y] = await page.middle(`#${id}`);
  const [left, right] = await page.run((one) => {
    const box = document.getElementById(one).getBoundingClientRect();
    return [box.left, box.right];
  }, id);
  const to = [toMost ? right - 3 : left + 3, y];
  if (user.input === 'mouse') return page.drag([to]);
  const send = (type, points) => page.send(
      'Input.dispatchTouchEvent', {type, touchPoints: points.map(([a, b]) => ({x: a, y: b}))}
  );
  await send('touchStart', [[x, y]]);
  for (let step = 1; step <= 6; step++) {
    await pause(30);
    await send('touchMove', [[x + ((to[0] - x) * Math.min(step, 4)) / 4, y]]);
  }
  await pause(100);  // at rest: else the browser takes the next tap for the end of a fling
  return send('touchEnd', []);
}

/**
 * The palette is shown while one chooses: a colour is locked, replaced, dropped, and all of that
 * taken back.
 */
export async function choosingPoint(user, {page, trial}) {
  await openIcon(page, 'house');
  const first = await colours(page);
  assert.deepEqual(
      [...first].sort(),
      ['#285ac8', '#3c8c40', '#784a28', '#96cdf0', '#a83e2c', '#e8d3a8'].sort(),
      'its own colours'
  );
  const choose = async (colour) => {
    if (user.byKeys) {
      await user.tabTo('#import-palette [aria-checked=true]');
      for (let step = 0; step < 16 &&
           await page.run(
               (wanted) =>
                   document.querySelector('#import-palette [aria-checked=true]').title !== wanted,
      colour
           );
           step++)
        await page.press('ArrowRight');
    } else
      await user.press(`#import-palette [title="${colour}"]`);
    await page.until(
        (wanted) => document.querySelector('#import-palette [aria-checked=true]').title === wanted,
        colour
    );
  };
  await choose('#285ac8');  // the windows
  if (user.byKeys) {
    await user.tabTo('#import-lock');
    await page.press(' ');
  } else
    await user.press('#import-lock');
  await page.until(() => document.querySelector('#import-ink').value.includes('locked'));
  await slide(user, 'import-colours', false);
  await facts(page, '2 colours');
  assert.ok((await colours(page)).includes('#285ac8'), 'what is locked stays');
  await slide(user, 'import-colours', true);
  await facts(page, '6 colours');
  await choose('#a83e2c');
  await user.press('#import-drop');
  await facts(page, '5 colours');
  assert.ok(!(await colours(page)).includes('#a83e2c'), 'dropped');
  await choose('#3c8c40');
  await user.fill('.inks input[list]', 'gold');
  await page.press('Tab');
  await page.until(
      () => [...document.querySelectorAll('#import-palette button')].some(
          (one) => one.title === '#ffd700'
      )
  );
  assert.ok(!(await colours(page)).includes('#3c8c40'), 'replaced');
  await user.press('dialog button.main');
  await isOpen(page);
  const {colours: made} = await trial.state();
  assert.deepEqual(
      made.map((triple) => triple.join()).sort(),
      ['120,74,40', '150,205,240', '232,211,168', '255,215,0', '40,90,200'].sort()
  );
}

/** A colour that is pressed is chosen, though a new preview comes before it is let go. */
export async function pressedColour({browser, url, folder}) {
  const {page} = await fresh(browser, url, folder, 'pressed');
  await openIcon(page, 'house');
  const third = '#import-palette button:nth-of-type(3)';
  const at = await page.middle(third);
  const before = await page.run(() => document.querySelector('#import-preview').toDataURL());
  await page.mouse('mouseMoved', ...at);
  await page.mouse('mousePressed', ...at);
  await page.run(() => {
    const one = document.getElementById('import-brightness');
    one.value = 20;
    one.dispatchEvent(new Event('input', {bubbles: true}));
  });
  await page.until(
      (from) => document.querySelector('#import-preview').toDataURL() !== from, before
  );
  await page.mouse('mouseReleased', ...at);
  await page.until(
      (one) => document.querySelector(one).getAttribute('aria-checked') === 'true', third
  );
  await page.press('Escape');
  await page.close();
}

/** Verdict and grade follow each change; the newest wins. */
export async function slidingPoint(user, {page, trial}) {
  await openIcon(page, 'mug');
  const judged = () => page.until(
      () => /^(Unique.*(easy|medium|hard|expert)|Ambiguous)/
                .exec(document.querySelector('#import-verdict').textContent)
                ?.[0]
  );
  await judged();
  for (const [id, toMost] of [
           ['import-brightness', true],
           ['import-brightness', false],
           ['import-contrast', false],
           ['import-colours', false],
           ['import-specks', true]]) {
    const before = await page.run(() => document.querySelector('#import-preview').toDataURL());
    await slide(user, id, toMost);
    await page.run(
        () => new Promise((go) => requestAnimationFrame(() => requestAnimationFrame(go)))
    );
    if (id === 'import-brightness')
      await page.until(
          (from) => document.querySelector('#import-preview').toDataURL() !== from, before
      );
    const box = await page.run(() => {
      const {top, bottom} = document.querySelector('#import-preview').getBoundingClientRect();
      return [top, bottom, innerHeight];
    });
    if (user.input === 'touch')
      assert.ok(box[0] >= 0 && box[1] <= box[2], `the preview is seen: ${box}`);
  }
  await slide(user, 'import-specks', false);
  const shown = await judged();
  await user.press('dialog button.main');
  await isOpen(page);
  const word = await trial.judged();
  assert.ok(shown.startsWith(word === 'unique' ? 'Unique' : 'Ambiguous'), `${shown}, but ${word}`);
}

/** Line art keeps thin lines; dithering and specks change the picture. */
export async function lineArt({browser, url, folder}) {
  const {page, trial} = await fresh(browser, url, folder, 'lines');
  await openIcon(page, 'outline');
  const tick = (text) => page.run(
      (wanted) => [...document.querySelectorAll('.importing label')]
                      .find((one) => one.textContent.startsWith(wanted))
                      .querySelector('input')
                      .click(),
      text
  );
  const set = (id, value) => page.run((one, text) => {
    const field = document.getElementById(one);
    field.value = text;
    field.dispatchEvent(new Event('input', {bubbles: true}));
  }, id, value);
  const dark = () => page.run(() => {
    const {data} =
        document.querySelector('#import-preview').getContext('2d').getImageData(0, 0, 1000, 1000);
    let count = 0;
    for (let at = 3; at < data.length; at += 4)
      if (data[at] && data[at - 1] < 40 && data[at - 3] < 40) count++;
    return count;
  });
  const drawnNow = async () => {
    await pause(500);
    await page.until(
        () => !document.querySelector('#import-verdict').textContent.startsWith('Looking')
    );
    return dark();
  };
  await tick('Two colours');
  await set('import-threshold', 60);
  const thin = await drawnNow();
  await tick('Line art');
  await set('import-area', 20);
  await page.until(() => document.querySelector('#import-area').checkVisibility());
  const thick = await drawnNow();
  assert.ok(thick > thin * 1.2, `${thin}, ${thick}`);
  await tick('Two colours');
  await tick('Dithering');
  await drawnNow();
  await page.press('Enter');
  await isOpen(page);
  assert.equal((await trial.state()).columns, 40);
  await page.close();
}

/** The image of a puzzle can be adjusted after it was made, as one undo. */
export async function importAdjusted({browser, url, folder}) {
  const {page, trial} = await fresh(browser, url, folder, 'adjusted');
  const isAsked = () => page.until(() => document.querySelector('dialog[open] #import-columns'));
  const columns = () => page.run(() => document.getElementById('import-columns').value);
  await openIcon(page, 'outline');
  await page.press('Enter');
  await isOpen(page);
  const before = await trial.state();
  await page.run(() => bench.become((doc) => ({...doc, about: {title: 'Kept'}})));
  await trial.press('p');
  await page.run(() => runAction('adjust'));
  await isAsked();
  assert.equal(await columns(), String(before.columns));
  await page.run(() => {
    const field = document.getElementById('import-columns');
    field.value = '25';
    field.dispatchEvent(new Event('input', {bubbles: true}));
  });
  await page.until(
      () => /\S/.test(document.getElementById('import-verdict').textContent) &&
          !document.getElementById('import-verdict').textContent.startsWith('Looking')
  );
  await page.click('dialog[open] button.main');
  await page.until(() => bench.state.columns === 25);
  assert.equal(await page.run(() => bench.state.about.title), 'Kept');
  assert.equal((await trial.state()).strokes[0], 1, 'one undo');
  await trial.press('Control+z');
  assert.deepEqual((await trial.state()).picture, before.picture);
  await page.run(() => runAction('adjust'));
  await isAsked();
  assert.equal(await columns(), '25', 'what was chosen stays');
  await page.press('Escape');
  await trial.open(ppmOf(['a.', '.a']), 'other');
  assert.equal(await page.run(() => actions.get('adjust').can()), false);
  await page.close();
}

// A PNG of one bit a pixel: two fifths are white, at the left, and the rest is black.
const bigPng = (page, side) => page.run(async (wide) => {
  const table = Uint32Array.from({length: 256}, (_, at) => {
    let value = at;
    for (let bit = 0; bit < 8; bit++) value = value & 1 ? (value >>> 1) ^ 0xedb88320 : value >>> 1;
    return value;
  });
  const sum = (bytes) => {
    let value = 0xffffffff;
    for (const byte of bytes) value = (value >>> 8) ^ table[(value ^ byte) & 255];
    return ~value >>> 0;
  };
  const four = (value) => [value >>> 24, (value >>> 16) & 255, (value >>> 8) & 255, value & 255];
  const chunk = (name, data) => {
    const body = Uint8Array.from([...[...name].map((sign) => sign.charCodeAt(0)), ...data]);
    return [...four(data.length), ...body, ...four(sum(body))];
  };
  const row = new Uint8Array(1 + wide / 8).fill(255, 1, 1 + wide / 20);
  const packing = new CompressionStream('deflate');
  const packed = new Response(packing.readable).arrayBuffer();
  const writer = packing.writable.getWriter();
  for (let at = 0; at < wide; at++) await writer.write(row);
  await writer.close();
  const png = Uint8Array.from([
    137,
    80,
    78,
    71,
    13,
    10,
    26,
    10,
    ...chunk('IHDR', [...four(wide), ...four(wide), 1, 0, 0, 0, 0]),
    ...chunk('IDAT', new Uint8Array(await packed)),
    ...chunk('IEND', [])
  ]);
  takeFile(new File([png], 'large.png', {type: 'image/png'}));
  return png.length;
}, side);

/** While a photo of 12 megapixels is read, the page says so, from the start screen on. */
export async function largeIsTold({browser, url, folder}) {
  const {page} = await fresh(browser, url, folder, 'told');
  await page.run(() => {
    const line = document.getElementById('said');
    window.heard = [];
    new MutationObserver(
        () => window.heard.push([line.textContent, line.checkVisibility()])
    ).observe(line, {childList: true, characterData: true, subtree: true});
  });
  await bigPng(page, 3504);
  await facts(page, '40 by 40 cells');
  const heard = await page.run(() => window.heard);
  assert.deepEqual(heard.find(([text]) => text.includes('Opening')), ['Opening large', true]);
  assert.equal(await said(page), '', 'the dialog speaks for itself');
  await page.close();
}

/** A picture of 100 megapixels is made smaller while it is read. */
export async function hundredMegapixels({browser, url, folder}) {
  const {page, trial} = await fresh(browser, url, folder, 'hundred');
  await bigPng(page, 10000);
  await facts(page, '40 by 40 cells').catch(async () => {
    throw new Error(await said(page));
  });
  await page.press('Enter');
  await isOpen(page);
  const {picture, colours: own} = await trial.state();
  assert.equal(own.length, 2);
  assert.ok(
      picture.every((row) => /^(.)\1{15}(.)\2{23}$/.test(row) && row[0] !== row[39]), picture[0]
  );
  await page.close();
}

/** A file above 16 MiB is read where it is an image: its head first, and then by the browser. */
export async function longImages({browser, url, folder}) {
  const {page} = await fresh(browser, url, folder, 'long');
  const duck = readFileSync(new URL('duck.png', examples));
  await drop(page, folder, 'long.png', Buffer.concat([duck, Buffer.alloc(18 << 20)]));
  await facts(page, '10 by 10 cells, 4 colours');
  await page.close();
}

/**
 * A palette file gives colours to a picture, the picture's go into one, and a colour is changed by
 * its name.
 */
export async function palettesPoint(user, {page, trial, own}) {
  await trial.open(ppmOf(['ab.', '.aa']));
  const palette = async () => (await trial.state()).colours.map((triple) => triple.join());
  const path = join(own, 'sea.gpl');
  writeFileSync(
      path,
      'GIMP Palette\nName: Sea\n#\n  0   0 128\tnavy\n 70 130 180\tsteel\n250 250 250\n 10  10  10\n190  50  50\n'
  );
  const open = () => user.chooseFile(() => user.menu('picture', 'palette-open'), path);
  await open();
  await page.until(() => document.querySelectorAll('#palette-file button').length === 5);
  await user.press('dialog button.main');
  await page.until(
      () => document.querySelector('dialog .wrong').textContent.includes('Choose a colour')
  );
  await user.press('#palette-file [title^="steel"]');
  await user.press('dialog button.main');
  await page.until(() => bench.state.colours.length === 4);
  assert.deepEqual(await palette(), ['255,255,255', '0,0,0', '200,40,40', '70,130,180']);
  assert.equal(await page.run(() => bench.state.inks[3].name), 'steel');
  await page.press('Control+z');
  await trial.settled();
  await open();
  await page.until(() => document.querySelectorAll('#palette-file button').length === 5);
  await user.press('dialog .buttons button:nth-of-type(2)');  // the nearest
  await page.until(() => bench.state.colours[1].join() === '10,10,10');
  assert.deepEqual(await palette(), ['250,250,250', '10,10,10', '190,50,50']);
  await user.colour('b');
  await user.fill('#colour-named', 'tomato');
  await page.press('Enter');
  await page.until(() => bench.state.colours[2].join() === '255,99,71');
  await page.run(() => document.activeElement.blur());
  await user.menu('picture', 'palette-save');
  await user.press('dialog button.main');
  assert.match(
      (await downloaded(page, own, 'trial.gpl')).content.toString(),
      /^GIMP Palette\nName: trial\nColumns: 0\n#\n250 250 250\t.*\n 10  10  10\t.*\n255  99  71\ttomato\n$/
  );
}

/**
 * A palette that is dropped is told what it is, with a picture or without one; one that is damaged
 * says why.
 */
export async function droppedPalettes({browser, url, folder}) {
  const {page, trial} = await fresh(browser, url, folder, 'dropped-palettes');
  await drop(page, folder, 'two.hex', 'ff0000\n00ff00\n');
  await page.until(
      () =>
          document.getElementById('said').textContent.includes('is a palette. Open a picture first')
  );
  await trial.open(ppmOf(['ab.']));
  await drop(page, folder, 'bad.pal', 'JASC-PAL\r\n0100\r\n3\r\n1 2 3\r\n');
  await page.until(
      () => document.getElementById('said').textContent.includes('the count in line 3')
  );
  await drop(page, folder, 'two.hex', 'ff0000\n00ff00\n');
  await page.until(() => document.querySelectorAll('#palette-file button').length === 2);
  await page.press('Escape');
  await page.until(() => !document.querySelector('dialog[open]'));
  await openIcon(page, 'house');
  await drop(
      page, folder, 'three.hex', 'a0c8e8\nb04030\n408040\n'
  );  // the dialog for pictures takes them
  await page.until(
      () => [...document.querySelectorAll('#import-palette button')].every(
          (one) => ['#a0c8e8', '#b04030', '#408040'].includes(one.title)
      )
  );
  await page.press('Escape');
  await page.close();
}

/** The check for the colour-blind names the pairs that clash. */
export async function visionPoint(user, {page, trial}) {
  await trial.open(
      ppmOf(['abc', '..a'], {'.': '255 255 255', a: '200 90 60', b: '120 130 50', c: '40 60 220'})
  );
  await user.menu('check', 'vision');
  await page.until(() => document.querySelectorAll('.visions figure').length === 3);
  const texts = await page.run(() => Object.fromEntries([
    ...document.querySelectorAll('.visions figure')
  ].map((one) => [one.dataset.kind, one.querySelector('p').textContent])));
  assert.match(texts.deutan, /^Look alike: “.*” \(a\) and “.*” \(b\)\.$/);
  assert.equal(texts.tritan, 'No two colours look alike.');
  if (user.byKeys)
    await page.press('Enter');
  else
    await user.press('dialog button.main');
  await page.until(() => !document.querySelector('dialog[open]'));
}
