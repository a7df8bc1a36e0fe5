// Trials of the dialog for pictures and of what comes in: colours that look alike, a colour that is
// picked, the contact sheet, drawings and other images, sheets of sprites, and the table of several
// files.
import assert from 'node:assert/strict';
import {readdirSync, writeFileSync} from 'node:fs';
import {join} from 'node:path';
import {
  NO_PICKERS,
  clean,
  downloaded,
  drop,
  facts,
  fresh,
  isOpen,
  openDrawn,
  said
} from './page_common.mjs';
import {SIZES, ppmOf} from './page_trial.mjs';
import '../../page/test/limits.mjs';
import {writeZip} from '../../page/formats/zip.js';

const palette = (page) => page.run(
    () => [...document.querySelectorAll('#import-palette button')].map((one) => one.title)
);
const judged = (page) => page.until(
    () => /^(Unique|Ambiguous|Not decided)/.test(document.querySelector('#import-verdict'
    ).textContent)
);
const set = (page, id, value) => page.run((one, text) => {
  const field = document.getElementById(one);
  field.value = text;
  field.dispatchEvent(new Event('input', {bubbles: true}));
}, id, value);

// Two greys and two reds that look alike; 401 pixels, so that it is no pixel art.
const SHADES = [
  ['#fff', 0, 0, 401, 401],
  ['rgb(40 40 40)', 20, 20, 180, 180],
  ['rgb(52 52 52)', 200, 20, 160, 180],
  ['rgb(200 0 0)', 20, 200, 180, 180],
  ['rgb(212 0 0)', 200, 200, 100, 180],
  ['rgb(0 0 200)', 300, 200, 61, 180]
];

/**
 * What is proposed can be told apart; more colours are said to look alike, and one click merges
 * them.
 */
export async function alikePoint(user, {page, trial}) {
  await openDrawn(page, 401, 401, SHADES);
  await facts(page, '4 colours');
  const near = () => page.run(() => document.getElementById('import-near').textContent);
  assert.equal(await near(), '');
  await set(page, 'import-colours', 6);
  await facts(page, '6 colours');
  assert.match(await near(), /^Too similar to tell apart:/);
  await page.until(() => document.querySelectorAll('#import-near .alike .swatch').length === 4);
  await user.press('#import-merge');
  await facts(page, '4 colours');
  assert.equal(await near(), '');
  assert.deepEqual(
      (await palette(page)).sort(),
      ['#0000c8', '#282828', '#c80000', '#ffffff'],
      'of two the one with more cells'
  );
  await user.press('dialog button.main');
  await isOpen(page);
  assert.equal((await trial.state()).colours.length, 4);
}

/** A click on the image keeps its colour, and there is one more; by keys a ring is moved to it. */
export async function pickingPoint(user, {page}) {
  await openDrawn(page, 401, 401, [...SHADES, ['rgb(250 200 0)', 20, 380, 8, 8]]);
  await set(page, 'import-colours', 2);
  await facts(page, '2 colours');
  const at = await page.run(() => {
    const box = document.getElementById('import-source').getBoundingClientRect();
    return [box.left + (box.width * 330) / 401, box.top + (box.height * 300) / 401];
  });
  if (user.byKeys) {
    await user.tabTo('#import-source');
    await page.press(...Array(13).fill('ArrowRight'), ...Array(10).fill('ArrowDown'), 'Enter');
  } else if (user.input === 'mouse')
    await page.drag([at]);
  else
    await page.touch([at]);
  await page.until(
      () => [...document.querySelectorAll('#import-palette button')].some(
          (one) => one.title === '#0000c8'
      )
  );
  assert.equal(
      await page.run(() => document.querySelector('#import-palette [aria-checked=true]').title),
      '#0000c8',
      'it is chosen'
  );
  assert.match(await page.run(() => document.getElementById('import-ink').value), /locked/);
  await facts(page, '3 colours');
  assert.equal(
      await page.run(() => document.querySelector('.parts input').value),
      '0',
      'a click takes no part'
  );
  await page.press('Escape');
}

/**
 * That pixel art has a pixel for each cell is ticked at that size alone; to tick it takes that
 * size.
 */
export async function pixelsFollowTheSize({page}) {
  await openDrawn(
      page, 40, 30, [['#fff', 0, 0, 40, 30], ['#c00', 5, 5, 10, 10], ['#00c', 21, 3, 7, 1]]
  );
  const state = () => page.run(
      () =>
          [...['import-columns', 'import-rows']
               .map((id) => Number(document.getElementById(id).value)),
           [...document.querySelectorAll('.choices label')]
               .find((one) => one.textContent.startsWith('Pixel art'))
               .querySelector('input')
               .checked]
  );
  assert.deepEqual(await state(), [40, 30, true]);
  await set(page, 'import-columns', 24);
  assert.deepEqual(await state(), [24, 18, false]);
  await page.run(
      () => [...document.querySelectorAll('.choices label')]
                .find((one) => one.textContent.startsWith('Pixel art'))
                .querySelector('input')
                .click()
  );
  assert.deepEqual(await state(), [40, 30, true]);
  await set(page, 'import-columns', 24);
  await set(page, 'import-columns', 40);
  assert.deepEqual(await state(), [40, 30, true]);
  await page.run(() => document.getElementById('import-contacts').click());
  await page.until(() => document.querySelector('.contact[aria-current]'));
  assert.match(
      await page.run(() => document.querySelector('.contact[aria-current]').textContent),
      /^40 by 30, 3 colours/
  );
  const lefts = await page.run(
      () => [...document.querySelectorAll('.contact-row')].map(
          (row) => [...row.children].map((one) => Math.round(one.getBoundingClientRect().left))
      )
  );
  assert.ok(
      lefts.every(
          (row) => row.every((left, at) => left === lefts[0][at] || lefts[0][at] === undefined)
      ),
      JSON.stringify(lefts)
  );
}

/** Sizes by numbers of colours beside one another; one click takes one. */
export async function contactsPoint(user, {page, trial}) {
  await openDrawn(page, 401, 401, SHADES);
  await facts(page, '4 colours');
  await user.press('#import-contacts');
  await page.until(() => document.querySelectorAll('.contact').length >= 12);
  await page.until(
      () => document.querySelector('.contact-row:nth-child(2) .contact:nth-child(3)[data-word]')
  );
  const labels = await page.run(
      () => [...document.querySelectorAll('.contact span:not(.verdict)')].map(
          (one) => one.textContent
      )
  );
  assert.equal(new Set(labels).size, labels.length, labels.join('; '));
  const text = await page.run(
      () => document.querySelector('.contact-row:nth-child(2) .contact:nth-child(3)').textContent
  );
  assert.match(
      text, /^20 by 20, 4 colours(ambiguous|undecided|unique, (easy|medium|hard|very hard|expert))$/
  );
  await user.press('.contact-row:nth-child(2) .contact:nth-child(3)');
  await facts(page, '20 by 20 cells, 4 colours');
  await judged(page);
  await user.press('dialog button.main');
  await isOpen(page);
  const {columns, colours} = await trial.state();
  assert.deepEqual([columns, colours.length], [20, 4]);
}

const SVG =
    '<?xml version="1.0"?>\n<!-- a flag -->\n<svg xmlns="http://www.w3.org/2000/svg" viewBox="0 0 30 20"><rect width="30" height="20" fill="#ffffff"/><rect width="15" height="20" fill="#c8102e"/></svg>';

// A BMP of 24 bits: as many pixels as rows of triples.
function bmpOf(rows) {
  const [width, height] = [rows[0].length, rows.length];
  const wide = Math.ceil((width * 3) / 4) * 4;
  const file = Buffer.alloc(54 + wide * height);
  file.write('BM');
  file.writeUInt32LE(file.length, 2);
  file.writeUInt32LE(54, 10);
  file.writeUInt32LE(40, 14);
  file.writeInt32LE(width, 18);
  file.writeInt32LE(height, 22);
  file.writeUInt16LE(1, 26);
  file.writeUInt16LE(24, 28);
  rows.forEach(
      (row, at) => row.forEach(
          ([red, green, blue], col) =>
              file.set([blue, green, red], 54 + (height - 1 - at) * wide + col * 3)
      )
  );
  return file;
}

// The same dots as an AVIF without loss, made by avifenc of libavif 0.11.
const AVIF = [
  'AAAAIGZ0eXBhdmlmAAAAAGF2aWZtaWYxbWlhZk1BMUEAAADybWV0YQAAAAAAAAAoaGRscgAAAAAAAAAAcGljdAAAAAAAAAAAAAAAAGxpYmF2aWYAAAAADnBpdG0AAAAAAAEAAAAeaWxvYwAAAABEAAABAAEAAAABAAABGgAAAH',
  'YAAAAoaWluZgAAAAAAAQAAABppbmZlAgAAAAABAABhdjAxQ29sb3IAAAAAamlwcnAAAABLaXBjbwAAABRpc3BlAAAAAAAAAAIAAAACAAAAEHBpeGkAAAAAAwgICAAAAAxhdjFDgSAAAAAAABNjb2xybmNseAABAA0AAIAAAAAX',
  'aXBtYQAAAAAAAAABAAEEAQKDBAAAAH5tZGF0EgAKBzgANhAQ0AIyaRAAAIyBp////gmnqN6R7hD4IRa74nPlDRA+Bz5M+TPkz5M+VCiZ/////////R/qreugj9fnzJRLnpiczZyUvnyzZs2bNmzZs2d67yv/////4qHXofXQt/',
  'KvgRtHA4mNU7iXiXiXiXiesA=='
].join('');

/** Drawings and bitmaps become puzzles; what no browser draws is told what to do. */
export async function comingPoint(user, {page, trial, own}) {
  const open = async (name, content) => {
    writeFileSync(join(own, name), content);
    await user.chooseFile(() => user.press('#open-go'), join(own, name));
  };
  await open(
      'phone.heic',
      Buffer.concat([Buffer.from([0, 0, 0, 24]), Buffer.from('ftypheic'), Buffer.alloc(40)])
  );
  await page.until(() => /HEIC.*PNG or JPEG/.test(document.getElementById('said').textContent));
  await open('scan.tif', Buffer.concat([Buffer.from('II*\0'), Buffer.alloc(40)]));
  await page.until(() => /TIFF.*PNG or JPEG/.test(document.getElementById('said').textContent));
  await open('flag.svg', SVG);
  await facts(page, '40 by 27 cells, 2 colours');
  assert.deepEqual((await palette(page)).sort(), ['#c8102e', '#ffffff']);
  await page.press('Escape');
  await page.until(() => !document.querySelector('dialog[open]'));
  await open(
      'dots.bmp', bmpOf([[[255, 255, 255], [200, 30, 50]], [[20, 150, 60], [255, 255, 255]]])
  );
  await facts(page, '2 by 2 cells, 3 colours');
  await page.press('Escape');
  await page.until(() => !document.querySelector('dialog[open]'));
  await open('dots.avif', Buffer.from(AVIF, 'base64'));
  await facts(page, '2 by 2 cells, 3 colours');
  assert.deepEqual((await palette(page)).sort(), ['#14963c', '#c81e32', '#ffffff']);
  await page.press('Escape');
  await page.until(() => !document.querySelector('dialog[open]'));
  await open('dots.pbm', 'P1\n3 2\n101\n010\n');
  await isOpen(page);
  assert.deepEqual(await trial.picture(), ['a.a', '.a.'], 'black and white, cell by cell');
}

// Four sprites of 8 by 8 with room for more, each a frame with a spot of its own; red and green.
const SPRITES =
    [[0, 0, '#c81e32'], [8, 0, '#14963c'], [0, 8, '#c81e32'], [16, 8, '#14963c']].flatMap(
        ([x, y, colour]) => [[colour, x, y + 1, 7, 6], ['#000', x + 2, y + 2, 2, 3]]
    );

/** A sheet of sprites is cut into puzzles, by the grid that is found or given. */
export async function spritesPoint(user, {page}) {
  await openDrawn(page, 24, 16, SPRITES, {name: 'sheet.png'});
  await user.press('#import-sprites');
  await page.until(
      () => document.getElementById('cut-count')?.textContent === '4 sprites of 8 by 8 pixels'
  );
  await user.fill('#cut-columns', '1');
  await page.until(
      () => /^2 sprites of 24 by 8/.test(document.getElementById('cut-count').textContent)
  );
  await user.fill('#cut-columns', '3');
  await page.until(
      () => /^4 sprites of 8 by 8/.test(document.getElementById('cut-count').textContent)
  );
  await user.press('dialog[open] button.main');
  await page.until(
      () => /^4 pictures of 4/.test(document.getElementById('several-count')?.textContent)
  );
  const names = await page.run(
      () => [...document.querySelectorAll('#several tbody th')].map((one) => one.textContent)
  );
  assert.deepEqual(names, ['sheet 1', 'sheet 2', 'sheet 3', 'sheet 4']);
  await page.press('Escape');
}

// Unique; ambiguous, and one cell mends it; ambiguous.
const FILES = [
  ['b.ppm', ['aaa', '.a.']],
  ['c.ppm', ['a...', '.a..', '....', '....']],
  ['a10.ppm', ['a.', '.a']],
  ['a9.ppm', ['aaa.']]
];

/**
 * The table of several files: thumbnails, sorted by its heads, repaired, and as comma-separated
 * values.
 */
export async function tablePoint(user, {page, own}) {
  const paths = FILES.map(([name, rows]) => {
    writeFileSync(join(own, name), ppmOf(rows));
    return join(own, name);
  });
  await user.chooseFile(() => user.press('#open-go'), ...paths);
  await page.until(
      () => /^4 pictures of 4/.test(document.getElementById('several-count')?.textContent)
  );
  const names = () => page.run(
      () => [...document.querySelectorAll('#several tbody th')].map((one) => one.textContent)
  );
  assert.equal(
      await page.run(() => document.querySelectorAll('#several tbody th canvas').length),
      4,
      'thumbnails'
  );
  await user.press('#several thead th:nth-child(1) button');
  assert.deepEqual(await names(), ['a9', 'a10', 'b', 'c'], 'numbers as numbers');
  await user.press('#several thead th:nth-child(2) button');
  await user.press('#several thead th:nth-child(2) button');
  assert.deepEqual(
      await names(), ['c', 'b', 'a10', 'a9'], 'the largest first: 16, 6, 4 and 4 cells'
  );
  // The cell of a verdict, the path of its sign and its colour.
  const verdictOf = (name) => page.run((one) => {
    const cell = document.querySelector(`#several tr[data-name="${one}"]`).children[3];
    const sign = cell.querySelector('svg path').getAttribute('d');
    return [cell.textContent.trim(), sign, getComputedStyle(cell).color];
  }, name);
  const [unique, ambiguous] = [await verdictOf('b'), await verdictOf('c')];
  assert.deepEqual([unique[0], ambiguous[0]], ['unique', 'ambiguous']);
  for (const at of [1, 2]) assert.notEqual(unique[at], ambiguous[at], 'by sign and colour');
  await user.press('#several-repair');
  await page.until(() => / repaired\.$/.test(document.getElementById('several-count').textContent));
  const verdicts = await page.run(() => Object.fromEntries([
    ...document.querySelectorAll('#several tbody tr')
  ].map((row) => [row.dataset.name, row.children[3].textContent.trim()])));
  assert.match(verdicts.c, /^unique, \d+ cells? repainted$/);
  assert.equal(verdicts.b, 'unique');
  await user.press('#several-csv');
  const text = (await downloaded(page, own, '.csv')).content.toString();
  assert.match(text, /"c","4 by 4","2","unique, \d+ cells? repainted"/);
  await user.press('#several tbody tr[data-name=c]');
  await isOpen(page);
  assert.equal(await page.run(() => bench.isSaved), false, 'no file has the repaired one');
}

/**
 * The header has the name of what the dialog made as soon as that is shown. Its margin is trimmed
 * by one press, and comes back by one undo.
 */
export async function trimsMargin({browser, url, folder}) {
  const {page, trial} = await fresh(browser, url, folder, 'trim');
  await trial.open(ppmOf(['.a', 'a.']), 'old');
  assert.equal(await page.run(() => actions.get('trim').can()), false);
  await openDrawn(page, 401, 401, [['#fff', 0, 0, 401, 401], ['rgb(200 0 0)', 101, 201, 150, 100]]);
  await page.run(() => {
    const {show} = bench;
    bench.show = () => {
      show.call(bench);
      window.headed = `${document.getElementById('title').textContent}|${document.title}`;
      bench.show = show;
    };
  });
  await page.click('dialog button.main');
  await page.until(() => bench.name === 'drawn' && window.headed);
  assert.match(await page.run(() => window.headed), /^drawn.*\|• drawn – nonobench$/);
  await page.until(() => document.querySelector('#said button'));
  const size = async () => {
    const {rows, columns} = await trial.state();
    return [rows, columns];
  };
  assert.deepEqual(await size(), [40, 40]);
  await page.click('#said button');
  await page.until(() => bench.state.rows < 40);
  assert.deepEqual(await size(), [10, 15]);
  await page.until(() => !document.querySelector('#said button'));
  assert.equal(await page.run(() => actions.get('trim').can()), false);
  await trial.press('Control+z');
  assert.deepEqual(await size(), [40, 40]);
  await page.click('[popovertarget="menu-picture"]');
  await page.click('#menu-picture [data-action="trim"]');
  await page.until(() => bench.state.rows === 10);
  await page.close();
}

/** A zip of many pictures asks first, tells how far it is, and can be stopped. */
export async function manyPictures({browser, url, folder}) {
  const {page} = await fresh(browser, url, folder, 'many');
  await clean(page);
  const rowsOf = (at) => Array.from(
      {length: 4},
      (_, row) =>
          Array.from({length: 4}, (_, col) => ((at >> (row * 4 + col)) & 1 ? 'a' : '.')).join('')
  );  // each another one
  const zip = writeZip(Array.from(
      {length: 3000}, (_, at) => ({name: `p${at}.ppm`, bytes: Buffer.from(ppmOf(rowsOf(at)))})
  ));
  const count = () => page.run(async () => (await (await keep.ready()).cards()).length);
  await drop(page, folder, 'many.zip', zip);
  await page.until(() => /3,000 files/.test(document.querySelector('dialog[open]')?.textContent));
  await page.press('Escape');
  await page.until(() => !document.querySelector('dialog[open]'));
  assert.equal(await count(), 0);
  await drop(page, folder, 'many.zip', zip);
  await page.until(() => /3,000 files/.test(document.querySelector('dialog[open]')?.textContent));
  await page.click('dialog[open] button.main');
  await page.until(
      () => /[1-9][\d,]* of 3,000 pictures added/.test(
          document.querySelector('dialog[open] .progress')?.textContent
      )
  );
  await page.press('Enter');  // stop
  await page.until(() => /stopped/.test(document.getElementById('said').textContent));
  const added = await count();
  assert.ok(added > 0 && added < 3000, `${added}: ${await said(page)}`);
  await clean(page);
  await page.close();
}

/**
 * The dialog needs no scrolling in a window, and has larger pictures in a large one; on a phone
 * what is told is whole.
 */
export async function dialogFits({browser, url, folder}) {
  for (const [name, size] of Object.entries(SIZES)) {
    const {page} = await fresh(browser, url, folder, `fits-${name}`, {size});
    await openDrawn(page, 401, 401, SHADES);
    await set(page, 'import-colours', 6);
    await facts(page, '6 colours');
    await judged(page);
    await page.shot(`${folder}/import-${name}.png`);
    const {high, seen, cut, sides} = await page.run(() => {
      const dialog = document.querySelector('dialog[open]');
      const inside = dialog.getBoundingClientRect();
      const cutOff = [
        ...document.querySelectorAll('#import-facts, #import-verdict, #import-near, #import-merge')
      ].filter((one) => {
        const box = one.getBoundingClientRect();
        const around = one.closest('.pictures').getBoundingClientRect();
        return box.height === 0 || box.bottom > Math.min(inside.bottom, around.bottom) + 1 ||
            box.right > inside.right || one.scrollHeight > one.clientHeight + 2;
      });
      const sides = [...dialog.querySelectorAll('.pictures canvas'
                     )].map((one) => Math.max(one.clientWidth, one.clientHeight));
      return {
        high: dialog.scrollHeight,
        seen: dialog.clientHeight,
        cut: cutOff.map((one) => one.id),
        sides
      };
    });
    assert.deepEqual(cut, [], name);
    if (name !== 'phone') assert.ok(high <= seen, `${name}: ${high} in ${seen}`);
    if (name !== 'phone')
      assert.ok(sides[1] >= {small: 280, large: 460}[name], `${name}: ${sides}`);
    await page.close();
  }
}

/** While a sketch is new its verdict is not that of the picture before. */
export async function noOldVerdict({browser, url, folder}) {
  const {page} = await fresh(browser, url, folder, 'old-verdict');
  await openDrawn(page, 401, 401, SHADES);
  await judged(page);
  const stale = await page.run(async () => {
    const [verdict, preview] =
        ['import-verdict', 'import-preview'].map((id) => document.getElementById(id));
    const seen = [];
    for (const value of [90, 10, 120, 30]) {
      const columns = document.getElementById('import-columns');
      const before = preview.toDataURL();
      columns.value = value;
      columns.dispatchEvent(new Event('input', {bubbles: true}));
      while (preview.toDataURL() === before) await new Promise((go) => requestAnimationFrame(go));
      seen.push(verdict.textContent);
    }
    return seen.filter((text) => /Unique|Ambiguous/.test(text));
  });
  assert.deepEqual(stale, []);
  await page.press('Escape');
  await page.close();
}

// Drops files, each a name and a text.
const dropFiles = (page, files) => page.run((all) => {
  const dataTransfer = new DataTransfer();
  for (const [name, text] of all) dataTransfer.items.add(new File([text], name));
  setTimeout(
      () => document.body.dispatchEvent(
          new DragEvent('drop', {dataTransfer, bubbles: true, cancelable: true})
      )
  );
}, files);

// A drawing that the browser draws in seconds: masks of masks, 11,111 rectangles in all.
const masked = (at) => (at < 0 ? '' : ` mask="url(#m${at})"`);
const MASKS =
    [0, 1, 2, 3]
        .map(
            (at) =>
                `<mask id="m${at}">${
                `<rect width="900" height="900" fill="white"${masked(at - 1)}/>`.repeat(10)}</mask>`
        )
        .join('');

/** While the browser draws a drawing, the page goes on. */
export async function drawingApart({browser, url, folder}) {
  const {page} = await fresh(browser, url, folder, 'drawing-apart');
  const drawing = `<svg xmlns="http://www.w3.org/2000/svg" width="900" height="900">${
      MASKS}<rect width="900" height="900" fill="red"${masked(3)}/></svg>`;
  await dropFiles(page, [['x.svg', drawing]]);
  const {taken, longest} = await page.run(async () => {
    const begun = performance.now();
    let [last, longest] = [begun, 0];
    while (!document.querySelector('dialog[open] #import-facts') &&
           !/too many elements/.test(document.getElementById('said').textContent)) {
      await new Promise((go) => setTimeout(go, 20));
      [longest, last] = [Math.max(longest, performance.now() - last), performance.now()];
    }
    return {taken: last - begun, longest};
  });
  assert.ok(longest < taken / 3, `the page stood still for ${longest} of ${taken} ms`);
  await page.close();
}

/** A file of more puzzles than a table shows: the first are there, and the others are told. */
export async function morePuzzlesThanRows({browser, url, folder}) {
  const {page} = await fresh(browser, url, folder, 'more-puzzles');
  const line = (type) => `<clues type="${type}"><line><count>1</count></line></clues>`;
  const one = `<puzzle><color name="black" char="X">000</color>${line('columns')}${
      line('rows')}<solution><image>|X|</image></solution></puzzle>`;
  await dropFiles(
      page, [['many.xml', `<puzzleset>${one.repeat(2100)}</puzzleset>`], ['one.ppm', ppmOf(['a'])]]
  );
  await page.until(() => document.querySelectorAll('#several tbody tr').length > 0);
  const rows = await page.run(
      () => [...document.querySelectorAll('#several tbody tr')].slice(1999
      ).map((row) => row.textContent)
  );
  assert.match(rows[0], /^many 2000/);
  assert.deepEqual(rows[1], 'manymore than 2,000 puzzles: the others are left out');
  await page.close();
}

// Workers stall calls that `window.stalls` names until they `go` on.
const STALLING = `window.stalled = []; const PlainWorker = window.Worker;
window.Worker = class extends PlainWorker {
    postMessage(data) { if (window.stalls?.(data)) stalled.push(Object.assign(this, { go: () => super.postMessage(data) })); else super.postMessage(data); }
    terminate() { this.isEnded = true; super.terminate(); } };`;

/**
 * Stop ends the search for the picture of a puzzle, and no other puzzle of the file is searched
 * for.
 */
export async function stopsWithinFile({browser, url, folder}) {
  const {page} = await fresh(browser, url, folder, 'stops-within', {before: NO_PICKERS + STALLING});
  await page.run(() => {
    window.stalls = ({call, file}) => call === 'open' && /^width/.test(file);
  });
  const one = `<puzzle><color name="black" char="X">000</color>${
          ['columns', 'rows']
              .map((type) => `<clues type="${type}"><line><count>1</count></line></clues>`)
              .join('')}</puzzle>`;
  await dropFiles(
      page, [['many.xml', `<puzzleset>${one.repeat(9)}</puzzleset>`], ['one.ppm', ppmOf(['a'])]]
  );
  await page.until(
      () => stalled.length === 1 &&
          document.querySelector('dialog[open] .progress')?.textContent.startsWith('0 of 2 files')
  );
  await page.run(() => stalled[0].go());
  await page.until(
      () => stalled.length === 2 &&
          document.querySelector('dialog[open] .progress').textContent === '“many”: 1 of 9'
  );
  await page.press('Enter');
  await page.until(() => document.querySelector('#several'));
  assert.deepEqual(
      await page.run(
          () => [...document.querySelectorAll('#several tbody th')].map((cell) => cell.textContent)
      ),
      ['many', 'many 2']
  );
  assert.match(
      await page.run(() => document.querySelector('#several tbody tr:last-child').textContent),
      /stopped$/
  );
  assert.deepEqual(await page.run(() => stalled.map(({isEnded}) => isEnded)), [true, true]);
  await page.close();
}

/**
 * An archive is made picture by picture; Stop ends that, nothing is saved or said, and the table
 * of the pictures stays.
 */
export async function archiveStops({browser, url, folder}) {
  const {page, own} =
      await fresh(browser, url, folder, 'archive-stops', {before: NO_PICKERS + STALLING});
  await dropFiles(page, ['a.ppm', 'b.ppm'].map((name) => [name, ppmOf(['aa.', '.a.'])]));
  await page.until(
      () => /^2 pictures of 2/.test(document.getElementById('several-count')?.textContent)
  );
  const toZip = async () => {
    await page.run(() => {
      stalled.length = 0;
      window.stalls = ({call}) => call === 'open';
    });
    await page.click('dialog[open] .buttons button:nth-of-type(2)');
    await page.until(
        () => stalled.length === 1 &&
            document.querySelector('dialog[open] .progress')?.textContent === '0 of 2'
    );
  };
  await toZip();
  await page.press('Enter');
  await page.until(() => !document.querySelector('dialog[open] .progress') && stalled[0].isEnded);
  assert.equal(
      await page.run(() => document.querySelector('dialog[open] #several') !== null), true
  );
  assert.deepEqual(
      [await said(page), readdirSync(own).filter((name) => name.endsWith('.zip'))], ['', []]
  );
  await page.run(() => {
    window.stalls = null;
  });
  await toZip();
  await page.run(() => {
    window.stalls = null;
    stalled[0].go();
  });
  await downloaded(page, own, 'puzzles.zip');
  assert.equal(await said(page), '2 pictures saved as “nonobench puzzles.zip”, with a report.');
  await page.until(() => !document.querySelector('dialog[open]'));
  await page.close();
}

/**
 * The check of a certificate tells which it is, and ends with Stop; what it finds is not told
 * beside another picture.
 */
export async function checkOfCertificate({browser, url, folder}) {
  const {page, trial} = await fresh(browser, url, folder, 'check', {before: NO_PICKERS + STALLING});
  await page.run(() => {
    window.stalls = ({call}) => call === 'check';
  });
  const check = async (count) => {
    await trial.open(ppmOf(['a']), 'one');
    await dropFiles(page, [['a.cert', 'nonocert 1\nline r 1\ndone\n']]);
    await page.until(
        (wanted) => stalled.length === wanted &&
            /^Checking “a.cert”/.test(document.querySelector('dialog[open]')?.textContent),
        count
    );
  };
  const answer = async () => {
    await page.until(() => !document.querySelector('dialog[open]'));
    return said(page);
  };
  await check(1);
  await page.press('Enter');
  assert.match(await answer(), /“a.cert” could not be opened: stopped/);
  assert.ok(await page.run(() => stalled[0].isEnded));
  await check(2);
  await page.run(() => stalled[1].go());
  assert.equal(await answer(), '“a.cert”: It proves that this picture is the only solution.');
  assert.equal(
      await page.run(
          () =>
              bench.stroke(['paint 1 1 .']).then(() => document.getElementById('said').textContent)
      ),
      '',
      'it is another picture'
  );
  await check(3);
  await trial.open(ppmOf(['a.', '.a']), 'two');
  await page.run(() => stalled[2].go());
  assert.equal(await answer(), '');
  await page.close();
}

/**
 * A drawing that moves, or has a document in it, is refused: the page would make another picture
 * than the browser draws.
 */
export async function movingDrawings({browser, url, folder}) {
  const {page} = await fresh(browser, url, folder, 'moving');
  const inside = [
    '<set attributeName="fill" to="#f00"/>',
    '<animate attributeName="fill" values="#f00;#f00"/>',
    '<foreignObject width="8" height="8"/>',
    '<image href="data:image/svg+xml,a"/>'
  ];
  for (const one of inside) {
    await dropFiles(page, [
      [
        'x.svg',
        `<svg xmlns="http://www.w3.org/2000/svg" width="16" height="8"><g fill="#00f"><rect width="8" height="8"/>${
            one}</g></svg>`
      ]
    ]);
    await page.until(
        () => document.querySelector('dialog[open] #import-facts') ||
            document.getElementById('said').dataset.kind === 'alarm'
    );
    assert.match(
        await said(page), /the drawing is animated, or has HTML or other documents in it/, one
    );
    await page.run(() => say(''));
  }
  await page.close();
}
