// Trials of drawing: symmetric pens with their axes, the wand, what is done within a selection,
// nudging, outline and shadow, and an image that is traced. Expected pictures were drawn by hand.
import assert from 'node:assert/strict';
import {writeFileSync} from 'node:fs';
import {join} from 'node:path';
import {fresh} from './page_common.mjs';
import {SLACK, noise, ppmOf} from './page_trial.mjs';
import {pause} from './page_browser.mjs';

const blank =
    (rows,
     columns) => [...Array(rows - 1).fill('.'.repeat(columns)), `${'.'.repeat(columns - 2)}ab`];

async function undo(user) {
  const before = await strokes(user.trial);
  await (user.byKeys ? user.page.press('Control+z') : user.press('#quick [data-action="undo"]'));
  await user.page.until((count) => bench.past.length < count && !bench.running, before);
}
const strokes = (trial) => trial.state().then((state) => state.strokes[0]);

// Chooses a symmetry: by keys m goes to the next one.
async function symmetry(user, kind) {
  if (!user.byKeys) {
    await user.press('#symmetry');
    await user.press(`[data-symmetry="${kind}"]`);
  } else
    for (let step = 0; step < 6 && await user.page.run((wanted) => tools.symmetry !== wanted, kind);
         step++)
      await user.page.press('m');
  await user.page.until((wanted) => tools.symmetry === wanted, kind);
}

/** Pens that draw symmetric: each stroke is one, and one undo takes it back. */
export async function pensPoint(user, {page, trial}) {
  const rows = blank(6, 6);
  await trial.open(ppmOf(rows), 'pens');
  const shows = async (wanted, what) => assert.deepEqual(
      await trial.picture(),
      wanted.map(
          (row, at) =>
              (at === 5 ? row.slice(0, 4) + (row.slice(4) === '..' ? 'ab' : row.slice(4)) : row)
      ),
      what
  );
  await user.tool('pencil');
  await user.colour('a');
  await symmetry(user, 'across');
  await user.stroke([1, 1], [1, 2]);
  await shows(['aa..aa', '......', '......', '......', '......', '......'], 'left and right');
  assert.equal(await strokes(trial), 1);
  await undo(user);
  await shows(Array(6).fill('......'), 'one undo');
  await symmetry(user, 'down');
  await user.tool('line');
  await user.stroke([1, 1], [1, 4]);
  await shows(['aaaa..', '......', '......', '......', '......', 'aaaa..'], 'top and bottom');
  await undo(user);
  await symmetry(user, 'both');
  await user.tool('box');
  await user.stroke([2, 1], [3, 2]);
  await shows(['......', 'aa..aa', 'aa..aa', 'aa..aa', 'aa..aa', '......'], 'both');
  await user.tool('bucket');
  await user.colour('b');
  await user.stroke([2, 1]);
  await shows(
      ['......', 'bb..bb', 'bb..bb', 'bb..bb', 'bb..bb', '....bb'],
      'the bucket too, with what is connected'
  );
  await undo(user);
  await undo(user);
  await symmetry(user, 'quarter');
  await user.colour('a');
  await user.tool('pencil');
  await user.stroke([1, 2], [1, 3]);
  await shows(['.aa...', '.....a', '.....a', 'a.....', 'a.....', '...aab'], 'quarter turns');
  assert.equal(await strokes(trial), 1, 'one stroke');
  const inked = () => page.run(() => {
    const at = sheet.geometry;
    const {data} = sheet.marks.getContext('2d').getImageData(at.x(3) - 3, at.y(1), 6, at.cell);
    return data.some((one) => one > 0);
  });
  assert.equal(await inked(), true, 'the axes are shown');
  await symmetry(user, 'none');
  assert.equal(await inked(), false, 'and go');
}

/**
 * The wand selects what is connected; that is recoloured, moved, nudged, and cleared without what
 * lies beside it.
 */
export async function wandPoint(user, {page, trial}) {
  const rows = ['.aa....', '.ab....', '..bb...', '....aa.', '.......'];
  await trial.open(ppmOf(rows), 'wand');
  await user.tool('wand');
  await user.stroke([1, 2]);
  assert.deepEqual(
      await page.run(() => [selection.box, selection.shape]),
      [{top: 0, left: 1, bottom: 1, right: 2}, ['aa', 'a ']]
  );
  assert.equal(await strokes(trial), 0);
  if (user.byKeys)
    await page.press('Alt+ArrowLeft', 'Enter');
  else {
    await user.tool('select');
    await user.stroke([1, 2], [1, 1]);
    await user.menu('edit', 'select-none');
  }
  await trial.settled();
  assert.deepEqual(
      await trial.picture(),
      ['aa.....', 'a.b....', '..bb...', '....aa.', '.......'],
      'the shape alone is moved'
  );
  await undo(user);
  assert.deepEqual(await trial.picture(), rows);
  await user.tool('wand');
  await user.stroke([4, 5]);
  await user.tool('recolour');
  await user.colour('b');
  await user.stroke([4, 5]);
  assert.deepEqual(
      await trial.picture(),
      ['.aa....', '.ab....', '..bb...', '....bb.', '.......'],
      'within the selection alone'
  );
  await undo(user);
  await user.colour('a');
  if (user.byKeys)
    await page.press('A');
  else
    await user.menu('edit', 'select-colour');
  await page.until(() => selection.box?.bottom === 3);
  assert.deepEqual(await page.run(() => selection.shape), ['aa   ', 'a    ', '     ', '   aa']);
  if (user.byKeys)
    await page.press('Delete');
  else
    await user.menu('edit', 'clear');
  await trial.settled();
  assert.deepEqual(
      await trial.picture(),
      ['.......', '..b....', '..bb...', '.......', '.......'],
      'all of one colour is cleared'
  );
  assert.equal(await strokes(trial), 1, 'in one stroke');
  await undo(user);
  await user.menu('edit', 'wand-adds');  // for fingers, which have no Shift
  assert.equal(
      await page.run(() => document.querySelector('[data-tool="wand"]').getAttribute('aria-label')),
      'Wand adds to the selection'
  );
  assert.ok(
      await page.run(() => {
        const {left, right} = document.querySelector('[data-tool="wand"]').getBoundingClientRect();
        return left >= 0 && right <= innerWidth;
      }),
      'the tool is seen'
  );
  await user.stroke([1, 2]);
  await user.stroke([4, 5]);
  assert.deepEqual(
      await page.run(() => selection.shape),
      ['aa   ', 'a    ', '     ', '   aa'],
      'both are selected'
  );
  await user.menu('edit', 'wand-adds');
  await user.stroke([2, 3]);
  assert.deepEqual(await page.run(() => selection.shape), ['b ', 'bb'], 'and again one alone');
}

/** Outline and shadow of a selection, and nudging by one cell and by five. */
export async function outlinePoint(user, {page, trial}) {
  const rows = ['.........', '..aa.....', '..aa.....', '.........', '.........', '.......ab'];
  await trial.open(ppmOf(rows), 'outline');
  await user.tool('wand');
  await user.stroke([2, 3]);
  await user.colour('b');
  await user.menu('edit', 'outline');
  await trial.settled();
  assert.deepEqual(
      await trial.picture(),
      ['..bb.....', '.baab....', '.baab....', '..bb.....', '.........', '.......ab'],
      'outlined'
  );
  await undo(user);
  await user.menu('edit', 'shadow');
  await page.until(() => bench.past.length === 1 && !bench.running);
  assert.deepEqual(
      await trial.picture(),
      ['.........', '..aa.....', '..aab....', '...bb....', '.........', '.......ab'],
      'with its shadow'
  );
  await undo(user);
  await user.tool('select');
  await user.stroke([1, 2], [3, 6]);
  await user.menu('edit', 'outline');
  await trial.settled();
  assert.deepEqual(
      await trial.picture(),
      ['..bb.....', '.baab....', '.baab....', '..bb.....', '.........', '.......ab'],
      'of what is drawn in a rectangle'
  );
  await undo(user);
  if (user.byKeys)
    await page.press('Alt+Shift+ArrowRight', 'Alt+ArrowDown', 'Enter');
  else
    for (const id of [...Array(5).fill('shift-right'), 'shift-down'])
      await user.menu('picture', id);
  if (!user.byKeys) await user.menu('edit', 'select-none');
  await page.until(() => bench.past.length === 1 && !bench.running);
  assert.deepEqual(
      await trial.picture(),
      ['.........', '.........', '.......aa', '.......aa', '.........', '.......ab'],
      'nudged by five and by one'
  );
  assert.equal(await strokes(trial), 1);
}

/**
 * An image is traced: it is seen where nothing is painted, it is moved and scaled, and it is in no
 * file.
 */
export async function tracingPoint(user, {page, trial, own}) {
  const picture = await page.run(async () => {
    const canvas = Object.assign(document.createElement('canvas'), {width: 40, height: 40});
    const pen = canvas.getContext('2d');
    pen.fillStyle = '#d00000';
    pen.fillRect(0, 0, 40, 40);
    const bytes = new Uint8Array(await (await new Promise((go) => canvas.toBlob(go, 'image/png'))
    ).arrayBuffer());
    return btoa(String.fromCharCode(...bytes));
  });
  const path = join(own, 'trace.png');
  writeFileSync(path, Buffer.from(picture, 'base64'));
  const rows = ['......', '.ab...', '......', '......'];
  await trial.open(ppmOf(rows), 'tracing');
  await user.chooseFile(() => user.menu('view', 'trace'), path);
  await page.until(() => document.getElementById('trace') !== null && sheet.underlay !== null);
  await page.run(() => new Promise((go) => requestAnimationFrame(() => requestAnimationFrame(go))));
  // How opaque the image is over a cell, 0 to 255.
  const over = (row, col) => page.run((r, c) => {
    const at = sheet.geometry;
    return sheet.underlay.element.getContext('2d')
        .getImageData(at.x(c) + Math.floor(at.cell / 2), at.y(r) + Math.floor(at.cell / 2), 1, 1)
        .data[3];
  }, row, col);
  assert.deepEqual(
      [await over(0, 0), await over(0, 1) > 100, await over(1, 1), await over(1, 2)],
      [0, true, 0, 0],
      'beside the image, over background, over paint'
  );
  await user.tool('pencil');
  await user.colour('a');
  await user.stroke([1, 3]);
  await pause(60);
  assert.equal(await over(0, 2), 0, 'what is painted covers it');
  const place = () =>
      page.run(() => [sheet.underlay.left, sheet.underlay.top, sheet.underlay.wide]);
  const [left, top, wide] = await place();
  await user.press('#trace-move');
  if (user.byKeys)
    await page.press('ArrowRight', 'ArrowRight', 'ArrowRight', 'ArrowRight', 'ArrowDown');
  else {
    const [from, to] = [await trial.cell(2, 4), await trial.cell(3, 5)];
    if (user.input === 'mouse')
      await page.drag([from, to]);
    else
      await page.touch([from, to]);
  }
  const moved = await place();
  assert.ok(
      Math.abs(moved[0] - left - 1) < 0.1 && moved[1] > top, `moved: ${[left, top]}, ${moved}`
  );
  await user.press('#trace-move');
  if (user.byKeys) {
    await user.tabTo('#trace-size');
    await page.press('Home');
  } else {
    await page.run(() => {
      const one = document.getElementById('trace-size');
      one.value = 5;
      one.dispatchEvent(new Event('input', {bubbles: true}));
    });
  }
  assert.ok((await place())[2] < wide / 10, 'scaled');
  assert.deepEqual(
      await trial.picture(),
      ['..a...', '.ab...', '......', '......'],
      'it is no part of the picture'
  );
  assert.equal(await strokes(trial), 1);
  assert.equal(
      await page.run(
          () => JSON.stringify(
                        bench.state, (_, value) => (value instanceof Set ? [...value] : value)
          ).includes('png')
      ),
      false
  );
  await user.press('#trace-end');
  await page.until(
      () => !sheet.underlay && !document.querySelector('.underlay') &&
          !document.getElementById('trace')
  );
}

/** Painting is as quick as before, with a symmetric pen and an image under it too. */
export async function quickPens({browser, url, folder}) {
  const {page, trial} = await fresh(browser, url, folder, 'quick');
  await trial.open(ppmOf(noise(60, 60, '..ab')), 'quick');
  await trial.judged();
  const points = [];
  for (let col = 2; col < 58; col += 2) points.push(await trial.cell(30, col));
  // Milliseconds that the page works on a move of the pointer, the middle of all.
  const moves = async () => {
    await page.run(() => {
      window.spent = [];
      const plain = sheet.preview;
      sheet.preview = function timed(cells) {
        const begun = performance.now();
        plain.call(this, cells);
        window.spent.push(performance.now() - begun);
      };
    });
    await page.drag(points);
    await trial.settled();
    const spent = await page.run(() => {
      delete sheet.preview;
      return window.spent.sort((a, b) => a - b);
    });
    await trial.press('Control+z');
    return spent[Math.floor(spent.length / 2)];
  };
  await page.press('p', '1');
  const plain = await moves();
  await page.run(() => {
    while (tools.symmetry !== 'both') runAction('symmetry-next');
  });
  const both = await moves();
  console.log(
      `a move of the pen takes ${plain.toFixed(2)} ms, of a symmetric one ${both.toFixed(2)} ms`
  );
  assert.ok(both < 12 * SLACK, `${plain}, ${both}`);
  await page.close();
}
