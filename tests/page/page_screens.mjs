// Trials of what the page shows at once: four sizes of type and three heights of controls, the
// verdict in sight, cells of a usual size beside proposals, swatches in order, the picture without
// grid and clues, Publish, and what comes when a puzzle is solved. Each is a test of the runner
// tests/page/page_test.mjs.
import assert from 'node:assert/strict';
import {readFileSync} from 'node:fs';
import {downloaded, examples, fresh} from './page_common.mjs';
import {SIZES, ppmOf} from './page_trial.mjs';

const THREE = ['ab.', '.ac', 'cc.'];

// The sizes of type, and the heights of controls that are no pictures.
const MEASURES = () => {
  const seen = (one) => one.checkVisibility({visibilityProperty: true}) && one.offsetHeight > 0;
  const all = [...document.querySelectorAll('body *')].filter(seen);
  const texts = all.filter((one) => !one.closest('svg, option, script, style') && [
    ...one.childNodes
  ].some((node) => node.nodeType === 3 && node.textContent.trim()));
  const controls = all.filter(
      (one) =>
          one.matches('button, select, input:not([type=checkbox], [type=radio], [type=range])') &&
          !one.matches('.kept, .size, #fix-list button, #cut')
  );
  const sorted = (values) => [...new Set(values)].sort();
  return {
    sizes: sorted(texts.map((one) => getComputedStyle(one).fontSize)),
    heights: sorted(controls.map((one) => one.offsetHeight))
  };
};

/** At most four sizes of type and two heights of controls, by mouse and by finger. */
export async function fewMeasures({browser, url, folder}) {
  for (const [size, heights] of [[SIZES.small, [32, 36]], [SIZES.phone, [44]]]) {
    const {page, trial} = await fresh(browser, url, folder, `measures-${size.width}`, {size});
    const check = async (where) => {
      const found = await page.run(MEASURES);
      assert.ok(
          found.sizes.every((one) => ['12px', '13px', '15px', '20px'].includes(one)) &&
              found.heights.every((one) => heights.includes(one)),
          `${where}: ${JSON.stringify(found)}`
      );
    };
    await page.until(() => document.querySelector('#examples .kept'));
    await check('start');
    await trial.example('balloon');
    await trial.judged();
    await page.run(() => {
      runAction('fix');
    });
    await page.until(() => document.querySelector('#fix-list button'));
    await check('editor');
    for (const id of ['publish', 'print', 'share', 'about', 'resize', 'palette-save', 'play']) {
      await page.run((one) => {
        runAction(one);
      }, id);
      await page.until(() => document.querySelector('dialog[open]'));
      await check(id);
      await page.run(() => document.querySelector('dialog[open]').close());
    }
    await page.run((bytes) => {
      takeFile(new File([Uint8Array.from(bytes)], 'duck.png'));
    }, [...readFileSync(new URL('duck.png', examples))]);
    await page.until(() => document.querySelector('#import-palette button'));
    await check('import');
    await page.close();
  }
}

// Whether nothing lies over the verdict.
const isInSight = (page) => page.run(() => {
  const {left, top, width, height} = document.getElementById('verdict').getBoundingClientRect();
  return document.getElementById('audit'
  ).contains(document.elementFromPoint(left + width / 2, top + height / 2));
});

/** Phones, upright and lying, show the verdict beside proposals, and while a colour is changed. */
export async function verdictOnPhones({browser, url, folder}) {
  for (const [width, height] of [[390, 844], [844, 390]]) {
    const size = {...SIZES.phone, width, height};
    const {page, trial} = await fresh(browser, url, folder, `verdict-${width}`, {size});
    await trial.example('balloon');
    await trial.judged();
    await page.run(() => document.querySelector('#palette [aria-checked="true"]').click());
    await page.until(() => document.querySelector('#swatch:popover-open'));
    assert.ok(await isInSight(page), `${width}: a colour`);
    await page.run(() => {
      document.getElementById('swatch').hidePopover();
      runAction('fix');
    });
    await page.until(() => document.querySelector('#fix-list button'));
    await page.run(() => document.getElementById('fix-more').scrollIntoView());
    assert.ok(await isInSight(page), `${width}: proposals`);
    await page.close();
  }
}

/**
 * The verdict is in sight wherever the panel is scrolled to; a picture of 40 by 30 has cells of 18
 * px with the panel open, and keeps them beside proposals.
 */
export async function verdictInSight({trial, page}) {
  const rows =
      Array(30).fill(`${'.'.repeat(5)}${'a'.repeat(12)}${'.'.repeat(5)}${'b'.repeat(12)}......`);
  for (const [row, end] of [[26, '.....a.'], [27, '...a...']])
    rows[row] = rows[row].slice(0, 33) + end;  // which may be exchanged
  await trial.open(ppmOf(rows), 'wide');
  await trial.judged();
  const side = () => page.run(() => sheet.geometry.cell / sheet.geometry.scale);
  const before = await side();
  assert.ok(before >= 18, `${before} px`);
  for (const id of ['details', 'lines']) {
    await page.run((one) => document.getElementById(one).scrollIntoView(), id);
    assert.ok(await isInSight(page), id);
  }
  await page.run(() => {
    runAction('fix');
  });
  await page.until(() => !document.getElementById('fix').hidden);
  assert.equal(await side(), before, 'beside proposals');
}

/** A swatch goes where it is dragged, and a place further by Shift with an arrow. */
export async function swatchesInOrder({trial, page}) {
  await trial.open(ppmOf(THREE), 'order');
  const colours = async () => (await trial.state()).colours.map((triple) => triple.join());
  const [ground, a, b, c] = await colours();
  const [from, to] = [
    await page.middle('#palette [data-letter="a"]'),
    await page.middle('#palette [data-letter="c"]')
  ];
  await page.drag([from, [from[0] + 12, from[1]], to]);
  await page.until((first) => bench.state.colours[1].join() === first, b);
  assert.deepEqual(await colours(), [ground, b, c, a]);
  assert.deepEqual(await trial.picture(), ['ca.', '.cb', 'bb.'], 'the picture looks the same');
  await page.run(() => document.querySelector('#palette [aria-checked="true"]').focus());
  await page.press('Shift+ArrowLeft');
  await page.until((last) => bench.state.colours[3].join() === last, c);
  assert.equal(await page.run(() => tools.colour), 'b', 'it stays chosen');
  await trial.press('Control+z', 'Control+z');
  assert.deepEqual(await colours(), [ground, a, b, c]);
}

/** Grid and clues go, and come back; what is painted meanwhile is kept. */
export async function pictureAlone({trial, page}) {
  await trial.open(ppmOf(THREE), 'alone');
  const cell = () => page.run(() => sheet.geometry.cell);
  const before = await cell();
  await page.click('#zoom [data-action="bare"]');
  await page.until((side) => sheet.geometry.isBare && sheet.geometry.cell >= side, before);
  await trial.drag([[3, 3]]);
  assert.equal((await trial.picture())[2], 'cca');
  await page.press('P');
  await page.until((side) => sheet.geometry.cell === side, before);
}

/** Publish asks for title and author once, and proposes the author for the next puzzle. */
export async function publishing({browser, url, folder}) {
  const {page, trial, own} = await fresh(browser, url, folder, 'publish');
  await trial.example('heart');
  await trial.judged();
  await page.click('#verdict-do [data-action="publish"]');
  await page.until(() => document.querySelector('dialog[open] .preview svg'));
  await page.press(...'Heart', 'Tab', ...'Jan');
  await page.click('[data-export="export-xml"]');
  const {content} = await downloaded(page, own, '.xml');
  assert.match(content.toString(), /<title>Heart<\/title>\s*<author>Jan<\/author>/);
  await trial.example('boat');
  await trial.judged();
  await page.click('#verdict-do [data-action="publish"]');
  await page.until(() => document.querySelector('#publish-author'));
  assert.equal(await page.run(() => document.getElementById('publish-author').value), 'Jan');
  await page.press('Escape');
  assert.deepEqual(await page.run(() => bench.state.about), {}, 'Escape leaves the texts');
  await page.close();
}

/** What is solved fills the window with its title, at once where motion is not wanted. */
export async function solvedGrows({browser, url, folder}) {
  const {page, trial} = await fresh(browser, url, folder, 'solved');
  await page.send(
      'Emulation.setEmulatedMedia', {features: [{name: 'prefers-reduced-motion', value: 'reduce'}]}
  );
  await trial.open(ppmOf(['a']), 'dot');
  await page.run(() => bench.become((doc) => ({...doc, about: {title: 'Dot'}})).then(() => true));
  await page.run(() => {
    runAction('play');
  });
  await page.until(() => document.getElementById('play-room')?.open);
  await page.press('Enter');
  await page.until(() => document.getElementById('play-solved').checkVisibility());
  assert.equal(await trial.text('#solved-title'), 'Dot');
  assert.equal(
      await page.run(() => getComputedStyle(document.getElementById('play-solved')).animationName),
      'none'
  );
  await page.click('#solved-walk');
  await page.until(() => !document.getElementById('walk-bar').hidden);
  assert.ok(await page.run(() => document.getElementById('play-solved').hidden));
  await page.click('#walk-end');
  await page.until(() => document.getElementById('play-solved').checkVisibility());
  await page.close();
}
