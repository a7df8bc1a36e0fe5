// Trials of two colours by segments in the dialog for pictures: the best six, and a swatch that is
// turned.
import assert from 'node:assert/strict';
import {facts, fresh, isOpen, openDrawn} from './page_common.mjs';

// A red box on a green ground of the same lightness, with a yellow middle and a blue
// foot: 401 pixels, so that it is no pixel art.
const SAME_LIGHT = [
  ['rgb(70 128 70)', 0, 0, 401, 401],
  ['rgb(190 70 60)', 100, 40, 200, 240],
  ['rgb(240 220 120)', 140, 80, 120, 120],
  ['rgb(40 60 150)', 40, 310, 320, 60]
];

const words = (page) => page.run(
    () => [...document.querySelectorAll('#best-six .contact')].map((one) => one.dataset.word)
);
const pressed = (page) => page.run(
    () => [...document.querySelectorAll('#import-segments-row button')].map(
        (one) => one.getAttribute('aria-pressed')
    )
);

/** The best six have those with one solution first; one is taken, and a swatch of it turned. */
export async function segmentsPoint(user, {page, trial}) {
  await openDrawn(page, 401, 401, SAME_LIGHT);
  await facts(page, '4 colours');
  await user.press('#import-best');
  await page.until(
      () => /first/.test(document.querySelector('.contacts [role=status]')?.textContent)
  );
  const found = await words(page);
  assert.equal(found.length, 6, 'of seven choices');
  assert.equal(found[0], 'unique');
  assert.ok(
      found.lastIndexOf('unique') < (found.indexOf('ambiguous') + 1 || found.length + 1),
      found.join()
  );
  await user.press('#best-six .contact');
  await facts(page, '2 colours');
  const before = await pressed(page);
  assert.deepEqual([...new Set(before)].sort(), ['false', 'true'], 'ink and paper');
  // The ground is turned, so that the corner of the picture is the other way; the foot stays.
  const swatch = (colour) => page.run(
      (wanted) => [...document.querySelectorAll('#import-segments-row button')].findIndex(
          (one) => one.style.background === wanted
      ),
      colour
  );
  const [ground, foot] = [await swatch('rgb(70, 128, 70)'), await swatch('rgb(40, 60, 150)')];
  await user.press(`#import-segments-row button:nth-child(${ground + 1})`);
  await page.until(
      (at, old) =>
          document.querySelectorAll('#import-segments-row button')[at].getAttribute('aria-pressed'
          ) !== old,
      ground,
      before[ground]
  );
  await user.press('dialog button.main');
  await isOpen(page);
  const {picture, colours} = await trial.state();
  assert.equal(colours.length, 2);
  assert.equal(picture[0][0] === 'a', before[ground] === 'false');
  assert.equal(picture[34][20] === 'a', before[foot] === 'true', 'the others stay');
}

// From here on the page's new workers judge a picture once `page.run(goOn)` lets them.
const holdVerdicts = (page) => page.run(() => {
  const PlainWorker = window.Worker;
  window.held = [];
  window.Worker = class extends PlainWorker {
    postMessage(data) {
      const send = () => super.postMessage(data);
      if (data.call === 'assess')
        window.held.push(send);
      else
        send();
    }
  };
});
const goOn = () => window.held.shift()();

// How much of the picture is ink, in percent, as a card tells it.
const inkOf = ({picture}) =>
    Math.round((picture.join('').split('a').length - 1) * 100 / picture.join('').length);

/**
 * A card of the best six is taken as it is clicked, while others are still judged: also on a slow
 * machine, and where other colours were turned before. No card moves while others come.
 */
export async function cardWhileOthersCome({browser, url, folder}) {
  const {page, trial} = await fresh(browser, url, folder, 'card');
  await openDrawn(page, 401, 401, SAME_LIGHT);
  await facts(page, '4 colours');
  const tick = (text) => page.run(
      (wanted) => [...document.querySelectorAll('.importing label')]
                      .find((one) => one.textContent === wanted)
                      .querySelector('input')
                      .click(),
      text
  );
  await tick('Two colours, by parts');
  await facts(page, '2 colours');
  await tick('Two colours, by parts');
  await facts(page, '4 colours');
  await page.send('Emulation.setCPUThrottlingRate', {rate: 20});
  const before = await page.run(() => document.getElementById('import-preview').toDataURL());
  await page.run(() => {
    const one = document.getElementById('import-brightness');
    one.value = 40;
    one.dispatchEvent(new Event('input', {bubbles: true}));
  });
  await page.until((old) => document.getElementById('import-preview').toDataURL() !== old, before);
  await page.until(
      () => /^Unique|^Ambig/.test(document.getElementById('import-verdict').textContent)
  );
  await holdVerdicts(page);
  await page.click('#import-best');
  const cards = () => page.run(
      () => [...document.querySelectorAll('#best-six .contact:not(.awaited)')].map((one) => {
        const {left, top, width, height} = one.getBoundingClientRect();
        return {
          share: /\d+(?=%)/.exec(one.textContent)[0],
          word: one.dataset.word,
          box: [left, top, width, height].join()
        };
      })
  );
  const another = async () => {
    await page.until(() => window.held.length);
    await page.run(goOn);
  };
  while ((await cards()).length < 2) await another();
  const [first, second] = await cards();
  assert.notEqual(first.share, second.share);
  await another();
  await page.until(() => window.held.length);
  assert.deepEqual((await cards()).slice(0, 2), [first, second], 'no card moves');
  await page.click('#best-six .contact:nth-child(2)');
  await page.until(() => !document.querySelector('#best-six'));
  await facts(page, '2 colours');
  await page.click('dialog button.main');
  await isOpen(page);
  assert.equal(String(inkOf(await trial.state())), second.share);
  await page.close();
}
