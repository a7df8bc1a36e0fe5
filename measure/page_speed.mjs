// Milliseconds from the end of a stroke (mouse-up) until clues and map are drawn, in headless
// Chromium at 1280 by 800: medians. Usage: node measure/page_speed.mjs NONOBENCH.HTML [TURNS]
import {mkdtempSync, rmSync} from 'node:fs';
import {tmpdir} from 'node:os';
import {join, resolve} from 'node:path';
import {Browser} from '../tests/page/page_browser.mjs';
import {Trial, hookedPage, noise, ppmOf} from '../tests/page/page_trial.mjs';
import {median} from './figures.mjs';

const LETTERS = '.abcdefghijklmno';
const palette = Object.fromEntries([...LETTERS].map(
    (letter, at) =>
        [letter,
         at === 0 ? '255 255 255' : `${(at * 83) % 256} ${(at * 151) % 256} ${(at * 37) % 256}`]
));

// A picture of patches, the same each time.
function patches(rows, columns, count) {
  let state = rows * 31 + columns;
  const chance = (below) => (state = (state * 48271) % 2147483647) % below;
  const spots = Array.from(
      {length: Math.max(6, Math.floor((rows * columns) / 60))},
      () => [chance(rows), chance(columns), LETTERS[chance(count)]]
  );
  const near = (row, col) => spots.reduce(
      (best, spot) =>
          ((spot[0] - row) ** 2 + (spot[1] - col) ** 2 <
                   (best[0] - row) ** 2 + (best[1] - col) ** 2 ?
               spot :
               best)
  )[2];
  return Array.from(
      {length: rows}, (_, row) => Array.from({length: columns}, (_, col) => near(row, col)).join('')
  );
}

// One press at a cell; the time from mouse-up until it is drawn, and until the next frame.
const press = (row, col) => new Promise((done) => {
  tools.colour = bench.state.picture[row][col] === 'a' ? 'b' : 'a';
  const {view, geometry: at, stage} = sheet;
  const box = view.getBoundingClientRect();
  const pointer = {
    clientX: box.left + (at.x(col) + at.cell / 2) / at.scale,
    clientY: box.top + (at.y(row) + at.cell / 2) / at.scale,
    pointerId: 1,
    bubbles: true,
    button: 0
  };
  view.setPointerCapture = () => {};
  view.dispatchEvent(new PointerEvent('pointerdown', pointer));
  requestAnimationFrame(() => requestAnimationFrame(() => {
                          const from = performance.now();
                          new MutationObserver((_, watch) => {
                            watch.disconnect();
                            const drawn = performance.now() - from;
                            requestAnimationFrame(() => done([drawn, performance.now() - from]));
                          }).observe(stage, {attributes: true, attributeFilter: ['data-drawn']});
                          view.dispatchEvent(new PointerEvent('pointerup', pointer));
                        }));
});

const folder = mkdtempSync(join(tmpdir(), 'nonobench-speed-'));
const turns = Number(process.argv[3] ?? 15);
const browser = new Browser();
try {
  const trial = await Trial.start(browser, hookedPage(resolve(process.argv[2]), folder), folder);
  const pictures = [
    ['20 by 25', patches(25, 20, 5)],
    ['60 by 60, 8 colours', patches(60, 60, 8)],
    ['120 by 120, 16 colours', patches(120, 120, 16)],
    ['120 by 120, noise of 16 colours', noise(120, 120, LETTERS)],
    ['120 by 120, noise of 3 colours', noise(120, 120, '.ab')]
  ];
  for (const [name, rows] of pictures) {
    await trial.open(ppmOf(rows, palette));
    const times = [];
    for (let turn = 0; turn < turns; turn++) {
      await trial.settled();
      times.push(await trial.page.run(press, 3 + ((turn * 3) % (rows.length - 5)), 5 + (turn % 7)));
    }
    console.log(`${name}: ${
        median(times.map(([drawn]) => drawn)).toFixed(1)} ms until clues and map are drawn, ${
        median(times.map(([, frame]) => frame)
        ).toFixed(1)} ms to the frame behind it (medians of ${turns})`);
  }
} finally {
  await browser.close();
  rmSync(folder, {recursive: true, force: true});
}
