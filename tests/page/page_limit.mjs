// Tests of the page's limits: how many bytes the build lets it have, how soon it is ready on a slow
// processor, and which part of the window the picture has, in a browser. The page is the one of
// PAGE, else that of web/out; the parts that lack a tool are left out. Run: node --test
// tests/page/page_limit.mjs
import assert from 'node:assert/strict';
import {spawnSync} from 'node:child_process';
import {randomBytes} from 'node:crypto';
import {existsSync, mkdtempSync, rmSync, statSync, writeFileSync} from 'node:fs';
import {tmpdir} from 'node:os';
import {join} from 'node:path';
import test from 'node:test';
import {fileURLToPath, pathToFileURL} from 'node:url';
import {Browser} from './page_browser.mjs';
import {long} from '../waits.mjs';

const ROOT = fileURLToPath(new URL('../..', import.meta.url));
const PAGE = process.env.PAGE ?? join(ROOT, 'web', 'out', 'nonobench.html');
const MOST_BYTES = 1048576;
const SLOWED = 6;  // times
const MOST_MS = 1000;
const TURNS = 24;  // at most

const isThere = (tool) => !spawnSync(tool, ['--version']).error;

// Builds the page with a module of so many bytes that nothing packs.
function joined(bytes) {
  const folder = mkdtempSync(join(tmpdir(), 'nonobench-limit-'));
  try {
    writeFileSync(join(folder, 'nonobench.wasm'), randomBytes(bytes));
    const {status, stderr} = spawnSync(
        process.execPath, [join(ROOT, 'web', 'join.mjs'), ROOT, folder], {encoding: 'utf8'}
    );
    return {
      status,
      stderr,
      size: existsSync(join(folder, 'nonobench.html')) ?
          statSync(join(folder, 'nonobench.html')).size :
          0
    };
  } finally {
    rmSync(folder, {recursive: true, force: true});
  }
}

test(
    'the build refuses a page of more than 1,048,576 bytes',
    {skip: !isThere('esbuild') && 'there is no esbuild'},
    () => {
      const small = joined(1000);
      assert.deepEqual([small.status, small.stderr], [0, '']);
      const most = Math.floor(
          ((MOST_BYTES - small.size) * 3) / 4
      );  // what is packed takes at most a third more as signs
      const fits = joined(most);
      assert.deepEqual([fits.status, fits.size <= MOST_BYTES], [0, true]);
      // longer than its room, whatever the signs take
      const large = joined(MOST_BYTES - small.size + 2000);
      assert.equal(large.status, 1);
      assert.match(large.stderr, /^web\/join\.mjs: the page has \d+ bytes, more than 1048576$/m);
    }
);

// In the page: notes when the button of the start screen has the focus, and the frame with it is
// drawn.
const NOTE_READY = `(() => {
    const look = () => (document.activeElement?.id === 'new-go' ? requestAnimationFrame(() => setTimeout(() => { window.isReady = true; })) : requestAnimationFrame(look));
    requestAnimationFrame(look);
})();`;

// Milliseconds of processor time that the page's thread takes until the page is ready. Other work
// on the machine adds little to them.
async function readyAfter(browser, address) {
  const page = await browser.page();
  try {
    await page.send('Performance.enable', {timeDomain: 'threadTicks'});
    await page.before(NOTE_READY);
    await page.goto(address);
    await page.until(() => window.isReady);
    const {metrics} = await page.send('Performance.getMetrics');
    return metrics.find(({name}) => name === 'TaskDuration').value * 1000;
  } finally {
    await page.close();
  }
}

const missing = long || (!isThere(process.env.CHROMIUM ?? 'chromium') && 'there is no Chromium') ||
    (!existsSync(PAGE) && `there is no page at ${PAGE}`);
test(
    `ready within ${MOST_MS} ms on a processor slowed ${SLOWED} times`,
    {skip: missing},
    async (t) => {
      const browser = new Browser();
      try {
        // Whatever else the machine does only adds to a turn, so the least of several turns counts.
        let least = Infinity;
        for (let turn = 0; turn < TURNS && least > MOST_MS; turn += 1)
          least = Math.min(least, SLOWED * await readyAfter(browser, pathToFileURL(PAGE).href));
        t.diagnostic(`ready after ${least.toFixed(0)} ms`);
        assert.ok(
            least > 0 && least <= MOST_MS,
            `the page of ${statSync(PAGE).size} bytes is ready after ${least.toFixed(0)} ms`
        );
      } finally {
        await browser.close();
      }
    }
);

const WINDOWS = [[768, 1024], [900, 700], [1024, 768], [1280, 800], [1920, 1080]];
test('the picture has the most room, and nothing overlaps', {skip: missing}, async () => {
  const browser = new Browser();
  try {
    for (const [width, height] of WINDOWS) {
      const page = await browser.page({width, height});
      await page.goto(pathToFileURL(PAGE).href);
      await page.until(() => document.querySelector('#examples button') !== null);
      await page.run(() => document.querySelector('#examples button').click());
      await page.until(() => !document.body.classList.contains('starting'));
      const [tools, stage, panel] = await page.run(
          () => ['#tools', '#stage', '#work > aside'].map(
              (one) => document.querySelector(one).getBoundingClientRect().toJSON()
          )
      );
      const what = `${width} by ${height}: ${JSON.stringify({tools, stage, panel})}`;
      for (const other of [tools, panel])
        assert.ok(stage.width * stage.height > other.width * other.height, what);
      for (const [one, other] of [[tools, stage], [tools, panel], [stage, panel]]) {
        const [wide, high] = [
          Math.min(one.right, other.right) - Math.max(one.left, other.left),
          Math.min(one.bottom, other.bottom) - Math.max(one.top, other.top)
        ];
        assert.ok(wide < 1 || high < 1, what);
      }
      await page.close();
    }
  } finally {
    await browser.close();
  }
});
