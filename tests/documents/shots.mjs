// Makes the pictures of the documents in headless Chromium, the printed sheet by pdftoppm, and the
// moving picture of README by ImageMagick: node tests/documents/shots.mjs PAGE [NAME..] puts them
// into docs/, all or those of the names in SHOTS. PAGE is a built page; the audit's report is
// docs/audit.html.
import {spawnSync} from 'node:child_process';
import {mkdtempSync, readFileSync, rmSync, writeFileSync} from 'node:fs';
import {tmpdir} from 'node:os';
import {join} from 'node:path';
import {fileURLToPath, pathToFileURL} from 'node:url';
import {Browser, pause} from '../page/page_browser.mjs';
import {Trial, hookedPage} from '../page/page_trial.mjs';

const ROOT = fileURLToPath(new URL('../..', import.meta.url));
const DOCS = join(ROOT, 'docs');
const SETTLED_MS = 2000;  // until a dialog has its verdict
const TAKEN_MS = 300;     // a press just after a proposal came is refused

// A mouse, which headless Chromium has only if it is told so.
const MOUSE =
    '--blink-settings=primaryHoverType=2,availableHoverTypes=2,primaryPointerType=4,availablePointerTypes=4';
// The pointer of the mouse, which a picture of the window does not have.
const POINTER =
    '<svg width="24" height="32" viewBox="0 0 12 16"><path d="M1 1v12l3-3 2 5 2-1-2-5h4z" stroke="#fff"/></svg>';

const SHOTS = {
  demo: {width: 1280, height: 800, take: demo},
  icon: {width: 1280, height: 800, take: icon},
  import: {width: 1280, height: 800, take: imported},
  sheet: {width: 1280, height: 800, take: sheet},
  phone: {width: 390, height: 560, touch: true, take: play},
  audit: {width: 1280, height: 800, take: audit},
};

/** Writes what the window shows, or the part of it within `{ x, y, width, height }`. */
async function shoot(page, name, part, folder = DOCS) {
  const {data} = await page.send(
      'Page.captureScreenshot', {format: 'png', ...(part && {clip: {...part, scale: 1}})}
  );
  writeFileSync(join(folder, `${name}.png`), Buffer.from(data, 'base64'));
}

/** Runs a program of the system. */
function run(program, words) {
  const done = spawnSync(program, words, {encoding: 'utf8'});
  if (done.status !== 0) throw new Error(`${program}: ${done.stderr ?? done.error}`);
}

async function opened(trial, name) {
  await trial.example(name);
  await trial.judged();
}

/** Moves the mouse to the middle of an element, and shows its pointer there. */
async function point(page, selector) {
  const [x, y] = await page.run((wanted) => {
    const box = document.querySelector(wanted).getBoundingClientRect();
    return [box.left + box.width / 2, box.top + box.height / 2];
  }, selector);
  await page.mouse('mouseMoved', x, y);
  await page.run((left, top, drawn) => {
    document.getElementById('pointer')?.remove();
    const pointer = document.createElement('div');
    Object.assign(pointer, {id: 'pointer', innerHTML: drawn});
    pointer.style =
        `position: fixed; z-index: 9; pointer-events: none; left: ${left}px; top: ${top}px`;
    document.body.append(pointer);
  }, x, y, POINTER);
  await pause(SETTLED_MS);
}

// README's moving picture: an ambiguous picture, what mends it, a card that is pointed at, and the
// mended picture. The still for those who want no motion is that of the cards.
async function demo({trial, page, folder}) {
  await opened(trial, 'balloon');
  await page.run(() => document.activeElement.blur());
  const frames = [];
  const frame = async (seconds) => {
    const name = `frame${frames.length}`;
    await shoot(page, name, null, folder);
    frames.push('-delay', String(100 * seconds), join(folder, `${name}.png`));
  };
  await point(page, '[data-action="fix"]');
  await frame(2.5);
  await page.click('[data-action="fix"]');
  await page.until(() => !searches.running && document.querySelector('#fix-list button') !== null);
  await pause(TAKEN_MS);
  await frame(2);
  await point(page, '#fix-list button');
  await frame(2.5);
  await shoot(page, 'demo');
  await page.click('#fix-list button');
  await page.until(
      () => bench.state.verdict.word === 'unique' &&
          document.getElementById('grade').textContent !== '–'
  );
  await pause(SETTLED_MS);
  await frame(3.5);
  run('convert', [
    ...frames,
    '+dither',
    '-colors',
    '255',
    '-layers',
    'optimize',
    '-loop',
    '0',
    join(DOCS, 'demo.gif')
  ]);
}

async function icon({trial}) {
  await opened(trial, 'computer');
  await shoot(trial.page, 'icon');
}

async function imported({page}) {
  const duck = [...readFileSync(join(ROOT, 'examples', 'duck.png'))];
  await page.run((bytes) => {
    takeFile(new File([new Uint8Array(bytes)], 'duck.png'));
  }, duck);
  await page.until(() => document.querySelector('dialog[open] canvas') !== null);
  await pause(SETTLED_MS);
  const part = await page.run(() => {
    const {x, y, width, height} = document.querySelector('dialog[open]').getBoundingClientRect();
    return {x, y, width, height};
  });
  await shoot(page, 'import', part);
}

// The sheet that is printed, from a PDF of it.
async function sheet({trial, page, folder}) {
  await opened(trial, 'boat');
  const {data} =
      await page.send('Page.printToPDF', {preferCSSPageSize: true, printBackground: true});
  const pdf = join(folder, 'sheet.pdf');
  writeFileSync(pdf, Buffer.from(data, 'base64'));
  run('pdftoppm', ['-png', '-singlefile', '-r', '60', '-H', '480', pdf, join(DOCS, 'sheet')]);
}

async function play({trial, page}) {
  await opened(trial, 'boat');
  await page.run(() => runAction('play'));
  await shoot(page, 'phone');
}

// The report with a whole first row of cards.
async function audit({page}) {
  await page.goto(pathToFileURL(join(DOCS, 'audit.html')).href);
  await page.until(() => document.querySelector('#list > *') !== null);
  const height = await page.run(
      () => document.querySelector('#list > :first-child').getBoundingClientRect().bottom
  );
  await shoot(page, 'audit', {x: 0, y: 0, width: SHOTS.audit.width, height: height + 8});
}

const [built, ...names] = process.argv.slice(2);
const folder = mkdtempSync(join(tmpdir(), 'nonobench-shots-'));
const browser = new Browser(['--lang=en', MOUSE]);
try {
  const url = hookedPage(built, folder);
  for (const [name, {take, ...size}] of Object.entries(SHOTS)) {
    if (names.length && !names.includes(name)) continue;
    const trial = await Trial.start(browser, url, folder, size);
    await take({trial, page: trial.page, folder});
    await trial.page.close();
    console.log(`docs/${name}.png`);
  }
} finally {
  await browser.close();
  rmSync(folder, {recursive: true, force: true});
}
