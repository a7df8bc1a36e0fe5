// The built page in headless Firefox, as a new user meets it: start, paint, verdict, undo, reload,
// import, exports, print; then points of page_points.mjs by the mouse. It is no part of the gate,
// which has no browser. Usage: [PAGE=dist/nonobench.html] [NONOBENCH=program] node
// tests/page/firefox.mjs [FOLDER [STEP ..]], where FOLDER gets pictures of the page and what it
// exports, and STEP is the beginning of a step's name. FIREFOX is the browser (firefox-esr), driven
// by Marionette.
import assert from 'node:assert/strict';
import {mkdirSync, mkdtempSync, readFileSync, readdirSync, rmSync, writeFileSync} from 'node:fs';
import {tmpdir} from 'node:os';
import {basename, join, resolve} from 'node:path';
import {pathToFileURL} from 'node:url';
import {pause} from './page_browser.mjs';
import {waits} from '../waits.mjs';
import {Firefox, Tab} from './firefox_browser.mjs';
import {clean} from './page_common.mjs';
import {User} from './page_inputs.mjs';
import {stillPoint} from './page_lasting.mjs';
import {smallPoint} from './page_marks.mjs';
import {aimPoint, firstPoint, mendingPoint} from './page_mending.mjs';
import {
  alikePoint,
  comingPoint,
  contactsPoint,
  pickingPoint,
  spritesPoint,
  tablePoint
} from './page_pictures.mjs';
import {limitsPoint, placesPoint} from './page_repairs.mjs';
import {Trial, eightColours, hookedPage} from './page_trial.mjs';

const PAGE = process.env.PAGE ?? new URL('../../dist/nonobench.html', import.meta.url).pathname;
const folder = resolve(process.argv[2] ?? mkdtempSync(join(tmpdir(), 'nonobench-firefox-out-')));
const downloads = join(folder, 'downloads');
const example = (name) => readFileSync(new URL(`../../examples/${name}`, import.meta.url));

// The first download with an ending.
async function downloaded(ending) {
  for (let tries = 0; tries < 400; tries++) {
    const name = readdirSync(downloads).find((one) => one.endsWith(ending));
    if (name && readFileSync(join(downloads, name)).length &&
        !readdirSync(downloads).some((one) => one.endsWith('.part')))
      return readFileSync(join(downloads, name));
    await pause(25);
  }
  throw new Error(`no download ${ending}: ${readdirSync(downloads)}`);
}

const drop = (page, name, bytes) => dropAll(page, [[name, bytes.toString('base64')]]);

// Files that are let fall on the page, by the events that a browser sends for them.
function dropAll(page, files) {
  return page.run(async (all) => {
    const data = new DataTransfer();
    for (const [one, text] of all)
      data.items.add(new File([Uint8Array.from(atob(text), (letter) => letter.charCodeAt(0))], one)
      );
    for (const type of ['dragenter', 'dragover', 'drop'])
      document.body.dispatchEvent(
          new DragEvent(type, {bubbles: true, cancelable: true, dataTransfer: data})
      );
  }, files);
}

// The user's mouse. Files fall on the page: Marionette knows no chooser of files.
class FirefoxUser extends User {
  chooseFile(_, ...paths) {
    return dropAll(
        this.page, paths.map((path) => [basename(path), readFileSync(path).toString('base64')])
    );
  }
}

const isOpen = (page) =>
    page.until(() => !document.body.classList.contains('starting') && bench.state !== null);

const steps = {
  async 'the file itself, as it is given away, starts and shows no fault'({page}) {
    await page.goto(pathToFileURL(resolve(PAGE)).href);
    await page.until(() => document.querySelector('#new-go') !== null);
    const paint = await page.run(
        () => performance.getEntriesByName('first-contentful-paint')[0]?.startTime ??
            performance.now()
    );
    console.log(`  first paint after ${Math.round(paint)} ms`);
    await page.shot(join(folder, 'start.png'));
    await page.click('#new-go');
    await page.until(() => !document.body.classList.contains('starting'));
    await page.until(() => /Blank/.test(document.querySelector('#audit').textContent));
    await page.shot(join(folder, 'new.png'));
  },
  async 'a picture is painted by the mouse, with clues and verdict'({page, trial}) {
    await trial.load();
    await page.click('#new-go');
    await isOpen(page);
    await trial.drag([[2, 2], [2, 6]]);
    await trial.drag([[4, 4]]);
    const {picture, clues} = await trial.state();
    assert.equal(picture[1].slice(0, 8), '.aaaaa..');
    assert.equal(picture[3].slice(0, 6), '...a..');
    assert.deepEqual(clues.rows[1].map((block) => block.length), [5]);
    await trial.check('after two strokes');
    // By hand: column 4 has two blocks and only rows 2 and 4 have any, so nothing can move. Two
    // cells by a corner can.
    await trial.judged();
    assert.equal((await trial.state()).verdict.word, 'unique');
    for (const cell of [[8, 10], [9, 11]]) await trial.drag([cell]);
    await trial.judged();
    assert.equal((await trial.state()).verdict.word, 'ambiguous');
    await page.shot(join(folder, 'painted.png'));
  },
  async 'undo and redo by keys'({page, trial}) {
    await trial.press('Control+z');
    assert.equal((await trial.picture())[8], '.'.repeat(20));
    await trial.press('Control+y');
    assert.equal((await trial.picture())[8].slice(8, 13), '..a..');
  },
  async 'a reload loses nothing'({page, trial}) {
    await page.until(() => keep.keeper.isDone && keep.isKept);
    const before = await trial.state();
    await trial.load();
    await page.until(() => document.querySelector('#kept .kept'));
    await page.click('#kept .kept');
    await isOpen(page);
    const after = await trial.state();
    assert.deepEqual(
        [after.picture, after.givens, after.colours, after.strokes],
        [before.picture, before.givens, before.colours, before.strokes]
    );
  },
  async 'a P3 text, a .non text and a PNG come in'({page, trial}) {
    for (const [name, rows, columns] of
             [['flower.ppm', null, null], ['key.non', 5, 10], ['duck.png', 10, 10]]) {
      await trial.load();
      await drop(page, name, example(name));
      if (name.endsWith('.png'))
        await page.until(
            () => document.querySelector('dialog[open]') !== null ||
                !document.body.classList.contains('starting')
        );
      if (await page.run(() => document.querySelector('dialog[open]') !== null))
        await page.press('Enter');
      await isOpen(page);
      const state = await trial.state();
      if (rows) assert.deepEqual([state.rows, state.columns], [rows, columns], name);
      await trial.check(name);
    }
  },
  async 'XML, PNG, P3, .non and a certificate go out'({page, trial}) {
    await trial.load();
    await drop(page, 'key.non', example('key.non'));
    await isOpen(page);
    await page.run(() => bench.stroke(['pin 1 3', 'pin 1 5']));
    await trial.judged();
    for (const id of ['export-xml', 'export-cells', 'export-ppm', 'export-non'])
      await page.run((one) => runAction(one), id);
    await page.run(() => runAction('certificate'));
    assert.match((await downloaded('.xml')).toString(), /<puzzleset>/);
    assert.match((await downloaded('.ppm')).toString(), /^P3\n/);
    assert.match((await downloaded('.non')).toString(), /^title "Key"\nwidth 10\nheight 5\nrows\n/);
    assert.match(
        (await downloaded('.cert')).toString(), /^nono(?:cert|lemma) 2\ngiven 1 3\ngiven 1 5\n/
    );
    const png = await downloaded('-cells.png');
    assert.deepEqual([png.readUInt32BE(16), png.readUInt32BE(20)], [10, 5]);
  },
  async 'a certificate is checked, and the library goes out as an archive and comes back'(
      {page, trial}
  ) {
    const certificate = await downloaded('.cert');
    await drop(page, 'key.cert', certificate);
    await page.until(
        () => document.getElementById('said'
        ).textContent.includes('only solution with its given cells')
    );
    await page.run(() => runAction('new'));
    await page.until(() => document.querySelector('#library .kept'));
    const count = await page.run(async () => (await keep.keeper.cards()).length);
    await page.click('#library-export');
    await drop(page, 'all.zip', await downloaded('.zip'));
    await page.until(
        (wanted) => document.getElementById('said'
        ).textContent.includes(`${wanted} picture${wanted === 1 ? '' : 's'} there already`),
        count
    );
    assert.equal(await page.run(async () => (await keep.keeper.cards()).length), count);
    await page.click('#start-back');
    await isOpen(page);
    assert.equal((await trial.state()).columns, 10);
  },
  async 'the puzzle and its solution are printed, a page each'({browser, page}) {
    await page.run(() => {
      window.print = () => {};
    });
    await page.press('Control+p');
    await page.until(() => document.querySelector('dialog[open]') !== null);
    await page.press('Enter');
    await page.until(() => document.querySelectorAll('.printed').length === 2);
    const pdf = Buffer.from(await browser.send('WebDriver:Print', {}), 'base64');
    writeFileSync(join(folder, 'sheet.pdf'), pdf);
    assert.equal(pdf.subarray(0, 5).toString(), '%PDF-');
  },
  async 'a link of 30 by 30 cells in 8 colours is short, and opens in the editor, and in the player alone'(
      {page, trial}
  ) {
    await trial.load();
    await drop(page, 'eight.ppm', Buffer.from(eightColours()));
    await isOpen(page);
    const {picture, colours} = await trial.state();
    assert.deepEqual([picture.length, colours.length], [30, 8]);
    const links = await page.run(
        async () => [await fragmentOf(bench.state, 'edit'), await fragmentOf(bench.state, 'play')]
    );
    for (const link of links) {
      assert.ok(trial.url.length + link.length < 2000, `${link.length} characters`);
      await page.goto('about:blank');
      await page.goto(`${trial.url}${link}`);
      await isOpen(page);
      assert.deepEqual((await trial.state()).picture, picture);
    }
    await page.until(() => document.getElementById('play-room')?.open);
    await page.press('Escape');
    assert.equal(await page.run(() => document.getElementById('play-room').open), true);
  },
};

const POINTS = {
  stillPoint,
  smallPoint,
  mendingPoint,
  aimPoint,
  firstPoint,
  placesPoint,
  limitsPoint,
  alikePoint,
  pickingPoint,
  contactsPoint,
  comingPoint,
  spritesPoint,
  tablePoint
};
for (const [name, act] of Object.entries(POINTS)) {
  steps[name] = async ({page, trial}) => {
    await clean(page);
    await trial.load();
    await act(new FirefoxUser(page, trial, 'mouse'), {page, trial, own: downloads, folder});
    await page.run(() => {
      bench.isSaved = true;
    });
  };
}
const wanted = process.argv.slice(3);
// The step with published cells has words of a later engine than that of the release.
const isLate = (name) => name.startsWith('a certificate') && waits('0.7.0');
const isWanted = (name) =>
    !isLate(name) && (!wanted.length || wanted.some((one) => name.startsWith(one)));

rmSync(downloads, {recursive: true, force: true});
mkdirSync(downloads, {recursive: true});
const url = hookedPage(PAGE, folder);
const browser = await Firefox.start(downloads);
let failed = 0;
try {
  await browser.send('WebDriver:SetWindowRect', {width: 1280, height: 900});
  const page = new Tab(browser), trial = new Trial(page, url, folder);
  for (const name of Object.keys(steps).filter(isLate))
    console.log(`left out: ${name}: ${isLate(name)}`);
  for (const [name, step] of Object.entries(steps).filter(([one]) => isWanted(one))) {
    try {
      await step({browser, page, trial});
      console.log(`passed: ${name}`);
    } catch (fault) {
      failed++;
      console.log(`FAILED: ${name}: ${fault.stack ?? fault}`);
      await page.shot(join(folder, `failed-${failed}.png`)).catch(() => {});
    }
  }
} finally {
  await browser.close();
}
console.log(`${Object.keys(steps).filter(isWanted).length} steps in Firefox, ${
    failed} failed; pictures in ${folder}`);
process.exit(failed ? 1 : 0);
