// Tries the built page in headless Chromium: by mouse, keys and fingers, at three sizes of the
// window. What is shown is compared with sessions of `nonobench work` on the same picture. A table
// at the end says which of the page's points hold, by size and input. Usage: node
// tests/page/page_test.mjs FOLDER [TEST ..], where FOLDER gets pictures of the page, and TEST is
// the name of a trial, the beginning of one ('drawing:' are all that begin so), or that of a group
// of trials (`pens` for page_pens.mjs). PAGE is the built page (web/out/nonobench.html if it is
// there, else dist/nonobench.html), NONOBENCH the program (none: nothing is compared), SLACK a
// factor for the bounds of time, CHROMIUM the browser. It needs unzip and poppler's pdfinfo and
// pdftotext.
import {existsSync} from 'node:fs';
import {resolve} from 'node:path';
import {fileURLToPath} from 'node:url';
import {Browser, pause} from './page_browser.mjs';
import {Trial, hookedPage} from './page_trial.mjs';
import * as books from './page_books.mjs';
import * as coming from './page_coming.mjs';
import * as drawing from './page_drawing.mjs';
import * as languages from './page_languages.mjs';
import * as lasting from './page_lasting.mjs';
import * as looks from './page_looks.mjs';
import * as loss from './page_loss.mjs';
import * as marks from './page_marks.mjs';
import * as meaning from './page_meaning.mjs';
import * as mending from './page_mending.mjs';
import * as opening from './page_opening.mjs';
import * as out from './page_out.mjs';
import * as pens from './page_pens.mjs';
import * as phone from './page_phone.mjs';
import * as pictures from './page_pictures.mjs';
import * as points from './page_points.mjs';
import * as repairs from './page_repairs.mjs';
import * as safe from './page_safe.mjs';
import * as screens from './page_screens.mjs';
import * as sharing from './page_sharing.mjs';
import * as stored from './page_stored.mjs';
import * as two from './page_two.mjs';

const [folder, ...only] = [resolve(process.argv[2]), ...process.argv.slice(3)];
const pageOf = (folder) =>
    fileURLToPath(new URL(`../../${folder}/nonobench.html`, import.meta.url));
const url =
    hookedPage(process.env.PAGE ?? [pageOf('web/out'), pageOf('dist')].find(existsSync), folder);
if (!process.env.NONOBENCH)
  console.log('no program: what is shown is not compared with a session (set NONOBENCH)');
const groups = {
  books,
  safe,
  drawing,
  languages,
  lasting,
  loss,
  marks,
  meaning,
  mending,
  repairs,
  opening,
  stored,
  out,
  looks,
  screens,
  pens,
  phone,
  sharing,
  coming,
  pictures,
  two,
  points: points.tests
};
const isWanted = (name, group) => !only.length ||
    only.some(
        (one) => one === name || one === group || (one.endsWith(':') && name.startsWith(one))
    );
const tests = Object.entries(groups).flatMap(
    ([group, trials]) => Object.entries(trials).filter(
        ([name, test]) =>
            typeof test === 'function' && !name.endsWith('Point') && isWanted(name, group)
    )
);
const browser = new Browser();
const passed = new Set();
let failed = 0;
for (const [name, test] of tests) {
  const trial = await Trial.start(browser, url, folder);
  const {page} = trial;
  try {
    await test({browser, trial, page, url, folder});
    if (page.faults.length) throw new Error(`the browser complained: ${page.faults.join('; ')}`);
    passed.add(name);
    console.log(`passed: ${name}`);
  } catch (fault) {
    failed++;
    console.log(`FAILED: ${name}: ${fault.stack ?? fault}`);
    await Promise.race([page.shot(`${folder}/failed-${name}.png`), pause(5000)]
    ).catch(() => {});  // of a tab behind others none comes
  }
  await page.run(
                () => localStorage.clear()
  ).catch(() => {});  // what was chosen holds for this trial alone
  await page.close().catch(() => {});
}
await browser.close();
if (tests.some(([name]) => name in points.tests))
  console.log(points.table(new Set(tests.map(([name]) => name)), passed));
console.log(`${tests.length} tests, ${failed} failed; pictures in ${folder}`);
process.exit(failed ? 1 : 0);
