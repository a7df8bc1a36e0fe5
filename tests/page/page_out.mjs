// Trials of the page's ways out, in Chromium: saving, exports and print. Each is a test of the
// runner tests/page/page_test.mjs.
import assert from 'node:assert/strict';
import {execFileSync} from 'node:child_process';
import {readFileSync, readdirSync, rmSync, writeFileSync} from 'node:fs';
import {join} from 'node:path';
import {
  NO_PICKERS,
  act,
  cellName,
  clean,
  coloursAt,
  downloaded,
  drop,
  examples,
  fresh,
  isKept,
  isOpen,
  menu,
  said
} from './page_common.mjs';
import {SIZES, noise, ppmOf} from './page_trial.mjs';

/**
 * Ctrl+S downloads an XML text under the document's name that opens as it was, texts and names
 * too; then nothing asks on leaving.
 */
export async function savedAsDownload({browser, url, folder}) {
  const {page, trial, own} = await fresh(browser, url, folder, 'saved');
  await page.click('#new-go');
  await isOpen(page);
  await page.run(
      () => bench.stroke(['colour add 200 100 50', 'colour add 1 2 3', 'fill 2 2 4 9 b', 'pin 3 3'])
  );
  await page.run(() => bench.become((doc) => ({
                                      ...doc,
                                      about: {title: 'A & B', author: 'C'},
                                      inks: [{}, {}, {name: 'rust', sign: '%'}],
                                      locks: new Set([25])
                                    })));
  await page.press('Control+s');
  const {name, content} = await downloaded(page, own, '.xml');
  assert.equal(name, 'picture.xml');
  const page_ = () => page.run(
      () =>
          [bench.state.about.title,
           bench.state.about.author,
           bench.state.inks[2].name,
           bench.state.inks[2].sign,
           [...bench.state.locks]]
  );
  assert.deepEqual(await page_(), ['A & B', 'C', 'rust', '%', [25]]);
  const before = await trial.state();
  const dialogs = page.dialogs.length;
  await trial.load();
  assert.equal(page.dialogs.length, dialogs);
  await drop(page, own, 'picture.xml', content);
  await isOpen(page);
  assert.deepEqual(await page_(), ['A & B', 'C', 'rust', '%', [25]]);
  const after = await trial.state();
  assert.deepEqual(
      [after.picture, after.colours, after.givens], [before.picture, before.colours, before.givens]
  );
  await page.close();
}

/**
 * What is seen is what goes out: a move that floats is set down, and a stroke that is not answered
 * yet is waited for.
 */
export async function savedAsSeen({browser, url, folder}) {
  const {page, trial, own} = await fresh(browser, url, folder, 'seen');
  await trial.open(ppmOf(['aa...', '.....', '.....']), 'seen');
  await page.press('s');
  await trial.drag([[1, 1], [1, 2]]);
  await trial.drag([[1, 1], [3, 4]]);
  await page.press('Control+s');
  assert.match(
      (await downloaded(page, own, 'seen.xml')).content.toString(),
      /\|\.{5}\|\n\|\.{5}\|\n\|\.\.\.XX\|/
  );
  assert.deepEqual(await trial.picture(), ['.....', '.....', '...aa']);
  assert.equal(await page.run(() => bench.isSaved), true);
  await page.run(() => {
    bench.stroke(['paint 1 1 a']);
    runAction('export-ppm');
  });
  assert.match(
      (await downloaded(page, own, '.ppm')).content.toString(), /\n5 3\n255\n0 0 0\n255 255 255\n/
  );
  await page.close();
}

/** By the browser's file access: asked once, then written again to the same file. */
export async function savedToFile({browser, url, folder}) {
  const pickers =
      `window.written = []; window.asked = 0; window.showSaveFilePicker = async ({ suggestedName }) => { window.asked++; return { name: 'mine.ppm', suggestedName,
        createWritable: async () => ({ write: async (text) => { window.written.push(text); }, close: async () => {} }) }; };`;
  const {page, trial} = await fresh(browser, url, folder, 'access', {before: pickers});
  await page.click('#new-go');
  await isOpen(page);
  for (const cell of [[2, 2], [3, 3]]) {
    await trial.drag([cell]);
    await page.press('Control+s');
    await page.until(() => bench.isSaved);
  }
  const [asked, written, title] =
      await page.run(() => [window.asked, window.written, document.title]);
  assert.deepEqual([asked, written.length, title], [1, 2, 'mine – nonobench']);
  assert.match(written[1], /^P3\n/);
  await page.close();
}

/**
 * What goes out late is the picture that was seen, under its name, whatever was opened meanwhile;
 * and what a dialog about it asked changes no other.
 */
export async function savedOfItsPicture({browser, url, folder}) {
  const late =
      `${NO_PICKERS} const [PlainWorker, { toBlob }] = [window.Worker, HTMLCanvasElement.prototype];
        const later = (what, run) => (what === window.late ? Object.assign(window, { late: '', go: run }) : run());
        window.Worker = class extends PlainWorker { postMessage(data) { later(data.call, () => super.postMessage(data)); } };
        HTMLCanvasElement.prototype.toBlob = function (...words) { later('blob', () => toBlob.apply(this, words)); };`;
  const {page, trial, own} = await fresh(browser, url, folder, 'late', {before: late});
  const open = (name, picture) => page.run(
      (one, rows) => openDoc(
          {
            rows: rows.length,
            columns: rows[0].length,
            maxval: 255,
            colours: [[255, 255, 255], [0, 0, 0], [200, 40, 40]],
            picture: rows,
            givens: new Set()
          },
          {name: one}
      ),
      name,
      picture
  );
  const openedMeanwhile =
      async (what, begin) => {  // another picture opens when so much of the first is done
    await open('first', ['.ab.', 'aabb', 'bbaa', '.ba.']);
    await page.until(() => document.getElementById('grade').textContent !== '–');
    await isKept(page);
    await page.run((call) => Object.assign(window, {late: call, go: null}) && true, what);
    await begin();
    await page.until(() => window.go);
    await open('second', ['ab']);
    await page.run(() => window.go());
  };
  const namesIn = (zip) =>
      execFileSync('unzip', ['-Z1', join(own, zip)], {encoding: 'utf8'}).trim().split('\n');
  await openedMeanwhile('blob', () => act(page, 'export-empty'));
  await downloaded(page, own, 'first-puzzle.png');
  await openedMeanwhile('assess', () => act(page, 'export-site'));
  await downloaded(page, own, 'first-site.zip');
  assert.deepEqual(namesIn('first-site.zip'), ['first.ppm', 'first.ppm.cert', 'first.ppm.txt']);
  await openedMeanwhile('open', async () => {
    await page.press('Control+p');
    await page.until(() => document.querySelector('#print-all'));
    await page.run(() => {
      document.querySelector('#print-all').click();
      document.querySelector('dialog .buttons button:nth-child(2)').click();
    });
  });
  await downloaded(page, own, 'first-print.zip');
  assert.ok(namesIn('first-print.zip').every((name) => /^first \d\d\.svg$/.test(name)));
  await openedMeanwhile('', () => page.run(() => {
    const file = {
      name: 'mine.xml',
      createWritable: async () => ({
        write: async (text) => {
          window.written = text;
        },
        close: async () => {}
      })
    };
    window.showSaveFilePicker = () => new Promise((resolve) => {
      window.go = () => resolve(file);
    });
    runAction('save');
  }));
  assert.equal((await page.until(() => window.written)).match(/\|.{4}\|/g)?.length, 4);
  assert.deepEqual(await page.run(() => [bench.name, saving.handle]), ['second', null]);
  await openedMeanwhile('', () => page.run(() => {
    runAction('resize');
    window.go = () => {
      document.querySelector('dialog[open] input').value = 5;
      document.querySelector('dialog[open] button.main').click();
    };
  }));
  await page.until(
      () => document.getElementById('said'
      ).textContent.startsWith('Another picture was opened meanwhile.')
  );
  assert.deepEqual(await trial.picture(), ['ab']);
  await page.close();
}

/** XML goes out and comes back, with givens; its title is text and never HTML. */
export async function xml({browser, url, folder}) {
  const {page, trial, own} = await fresh(browser, url, folder, 'xml');
  await drop(page, own, 'flower.ppm', readFileSync(new URL('flower.ppm', examples)));
  await isOpen(page);
  await page.run(() => {
    bench.become((doc) => ({...doc, about: {title: '<img src=x onerror="window.bad = 1">'}}));
    return bench.stroke(['pin 1 4', 'pin 2 1']);
  });
  await act(page, 'export-xml');
  const {name, content} = await downloaded(page, own, '.xml');
  assert.match(content.toString(), /<title>&lt;img/);
  rmSync(join(own, name));
  await page.run(() => bench.become((doc) => ({...doc, about: {}})));
  await act(page, 'export-xml');
  const {content: untitled} = await downloaded(page, own, '.xml');
  assert.match(untitled.toString(), /<title>flower<\/title>/, 'the name of the file');
  const before = await trial.state();
  await trial.load();
  await drop(page, own, 'flower.xml', content);
  await isOpen(page);
  const after = await trial.state();
  assert.deepEqual(
      [after.picture, after.colours, after.givens.sort()],
      [before.picture, before.colours, before.givens.sort()]
  );
  await page.run(() => {
    window.print = () => {};
  });
  await menu(page, 'print');
  await page.until(() => document.querySelector('#print-title'));
  await page.click('dialog button.main');
  await page.until(() => document.querySelectorAll('.printed').length === 2);
  assert.equal(
      await page.run(() => window.bad ?? document.querySelectorAll('#print img').length), 0
  );
  assert.ok(await page.run(
      () => [...document.querySelectorAll('#print text')].some(
          ({textContent}) => textContent.startsWith('<img')
      )
  ));
  await page.close();
}

/** PNGs, .non, the certificate and the printed sheets. */
export async function exportsAndPrint({browser, url, folder}) {
  const {page, trial, own} = await fresh(browser, url, folder, 'exports');
  await drop(page, own, 'key.non', readFileSync(new URL('key.non', examples)));
  await isOpen(page);
  assert.deepEqual((await trial.picture())[0], '..aaa.....');
  await menu(page, 'export-non');
  assert.match(
      (await downloaded(page, own, '.non')).content.toString(),
      /^title "Key"\nwidth 10\nheight 5\nrows\n/
  );
  await page.run(() => bench.stroke(['pin 1 3', 'pin 1 5']));
  await trial.judged();
  await act(page, 'certificate');
  assert.match(
      (await downloaded(page, own, '.cert')).content.toString(),
      /^nono(?:cert|lemma) 2\ngiven 1 3\ngiven 1 5\n/
  );
  await menu(page, 'export-site');
  await downloaded(page, own, '-site.zip');
  const site = execFileSync(
                   'unzip', ['-Z1', join(own, 'key-site.zip')], {encoding: 'utf8'}
  ).trim().split('\n');
  assert.deepEqual(site, ['key.ppm', 'key.ppm.cert', 'key.ppm.txt', 'key.ppm.givens']);
  assert.equal(
      execFileSync(
          'unzip', ['-p', join(own, 'key-site.zip'), 'key.ppm.givens'], {encoding: 'utf8'}
      ),
      'given 1 3\ngiven 1 5\n'
  );
  await menu(page, 'export-cells');
  const {content} = await downloaded(page, own, '-cells.png');
  assert.deepEqual([content.readUInt32BE(16), content.readUInt32BE(20)], [10, 5]);
  await act(page, 'export-empty');
  assert.ok((await downloaded(page, own, '-puzzle.png')).content.length > 1000);
  await page.run(() => {
    window.print = () => {};
  });
  await page.press('Control+p');
  await page.until(() => document.querySelector('#print-show'));
  await page.run(() => {
    document.getElementById('print-show').value = 'letters';
  });
  await page.press('Enter');
  await page.until(() => document.querySelectorAll('.printed').length === 2);
  const {data} = await page.send('Page.printToPDF', {});
  const pdf = Buffer.from(data, 'base64');
  writeFileSync(join(own, 'sheet.pdf'), pdf);
  assert.equal(pdf.toString('latin1').match(/\/Type ?\/Page\b/g).length, 2);
  await page.run(
      () => openDoc(
          {
            rows: 3,
            columns: 3,
            maxval: 255,
            colours: [[0, 0, 40], [200, 40, 40]],
            picture: ['a..', '.a.', 'aaa'],
            givens: new Set()
          },
          {name: 'night'}
      )
  );
  await trial.judged();
  await menu(page, 'export-site');
  await downloaded(page, own, 'night-site.zip');
  await page.run(
      () => openDoc(
          {
            rows: 1,
            columns: 2,
            maxval: 255,
            colours: [[255, 255, 255], [200, 40, 40]],
            picture: ['a.'],
            givens: new Set([0])
          },
          {name: 'spare'}
      )
  );
  await trial.judged();
  await menu(page, 'export-site');
  await downloaded(page, own, 'spare-site.zip');
  assert.equal(
      await said(page),
      'spare-site.zip saved. But the puzzle is not fit to be published: ' +
          `${cellName(1, 1)} need not be given.`
  );
  const night = (...words) => execFileSync('unzip', [...words], {cwd: own, encoding: 'utf8'});
  assert.equal(
      night('-Z1', 'night-site.zip'),
      'night.ppm\nnight.ppm.cert\nnight.ppm.txt\nnight.ppm.background\n'
  );
  assert.equal(night('-p', 'night-site.zip', 'night.ppm.background'), '0,0,40\n');
  for (const zip of ['night-site.zip', 'key-site.zip']) {  // dropped again, they are these
                                                           // pictures, and all of them is read
    await drop(page, own, zip, readFileSync(join(own, zip)));
    await page
        .until(
            (text) => document.getElementById('said').textContent === text,
            `\u201c${zip}\u201d: 0 pictures added to the library; 1 picture there already.`
        )
        .catch(async () => {
          throw new Error(await said(page));
        });
  }
  await page.close();
}

// Colours of points of the page as it is printed, each by its share of width and height.
async function printedPoints(page, points) {
  await page.send(
      'Emulation.setEmulatedMedia',
      {media: 'print', features: [{name: 'prefers-color-scheme', value: 'dark'}]}
  );
  return coloursAt(page, points);
}

/**
 * Paper is white: neither a dark scheme nor hatching nor a dark background of the picture goes to
 * the empty puzzle.
 */
export async function printedOnWhite({browser, url, folder}) {
  const {page, trial, own} = await fresh(browser, url, folder, 'white');
  await page.send(
      'Emulation.setEmulatedMedia', {features: [{name: 'prefers-color-scheme', value: 'dark'}]}
  );
  await page.run(
      () => openDoc(
          {
            rows: 3,
            columns: 3,
            maxval: 255,
            colours: [[0, 0, 40], [200, 40, 40], [255, 255, 255]],
            picture: ['a..', '.a.', '..b'],
            givens: new Set()
          },
          {name: 'night'}
      )
  );
  await isOpen(page);
  await trial.judged();
  await page.run(() => {
    document.documentElement.dataset.scheme = 'dark';
    setHatching('open');
    window.print = () => {};
  });
  await page.press('Control+p');
  await page.until(() => document.querySelector('dialog input'));
  await page.press('Enter');
  await page.until(() => document.querySelectorAll('.printed').length === 2);
  assert.deepEqual(
      await printedPoints(page, [[0.002, 0.002], [0.002, 0.998], [0.5, 0.002]]),
      Array(3).fill('255,255,255'),
      'the sheet'
  );
  const fills = await page.run(
      () => [...document.querySelectorAll('.printed')].map(
          (sheet) => [...sheet.querySelectorAll('rect')]
                         .filter((one) => !one.hasAttribute('stroke'))
                         .map((one) => one.getAttribute('fill'))
      )
  );
  assert.ok(
      !fills[0].includes('#000028') && fills[1].includes('#000028'),
      'the background is on the solution alone'
  );
  assert.match(await trial.text('.printed'), /red\s+white\s+background: very dark blue/);
  const {data} = await page.send('Page.printToPDF', {printBackground: true});
  writeFileSync(join(own, 'night.pdf'), Buffer.from(data, 'base64'));
  await page.close();
}

// What a PDF has: its pages' sizes in millimetres and the texts of each page, as poppler reads
// them.
function readPdf(path) {
  const run = (tool, ...words) => execFileSync(tool, words, {encoding: 'utf8'});
  const count = Number(/^Pages:\s+(\d+)$/m.exec(run('pdfinfo', path))[1]);
  return Array.from({length: count}, (_, at) => {
    const page = String(at + 1);
    const [, width, height] =
        /size:\s+([\d.]+) x ([\d.]+) pts/.exec(run('pdfinfo', '-f', page, '-l', page, path));
    const words = [
      ...run('pdftotext', '-f', page, '-l', page, '-bbox', path, '-')
          .matchAll(
              /<word xMin="([\d.]+)" yMin="([\d.]+)" xMax="([\d.]+)" yMax="([\d.]+)">([^<]*)<\/word>/g
          )
    ].map(([, left, top, right, bottom, text]) => ({
            text,
            x: (Number(left) + Number(right)) / 2,
            y: (Number(top) + Number(bottom)) / 2
          }));
    return {
      size: [width, height].map((points) => Math.round((Number(points) * 25.4) / 72)),
      words,
      text: run('pdftotext', '-f', page, '-l', page, '-layout', path, '-')
    };
  });
}

// Prints what the page has for print to a PDF, as the browser does it.
async function pdfOf(page, own, name) {
  const {data} =
      await page.send('Page.printToPDF', {preferCSSPageSize: true, printBackground: true});
  const path = join(own, name);
  writeFileSync(path, Buffer.from(data, 'base64'));
  return readPdf(path);
}

async function printWith(page, fields) {
  await page.run(() => {
    window.print = () => {};
    document.getElementById('print').replaceChildren();
  });
  await page.press('Control+p');
  await page.until(() => document.querySelector('#print-show'));
  await page.run((all) => {
    for (const [id, value] of Object.entries(all)) {
      const field = document.getElementById(id);
      if (typeof value === 'boolean')
        field.checked = value;
      else
        field.value = value;
    }
  }, fields);
  await page.click('dialog button.main');
  await page.until(() => document.querySelector('.printed'));
}

/**
 * A PDF is read back: digits and letters of the clues by lines, title, legend, the size of the
 * paper, and the solution behind.
 */
export async function pdfReadBack({browser, url, folder}) {
  const {page, trial, own} = await fresh(browser, url, folder, 'pdf');
  await trial.open(ppmOf(['aabb.c', '.a..cc', 'bbbbbb']), 'three');
  await page.run(
      () => bench.become((doc) => ({...doc, about: {title: 'Three rows', author: 'A Writer'}}))
  );
  await printWith(page, {'print-show': 'letters', 'print-paper': 'a5', 'print-margin': '15'});
  const [puzzle, solution, ...others] = await pdfOf(page, own, 'letters.pdf');
  assert.deepEqual([puzzle.size, solution.size, others.length], [[148, 210], [148, 210], 0]);
  assert.match(puzzle.text, /Three rows\n\s*6 by 3, by A Writer/);
  // Clues of rows from left to right, and of columns from top to bottom, as the picture has them.
  const isClue = ({text}) => /^\d+[abc]$/.test(text);
  const lines = (all, across) => Object.values(
      Object.groupBy?.(all, (one) => Math.round(one[across])) ??
      all.reduce(
          (groups, one) => ({
            ...groups,
            [Math.round(one[across])]: [...(groups[Math.round(one[across])] ?? []), one]
          }),
          {}
      )
  );
  const clues = puzzle.words.filter(isClue);
  // the clues of columns lie right of those of rows
  const top = Math.max(...clues.map(({x}) => x)) - 1;
  const left = Math.min(
      ...clues.filter(({y}) => y < Math.min(...clues.map((one) => one.y)) + 1).map(({x}) => x)
  );
  assert.ok(top > left);
  const rows = lines(
                   clues.filter(({x}) => x < left - 3), 'y'
  ).map((line) => line.sort((one, other) => one.x - other.x).map(({text}) => text).join(' '));
  assert.deepEqual(rows, ['2a 2b 1c', '1a 2c', '6b']);
  const columns = lines(
                      clues.filter(({x}) => x >= left - 3), 'x'
  ).map((line) => line.sort((one, other) => one.y - other.y).map(({text}) => text).join(' '));
  assert.deepEqual(columns, ['1a 1b', '2a 1b', '1b 1b', '1b 1b', '1c 1b', '2c 1b']);
  assert.match(puzzle.text, /a\s+black\s+b\s+red\s+c\s+blue/);
  assert.match(solution.text, /^\s*Three rows: solution/);
  assert.deepEqual(solution.words.filter(({text}) => /^[abc]$/.test(text)).length, 14);
  await page.close();
}

/**
 * A large puzzle is printed over sheets in their order, each of the paper's size, and solutions
 * stand behind; one SVG a sheet is saved.
 */
export async function pdfOfSheets({browser, url, folder}) {
  const {page, trial, own} = await fresh(browser, url, folder, 'sheets');
  await trial.open(
      ppmOf(Array.from(
          {length: 61},
          (_, row) => '.'.repeat(row) + 'a' +
              '.'.repeat(63 - row)
      )),
      'diagonal'
  );
  await trial.settled();
  await printWith(page, {'print-paper': 'letter', 'print-wide': true});
  const pages = await pdfOf(page, own, 'sheets.pdf');
  assert.deepEqual(pages.map(({size}) => size), Array(5).fill([279, 216]));
  const heads = [
    'rows 1 to 35, columns 1 to 35',
    'rows 1 to 35, columns 36 to 64',
    'rows 36 to 61, columns 1 to 35',
    'rows 36 to 61, columns 36 to 64'
  ];
  for (const [at, head] of heads.entries())
    assert.ok(
        pages[at].text.includes(`Sheet ${at + 1} of 4: ${head}`),
        `${at + 1}: ${pages[at].text.slice(0, 200)}`
    );
  assert.match(pages[4].text, /diagonal: solution/);
  for (const [at, {text}] of pages.entries()) assert.match(text, new RegExp(`${at + 1} ?/ ?5`));
  await page.press('Control+p');
  await page.until(() => document.querySelector('#print-show'));
  await page.run(
      () => [...document.querySelectorAll('dialog .buttons button')]
                .find((one) => one.textContent === 'Save the sheets as SVG (zip)')
                .click()
  );
  const {content} = await downloaded(page, own, '.zip');
  const list = execFileSync(
                   'unzip', ['-Z1', join(own, 'diagonal-print.zip')], {encoding: 'utf8'}
  ).trim().split('\n');
  assert.deepEqual(list, [1, 2, 3, 4, 5].map((at) => `diagonal 0${at}.svg`));
  assert.ok(content.length > 10000);
  await page.close();
}

// ---- whose clues leave the page

// Engines that tell another clue of the first row, and memory that ends once a test says so: then
// no engine opens anything.
const OTHER_CLUES =
    `${NO_PICKERS} window.texts = []; const { fillText } = CanvasRenderingContext2D.prototype;
    CanvasRenderingContext2D.prototype.fillText = function (...words) { window.texts.push(words[0]); return fillText.apply(this, words); };
    const OwnWorker = window.Worker; window.Worker = class extends OwnWorker {
        set onmessage(hear) { super.onmessage = ({ data }) => hear({ data: typeof data.ok === 'string' ? { ...data, ok: data.ok.replace(/^r 1: .*$/m, 'r 1: 47b') } : data }); }
        postMessage(data) { return window.isShort && data.call === 'open' ? this.dispatchEvent(new ErrorEvent('error', { message: 'out of memory' })) : super.postMessage(data); }
    };`;
// The first colours of the palette are not the first that are seen, and one is not used.
const SHORE = {
  first: ['c.a', 'cca'],
  second: ['.ac', 'aaa'],
  third: ['ccc', 'a.a']
};

// Three pictures in the library, the last one open, on a page whose engines tell another clue.
async function shore({browser, url, folder}, name) {
  const own = await fresh(browser, url, folder, name, {before: OTHER_CLUES});
  await clean(own.page);
  for (const [title, rows] of Object.entries(SHORE)) {
    await own.page.run(
        (one, picture) => openDoc(
            {
              rows: 2,
              columns: 3,
              maxval: 255,
              colours: [[255, 255, 255], [0, 0, 0], [200, 40, 40], [40, 80, 200]],
              picture,
              givens: new Set()
            },
            {name: one, isSaved: false}
        ),
        title,
        rows
    );
    await isKept(own.page);
  }
  await own.page.run(() => {
    window.print = () => {
      window.isPrinted = true;
    };
  });
  return own;
}

// Prints all of the library, or saves the sheets, with letters.
async function printAll(page, button = 'button.main') {
  await page.run(() => document.getElementById('print').replaceChildren());
  await page.press('Control+p');
  await page.until(() => document.querySelector('#print-others'));
  await page.run(() => {
    document.getElementById('print-show').value = 'letters';
  });
  await page.click('#print-others summary');
  await page.click('#print-all');
  await page.click(`dialog .buttons ${button}`);
}

const printedClues = (page) => page.run(
    () => [...document.querySelectorAll('.printed text')].map(
                                                             (one) => one.textContent
    ).filter((text) => /^\d+[abc]$/.test(text))
);
const unzipped = (own, name) => execFileSync('unzip', ['-p', join(own, name)], {encoding: 'utf8'});
// The clues of XML texts: lengths by the names of colours, a line a text.
const xmlClues = (text) => [...text.matchAll(/<line>(.*)<\/line>/g)].map(
    ([, line]) => [...line.matchAll(/color="([^"]*)">(\d+)/g)]
                      .map(([, name, length]) => `${length} ${name}`)
                      .join(' ')
);
const SHORE_XML = {
  first: ['2 blue', '1 blue', '2 black', '47 red', '2 blue 1 black'],
  second: ['1 black', '2 black', '1 blue 1 black', '47 red', '3 black'],
  third: ['1 blue 1 black', '1 blue', '1 blue 1 black', '47 red', '1 black 1 black']
};

/**
 * Each clue that leaves the page is the one that the engine tells: in XML, on sheets, in images
 * and in archives, of pictures that are not open, too.
 */
export async function cluesOfTheEngine(all) {
  const {page, own} = await shore(all, 'told');
  await act(page, 'export-xml');
  assert.deepEqual(
      xmlClues((await downloaded(page, own, 'third.xml')).content.toString()), SHORE_XML.third
  );
  await page.run(() => {
    window.texts.length = 0;
  });
  await act(page, 'export-empty');
  await downloaded(page, own, '-puzzle.png');
  assert.deepEqual(
      (await page.run(() => window.texts)).sort(),
      ['1', '1', '1', '1', '1', '1', '1', '47'].sort(),
      'the image'
  );
  await page.run(() => dispatchEvent(new Event('beforeprint')));
  assert.deepEqual((await printedClues(page)).length, 0, 'in colours');
  assert.ok(
      await page.run(
          () => [...document.querySelectorAll('.printed text')].some(
              (one) => one.textContent === '47'
          )
      ),
      'by the browser\'s own print'
  );
  await printAll(page);
  await page.until(() => window.isPrinted);
  // By hand, first, second, third: rows, then columns, each from its cells outward.
  const wanted = [
    '47b', '1a', '2c',  '2c', '1c', '2a', '47b', '3a', '1a', '2a',
    '1a',  '1c', '47b', '1a', '1a', '1a', '1c',  '1c', '1a', '1c'
  ];
  assert.deepEqual(await printedClues(page), wanted, 'on paper');
  await printAll(page, 'button:not(.main):not(:first-child)');
  await downloaded(page, own, '-print.zip');
  assert.deepEqual(
      [...unzipped(own, 'third-print.zip').matchAll(/>(\d+[abc])</g)].map(([, text]) => text),
      wanted,
      'in SVG'
  );
  await page.run(() => runAction('new'));
  await page.until(() => document.querySelectorAll('#library .kept').length === 3);
  await page.click('#library-export');
  await downloaded(page, own, 'library.zip');
  for (const [name, lines] of Object.entries(SHORE_XML))
    assert.deepEqual(
        xmlClues(execFileSync(
            'unzip', ['-p', join(own, 'nonobench library.zip'), `${name}.xml`], {encoding: 'utf8'}
        )),
        lines,
        name
    );
  assert.match(await said(page), /^3 pictures saved as/);
  assert.deepEqual(page.faults, []);
  await page.close();
}

/** So they are of several files at once. */
export async function cluesOfFiles(all) {
  const {page, own} = await shore(all, 'files');
  const paths = Object.entries(SHORE).map(([name, rows]) => {
    const path = join(own, `${name}.ppm`);
    writeFileSync(path, ppmOf(rows));
    return path;
  });
  for (const type of ['dragEnter', 'dragOver', 'drop'])
    await page.send(
        'Input.dispatchDragEvent',
        {type, x: 600, y: 400, data: {items: [], files: paths, dragOperationsMask: 1}}
    );
  await page.until(() => document.querySelectorAll('#several tbody tr').length === 3);
  await page.click('dialog[open] .buttons button:nth-of-type(2)');
  await downloaded(page, own, 'puzzles.zip');
  const lines = xmlClues(unzipped(own, 'nonobench puzzles.zip'));
  assert.deepEqual([lines.length, lines.filter((line) => /^47 /.test(line)).length], [15, 3]);
  await page.close();
}

/**
 * Where a picture of the library does not open, nothing is printed or saved, and the page says so.
 */
export async function nothingLeaves(all) {
  const {page, own} = await shore(all, 'short');
  await page.run(() => {
    window.isShort = true;
  });
  const wanted =
      /^Nothing was saved or printed, as “(first|second)” could not be opened: there is not enough memory for it$/;
  for (const button of ['button.main', 'button:not(.main):not(:first-child)']) {
    await printAll(page, button);
    await page.until(() => document.getElementById('said').dataset.kind === 'alarm');
    assert.match(await said(page), wanted);
    await page.click('#said');
  }
  assert.deepEqual(
      await page.run(
          () => [document.querySelectorAll('.printed').length, window.isPrinted ?? false]
      ),
      [0, false]
  );
  await page.run(() => runAction('new'));
  await page.until(() => document.querySelectorAll('#library .kept').length === 3);
  await page.click('#library-export');
  await page.until(() => document.getElementById('said').dataset.kind === 'alarm');
  assert.match(
      await said(page),
      /^Nothing was saved or printed, as “(first|second|third)” could not be opened: there is not enough memory for it$/
  );
  await page.run(() => {
    window.isShort = false;
  });
  await page.click('#library-export');
  await downloaded(page, own, 'library.zip');
  assert.deepEqual(readdirSync(own), ['nonobench library.zip'], 'once there is memory');
  // A record that is damaged, whose card is not: it is not left out of a book unsaid.
  await page.click('#start-back');
  await page.run(async () => {
    const {id} = (await keep.keeper.cards()).find(({name}) => name === 'first');
    await keep.keeper.shelf.put(`work:${id}`, {version: 2, id, doc: null});
  });
  await printAll(page);
  await page.until(() => document.getElementById('said').dataset.kind === 'alarm');
  assert.equal(await said(page), '“first”: This picture of the library is damaged or gone.');
  assert.deepEqual(
      await page.run(
          () => [document.querySelectorAll('.printed').length, window.isPrinted ?? false]
      ),
      [0, false]
  );
  await page.close();
}

const BOOK = {
  first: ['aa.', '.aa'],
  second: ['a.b', 'bb.'],
  third: ['..a', 'a.a']
};

/**
 * Pictures of the library are printed with the open one, in the order of their names: two a
 * sheet, with letters, under their numbers; solutions with titles behind. The PDF is read back.
 */
export async function printPoint(user, {page, own}) {
  for (const [name, picture] of Object.entries(BOOK)) {
    await page.run(
        (title, rows) => openDoc(
            {
              rows: 2,
              columns: 3,
              maxval: 255,
              colours: [[255, 255, 255], [0, 0, 0], [200, 40, 40]],
              picture: rows,
              givens: new Set()
            },
            {name: title}
        ),
        name,
        picture
    );
    await page.until(() => keep.keeper.isDone);
  }
  await isOpen(page);
  await page.run(() => {
    window.print = () => {
      window.isPrinted = true;
    };
  });
  if (user.byKeys)
    await page.press('Control+p');
  else
    await user.menu('file', 'print');
  await page.until(() => document.querySelector('#print-others'));
  await user.choose('#print-paper', 'a5');
  await user.fill('#print-margin', '10');
  await user.choose('#print-count', '2');
  await user.choose('#print-show', 'letters');
  await user.press('#print-others summary');
  await user.tick('#print-all');
  await user.press('dialog button.main');
  await page.until(() => window.isPrinted);
  const sheets = await pdfOf(page, own, 'book.pdf');
  assert.deepEqual(sheets.map(({size}) => size), Array(sheets.length).fill([148, 210]));
  const heads =
      sheets.map(({text}) => text.match(/(Puzzle|Solution) \d(: \w+)?|first|second|third/g));
  assert.deepEqual(heads.slice(0, 2), [['Puzzle 1', 'Puzzle 2'], ['Puzzle 3']]);
  assert.deepEqual(
      heads.slice(2).flat(), ['Solution 1: first', 'Solution 2: second', 'Solution 3: third']
  );
  // By hand: those of rows, and then of columns, of the second; the others have one colour, and so
  // no letters.
  const clues = sheets.slice(
                          0, 2
  ).map(({words}) => words.map(({text}) => text).filter((text) => /^\d+[ab]$/.test(text)).sort());
  assert.deepEqual(clues, [['1a', '1b', '2b', '1a', '1b', '1b', '1b'].sort(), []]);
  for (const [at, {text}] of sheets.entries())
    assert.match(text, new RegExp(`${at + 1} ?/ ?${sheets.length}`));
}

/** The solving path goes out as an animation that ends at the picture. */
export async function pathAsGif({browser, url, folder}) {
  const {page, trial, own} = await fresh(browser, url, folder, 'gif');
  await trial.open(ppmOf(['.ab.', 'aabb', 'bbaa', '.ba.']), 'path');
  assert.equal(await trial.judged(), 'unique');
  await page.run(() => {
    runAction('export-path');
  });
  const {content} = await downloaded(page, own, '-path.gif');
  const film = await page.run(async (bytes) => {
    const decoder = new ImageDecoder(
        {data: Uint8Array.from(atob(bytes), (sign) => sign.charCodeAt(0)), type: 'image/gif'}
    );
    await decoder.tracks.ready;
    await decoder.completed;
    const {frameCount} = decoder.tracks.selectedTrack;
    const at = async (frameIndex) => {
      const {image} = await decoder.decode({frameIndex});
      const pen = new OffscreenCanvas(image.displayWidth, image.displayHeight).getContext('2d');
      pen.drawImage(image, 0, 0);
      const {data} = pen.getImageData(0, 0, image.displayWidth, image.displayHeight);
      const counts = {'0,0,0': 0, '200,40,40': 0};
      for (let place = 0; place < data.length; place += 4) {
        const key = [...data.slice(place, place + 3)].join();
        if (key in counts) counts[key]++;
      }
      return {counts, size: [image.displayWidth, image.displayHeight]};
    };
    return {frameCount, first: await at(0), last: await at(frameCount - 1)};
  }, content.toString('base64'));
  assert.ok(film.frameCount > 3, 'step by step');
  const [side, more] = [24, (key) => film.last.counts[key] - film.first.counts[key]];
  for (const key of ['0,0,0', '200,40,40'])
    assert.ok(
        more(key) > 6 * (side - 3) ** 2 * 0.9 && more(key) < 6 * side ** 2,
        `six cells of ${key} more: ${more(key)}`
    );
  await trial.open(ppmOf(['a.', '.a']), 'ambiguous');
  assert.equal(await trial.judged(), 'ambiguous');
  await page.run(() => {
    runAction('export-path');
  });
  await page.until(
      () => /Only a puzzle with one solution/.test(document.getElementById('said').textContent)
  );
  assert.deepEqual(page.faults, []);
  await page.close();
}

/**
 * What others get: by the title's name, without what is locked, from one part of the menu; one
 * sheet is one SVG; and colours have one name each.
 */
export async function othersPoint(user, {page, trial, own}) {
  await user.press('#new-go');
  await isOpen(page);
  await page.run(
      () => bench.become((doc) => ({
                           ...doc,
                           colours: [[255, 255, 255], [0, 0, 0], [0, 0, 200], [40, 40, 220]],
                           picture: doc.picture.map((row, at) => (at ? row : `abc${row.slice(3)}`)),
                           locks: new Set([25]),
                           inks: [{}, {}, {locked: true}]
                         }))
  );
  if (await page.run(() => document.getElementById('title').checkVisibility()))
    await user.press('#title');
  else
    await user.menu('file', 'about');
  await page.until(() => document.querySelector('dialog[open] input'));
  await user.fill('dialog[open] label:first-child input', 'No.5: a cat');
  await user.press('dialog button.main');
  await page.until(() => bench.state.about.title === 'No.5: a cat');
  await page.run(() => document.activeElement.blur());
  await user.undo();
  await page.until(
      () => document.getElementById('said'
      ).textContent.startsWith('Undone: the last stroke. Title and texts stay.')
  );
  await page.run(() => runAction('redo'));
  await trial.settled();
  await page.until(async () => (await keep.keeper.cards())[0].name === 'No.5  a cat');
  await user.menu('file', 'export-xml');
  const {name, content} = await downloaded(page, own, '.xml');
  assert.equal(name, 'No.5  a cat.xml');
  assert.doesNotMatch(content.toString(), /locks|locked/);
  assert.match(await said(page), /saved, without locks\. .Save as. keeps all of it, in XML\./);
  const names = [...content.toString().matchAll(/<color name="([^"]*)"/g)].map(([, one]) => one);
  assert.deepEqual(names, ['white', 'black', 'darker blue', 'lighter blue']);
  assert.deepEqual(
      await page.run(
          () => [...document.querySelectorAll('#palette button')].map(
              (one) => one.ariaLabel.split(', ')[1]
          )
      ),
      names
  );
  assert.deepEqual(
      await page.run(() => {
        document.querySelector('[popovertarget="menu-file"]').click();
        const ids = [...document.querySelectorAll('#menu-file h2 ~ button'
                     )].map((one) => one.dataset.action);
        document.getElementById('menu-file').hidePopover();
        return ids;
      }),
      [
        'publish',
        'export-xml',
        'export-site',
        'print',
        'book',
        'share',
        'export-empty',
        'export-picture',
        'export-cells',
        'export-path',
        'certificate',
        'export-ppm',
        'export-non'
      ]
  );
  await user.menu('file', 'print');
  await page.until(() => document.querySelector('#print-answers'));
  const svg = () => trial.text('dialog .buttons button:nth-child(2)');
  assert.equal(await svg(), 'Save the sheets as SVG (zip)');
  await user.tick('#print-answers');
  await page.until(
      () => document.querySelector('dialog .buttons button:nth-child(2)').textContent ===
          'Save as SVG'
  );
  await user.press('dialog .buttons button:nth-child(2)');
  const sheet = await downloaded(page, own, '.svg');
  assert.equal(sheet.name, 'No.5  a cat-print.svg');
  assert.match(sheet.content.toString(), />darker blue<[^]*>lighter blue</);
}

/**
 * Letters that are only proposed, for colours too near, are not chosen: the next puzzle is shown
 * in colours, and so is this one once its colours are apart. Who chooses has it again for that
 * puzzle.
 */
export async function lettersAskedAnew({trial, page}) {
  const [near, apart] = [
    {'.': '255 255 255', a: '0 0 0', b: '12 12 12'},
    {'.': '255 255 255', a: '0 0 0', b: '200 40 40'}
  ].map((colours) => ppmOf(['ab', '.a'], colours));
  const proposed = async (fields = {}) => {
    await page.run(() => {
      runAction('print');
    });
    const show = await page.until(() => document.querySelector('dialog[open] #print-show')?.value);
    await page.press('Escape');
    await page.until(() => !document.querySelector('dialog[open]'));
    await printWith(page, fields);
    return [
      show,
      await page.run(
          () => [...document.querySelectorAll('.printed text')].some(
              (one) => one.textContent === '1b'
          )
      )
    ];
  };
  await trial.open(near, 'near');
  assert.deepEqual(await proposed(), ['letters', true]);
  await page.run(
      () => bench.become(
          (doc) => ({...doc, colours: [doc.colours[0], doc.colours[1], [200, 40, 40]]})
      )
  );
  assert.deepEqual(await proposed(), ['colours', false], 'its colours are apart');
  await trial.open(near, 'near');
  assert.deepEqual(await proposed(), ['letters', true], 'another that wants them');
  await trial.open(apart, 'apart');
  assert.deepEqual(
      await proposed({'print-show': 'letters'}),
      ['colours', true],
      'the next, where one chooses them'
  );
  assert.deepEqual(await proposed(), ['letters', true], 'chosen for this puzzle');
  await trial.open(apart, 'next');
  assert.deepEqual(await proposed(), ['colours', false], 'chosen for the one before');
}

/**
 * That tints look alike on paper is said as long as the sheet has them: not beside letters or
 * symbols.
 */
export async function tintsOnPaper({browser, url, folder}) {
  const {page, trial} = await fresh(browser, url, folder, 'tints');
  await trial.open(ppmOf(['ab', '.a'], {'.': '255 255 255', a: '120 0 0', b: '120 60 0'}), 'tints');
  await menu(page, 'print');
  await page.until(() => document.querySelector('#print-show'));
  for (const [show, isSaid] of
           [['colours', true], ['letters', false], ['signs', false], ['colours', true]]) {
    await page.run((value) => {
      const choice = document.getElementById('print-show');
      choice.value = value;
      choice.dispatchEvent(new Event('change', {bubbles: true}));
    }, show);
    await page.until(
        (wanted) => wanted ===
            [...document.querySelectorAll('dialog p.wrong'
             )].some((one) => one.checkVisibility() && /look alike on paper/.test(one.textContent)),
        isSaid
    );
  }
  assert.deepEqual(page.faults, []);
  await page.close();
}

/**
 * What is said before printing is true of all that is ticked, by its name, moves no button, and
 * goes with the dialog.
 */
export async function printNotes({browser, url, folder}) {
  for (const [name, size] of Object.entries(SIZES)) {
    const {page, trial} = await fresh(browser, url, folder, `notes-${name}`, {size});
    await clean(page);
    const colours = [
      [255, 255, 255],
      [220, 110, 100],
      [34, 34, 34]
    ];  // their tints look alike, their frames do not
    for (const [title, picture] of Object.entries(
             {wide: Array(30).fill('a'.repeat(29) + 'b'), twofold: ['a.', '.a'], own: ['ab', 'bb']}
         )) {
      await page.run(
          (one, rows, triples) => openDoc(
              {
                rows: rows.length,
                columns: rows[0].length,
                maxval: 255,
                colours: triples,
                picture: rows,
                givens: new Set()
              },
              {name: one, isSaved: false}
          ),
          title,
          picture,
          colours
      );
      await trial.judged();
      await isKept(page);
    }
    await page.until(async () => (await keep.keeper.cards()).every((card) => card.verdict));
    await page.run(() => {
      window.print = () => {
        window.isPrinted = true;
      };
      runAction('print');
    });
    await page.until(() => document.querySelector('#print-show')?.closest('dialog[open]'));
    const place = () => page.run(
        () => ['left', 'top']
                  .map(
                      (side) =>
                          document.querySelector('dialog button.main').getBoundingClientRect()[side]
                  )
                  .join()
    );
    const notes = () => page.run(
        () => [...document.querySelectorAll('dialog[open] .content p')]
                  .filter((one) => one.checkVisibility())
                  .map((one) => one.textContent)
                  .join(' ')
    );
    const before = await place();
    assert.equal((await notes()).trim(), '', name);
    await page.run(() => document.getElementById('print-all').click());
    await page.until(
        () => /“twofold”: Another picture has the same clues/.test(
            document.querySelector('dialog[open] .content').textContent
        )
    );
    assert.equal(await trial.text('#print-small'), '', `${name}: one on each sheet`);
    assert.equal(await place(), before, `${name}: ticked`);
    for (const [id, value] of
             [['print-count', '6'], ['print-show', 'letters'], ['print-show', 'colours']]) {
      await page.run((field, chosen) => {
        document.getElementById(field).value = chosen;
        document.getElementById(field).dispatchEvent(new Event('change', {bubbles: true}));
      }, id, value);
      await page.until(
          () => /^The smallest cells are 2\.\d mm wide/.test(document.getElementById('print-small'
          ).textContent)
      );
      assert.equal(await place(), before, `${name}: ${id} ${value}`);
    }
    assert.doesNotMatch(await notes(), /look alike/, name);
    await page.shot(`${folder}/print-${name}.png`);
    await page.click('dialog button.main');
    await page.until(() => window.isPrinted);
    assert.equal(await said(page), '', `${name}: nothing stays`);
    await page.close();
  }
}

/**
 * More sheets than are printed at once are told before that, and the dialog stays; with more
 * puzzles on a sheet it goes on.
 */
export async function sheetsBound({browser, url, folder}) {
  const {page} = await fresh(browser, url, folder, 'bound');
  await clean(page);
  await page.run(
      () => openDoc(
          {
            rows: 2,
            columns: 2,
            maxval: 255,
            colours: [[255, 255, 255], [0, 0, 0]],
            picture: ['aa', 'a.'],
            givens: new Set()
          },
          {name: 'own', isSaved: false}
      )
  );
  await isKept(page);
  await page.run(async () => {
    const {record, card} = await keep.keeper.entry(keep.id);
    await keep.keeper.shelf.putAll(
        Array
            .from(
                {length: 299},
                (_, at) => [['work', record], ['card', card]].map(
                    ([kind, value]) => [`${kind}:more${at}`, {...value, id: `more${at}`}]
                )
            )
            .flat()
    );
    window.print = () => {
      window.isPrinted = true;
    };
    runAction('print');
  });
  await page.until(() => document.querySelector('#print-all')?.closest('dialog[open]'));
  const change = (...ids) => page.run((fields) => {
    for (const [id, value] of fields) {
      const field = document.getElementById(id);
      if (typeof value === 'boolean')
        field.checked = value;
      else
        field.value = value;
      for (const kind of ['input', 'change']) field.dispatchEvent(new Event(kind, {bubbles: true}));
    }
  }, ids);
  const wrong = () => [...document.querySelectorAll('dialog[open] p.wrong')]
                          .map((one) => one.textContent)
                          .find(
                              (text) => text.startsWith(
                                  'These are 350 sheets; at most 300 are printed or saved at once.'
                              )
                          );
  await change(['print-all', true]);
  await page.until(wrong);  // and 50 of solutions, six on each
  assert.equal(
      await page.run(() => {  // as often as the margin is read
        let reads = 0;
        const field = Object.defineProperty(document.getElementById('print-margin'), 'value', {
          get() {
            reads++;
            return '12';
          },
          configurable: true
        });
        field.dispatchEvent(new Event('change', {bubbles: true}));
        delete field.value;
        return reads;
      }),
      1,
      'sheets are counted once for a change'
  );
  for (const button of ['2)', '3)']) {
    await page.click(`dialog .buttons button:nth-child(${button}`);
    await page.until(
        () => document.querySelector('dialog[open] p.wrong[role=alert]'
        ).textContent.startsWith('These are 350')
    );
  }
  await change(['print-answers', false]);
  await page.until(() => document.getElementById('print-small'));
  assert.equal(await page.run(wrong), undefined, 'the last that are not too many: 300');
  await change(['print-answers', true], ['print-count', '6']);
  await page.click('dialog button.main');
  await page.until(() => window.isPrinted);
  assert.equal(await page.run(() => document.querySelectorAll('.printed').length), 100);
  assert.deepEqual(page.faults, []);
  await page.close();
}

/**
 * Who asks for a certificate of a picture with a second solution is told so, with what mends it,
 * also where the search for it finds that; the next stroke takes it back.
 */
export async function noCertificateOfTwo({browser, url, folder}) {
  const {page, trial} = await fresh(browser, url, folder, 'two');
  for (const isKnown of [true, false]) {
    await trial.open(ppmOf(noise(40, 40, '...ab', 9)), 'two');
    if (isKnown) await trial.judged();
    await menu(page, 'export-site');
    await page.until(
        () => /second solution.*Fix it/.test(document.getElementById('said').textContent)
    );
    assert.equal(
        await page.run(() => document.getElementById('task').checkVisibility()),
        false,
        'nothing runs any more'
    );
    assert.equal(await page.run(() => bench.state.verdict.word), 'ambiguous');
    await page.click('#said button');
    await page.until(() => !document.getElementById('fix').hidden);
    assert.equal(await said(page), '');
    await menu(page, 'export-site');
    await page.until(() => document.querySelector('#said button'));
    await page.run(() => bench.stroke(['fill 1 1 2 2 a']));
    await page.until(() => document.getElementById('said').textContent === '');
  }
  assert.deepEqual(page.faults, []);
  await page.close();
}
