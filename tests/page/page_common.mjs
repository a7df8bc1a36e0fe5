// What the trials of the page have in common: files that are dropped, tabs of their own, downloads,
// menus, a server, a hard picture, and what the page calls a cell.
import assert from 'node:assert/strict';
import {mkdirSync, readFileSync, readdirSync, rmSync, writeFileSync} from 'node:fs';
import {createServer} from 'node:http';
import {extname, join} from 'node:path';
import {phrase} from '../../page/texts/phrase.js';
import {waitFor} from './page_browser.mjs';
import {SIZES, Trial, ppmOf} from './page_trial.mjs';

export const examples = new URL('../../examples/', import.meta.url);
export const DUCK = [
  '...aa.....',
  '..aaaa....',
  'bbaacaa...',
  '..aaaa....',
  '...aa....a',
  '..aaaaaaaa',
  '.aaaaaaaa.',
  '.aaaaaaa..',
  '..aaaaa...',
  '....b.b...'
];
export const NO_PICKERS = 'delete window.showSaveFilePicker; delete window.showOpenFilePicker;';
export const frames = (page) => page.run(
    () => new Promise(
        (go) => requestAnimationFrame(() => requestAnimationFrame(() => setTimeout(go, 0)))
    )
);
export const said = (page) => page.run(() => document.getElementById('said').textContent);
export const isOpen = (page) =>
    page.until(
            () => !document.body.classList.contains('starting') && bench.state !== null
    ).catch(async () => {
      throw new Error(`nothing is open: ${await said(page)} ${page.faults.join('; ')} ${
          await page.run(
              () => `${document.body.className} ${document.hasFocus()} ${
                  document.querySelector('dialog[open]')?.textContent}`
          )}`);
    });
export const isKept = (page) => page.until(() => keep.keeper.isDone && keep.isKept);

/** Writes a file to the folder and drops it on the middle of the window. */
export async function drop(page, folder, name, content) {
  mkdirSync(join(folder, 'in'), {recursive: true});
  const path = join(folder, 'in', name);
  writeFileSync(path, content);
  const data = {items: [], files: [path], dragOperationsMask: 1};
  const [x, y] = await page.run(() => [innerWidth / 2, innerHeight / 2]);
  const send = (type) => page.send('Input.dispatchDragEvent', {type, x, y, data});
  await page.send('Page.bringToFront');
  await send('dragEnter');
  for (let tries = 0; tries < 100; tries++) {  // until the page has heard that a file is over it
    await send('dragOver');
    if (await page.run(() => document.body.classList.contains('dropping'))) break;
    await new Promise((go) => setTimeout(go, 30));
  }
  assert.ok(
      await page.run(() => document.body.classList.contains('dropping')),
      'the page hears of a file that is over it'
  );
  await send('drop');
  await page.until(() => !document.body.classList.contains('dropping'));  // and that it was dropped
}

/** A tab of its own without file access, in a folder of its own for downloads. */
export async function fresh(
    browser, url, folder, name, {size = SIZES.small, before = NO_PICKERS} = {}
) {
  const own = join(folder, name);
  rmSync(own, {recursive: true, force: true});
  mkdirSync(own, {recursive: true});
  const page = await browser.page({...size, downloads: own});
  await page.before(before);
  const trial = new Trial(page, url, own);
  await trial.load();
  return {page, trial, own};
}

/** Nothing is kept from before. */
export const clean = (page) => page.run(async () => {
  await keep.ready();
  for (const card of await keep.keeper.cards()) await keep.keeper.drop(card.id);
});

/** Goes on with the first that the browser keeps. */
export async function goOn(page) {
  await page.until(() => document.querySelector('#kept .kept'));
  await page.click('#kept .kept');
}

/** The text of the first download with an ending. */
export async function downloaded(page, own, ending) {
  return waitFor(() => {
    const name = readdirSync(own).find((one) => one.endsWith(ending));
    const content = name && readFileSync(join(own, name));
    return content?.length && {name, content};
  }, `a download ${ending}`);
}

/** A cell, counted from 1, as the page names it within a text. */
export const cellName = (row, column) => phrase('view.placeOfCell', {value: row, columns: column});

/** A pattern of the names of all cells that lie in some rows and columns. */
export const cellNames = (rows, columns) =>
    `(${rows.flatMap((row) => columns.map((column) => cellName(row, column))).join('|')})`;

/** Does what a menu has. */
export const act = (page, id) => page.run((one) => {
  runAction(one);
}, id);
export const menu = async (page, id) => {
  await page.run(() => document.querySelector('#menus [popovertarget="menu-file"]').click());
  await page.run((one) => document.querySelector(`#menu-file [data-action="${one}"]`).click(), id);
};

/** Colours of what is seen at points, each by its share of the window's width and height. */
export async function coloursAt(page, points) {
  const {data} = await page.send('Page.captureScreenshot', {format: 'png'});
  return page.run(async (shot, all) => {
    const image = Object.assign(new Image(), {src: `data:image/png;base64,${shot}`});
    await image.decode();
    const pen =
        Object.assign(
                  document.createElement('canvas'), {width: image.width, height: image.height}
        ).getContext('2d');
    pen.drawImage(image, 0, 0);
    return all.map(
        ([x, y]
        ) => [...pen.getImageData(Math.floor(x * image.width), Math.floor(y * image.height), 1, 1)
                  .data]
                 .slice(0, 3)
                 .join()
    );
  }, data, points);
}

/** Waits until the dialog for pictures tells a text of what is made. */
export const facts = (page, text) => page.until(
    (wanted) => document.querySelector('#import-facts')?.textContent.includes(wanted), text
);

/**
 * Opens the dialog on an image of rectangles `[colour, left, top, width, height]`, each over those
 * before it.
 */
export async function openDrawn(
    page, width, height, parts, {name = 'drawn.png', type = 'image/png'} = {}
) {
  await page.run(async (wide, high, all, file, kind) => {
    const canvas = Object.assign(document.createElement('canvas'), {width: wide, height: high});
    const pen = canvas.getContext('2d');
    for (const [colour, ...box] of all) {
      pen.fillStyle = colour;
      pen.fillRect(...box);
    }
    const blob = await new Promise((go) => canvas.toBlob(go, kind));
    takeFile(new File([blob], file, {type: kind}));
  }, width, height, parts, name, type);
  await page.until(() => document.querySelector('#import-facts')?.textContent);
}

/** A chequered picture on which neither verdict nor certificate came in a minute and a half. */
export const hard = () => ppmOf(Array.from(
    {length: 60},
    (_, row) => Array.from({length: 60}, (_, col) => '.abc'[((row >> 1) + (col >> 1)) % 4]).join('')
));

const TYPES = {
  '.html': 'text/html',
  '.js': 'text/javascript',
  '.svg': 'image/svg+xml',
  '.webmanifest': 'application/manifest+json'
};

/**
 * Serves the site's folder, and a page with a frame: its address, what was asked for, and an end.
 */
export async function serve(folder) {
  const site = join(folder, 'hooked', 'site');
  const asked = [];
  const answer = (request, response) => {
    const path = new URL(request.url, 'http://here').pathname;
    asked.push(path);
    if (path === '/frame')
      return response.end(
          '<!doctype html><p id="told"></p><script>addEventListener("message", (e) => { told.textContent += JSON.stringify(e.data); })</script>'
      );
    try {
      const file = path === '/' ? 'index.html' : path.slice(1);
      const content = readFileSync(join(site, file));
      response.setHeader('Content-Type', TYPES[extname(file)] ?? 'application/octet-stream');
      return response.end(content);
    } catch {
      response.statusCode = 404;
      return response.end();
    }
  };
  const server = createServer(answer);
  await new Promise((go) => server.listen(0, '127.0.0.1', go));
  const end = () => {
    server.closeAllConnections();
    return new Promise((go) => server.close(go));
  };
  return {url: `http://127.0.0.1:${server.address().port}/`, asked, end};
}
