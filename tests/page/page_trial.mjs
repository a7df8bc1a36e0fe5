// A trial of the built page in a browser: the page's own objects by name, cells and buttons as a
// user meets them, and what a session of `nonobench work` says to the same picture.
import assert from 'node:assert/strict';
import {spawnSync} from 'node:child_process';
import {mkdirSync, readFileSync, writeFileSync} from 'node:fs';
import {join} from 'node:path';
import {fileURLToPath, pathToFileURL} from 'node:url';
import {gunzipSync} from 'node:zlib';
import {bytesOfSigns} from '../../page/engine/signs.js';

export const SLACK = Number(process.env.SLACK ?? 1);
export const SIZES = {
  small: {width: 1280, height: 800},
  large: {width: 1920, height: 1080},
  phone: {width: 390, height: 844, touch: true}
};
// Notes each worker, so that a test can end one.
const NOTE_WORKERS = `window.workers = []; const PlainWorker = window.Worker;
window.Worker = class extends PlainWorker { constructor(...words) { super(...words); window.workers.push(this); } terminate() { this.isEnded = true; super.terminate(); } };`;

const ROOT = fileURLToPath(new URL('../..', import.meta.url));

/**
 * The page of this tree with its objects in the window by name, and the module of WebAssembly of a
 * built page, written to a folder; gives its address.
 */
export function hookedPage(built, folder) {
  const found = /<script type="application\/json" id="built">([^<]*)<\/script>/.exec(
      readFileSync(built, 'utf8')
  );
  assert.ok(found, `${built} is not the built page`);
  const own = join(folder, 'hooked');
  mkdirSync(own, {recursive: true});
  const {packed, size, worker} = JSON.parse(found[1]);
  writeFileSync(
      join(own, 'nonobench.wasm'), gunzipSync(bytesOfSigns(packed, size)).subarray(worker)
  );
  const done = spawnSync(
      process.execPath,
      [join(ROOT, 'web', 'join.mjs'), ROOT, own, join(ROOT, 'page', 'test', 'hooked.js')],
      {encoding: 'utf8'}
  );
  assert.equal(done.status, 0, done.stdout + done.stderr);
  return pathToFileURL(join(own, 'nonobench.html')).href;
}

/** What `nonobench work` answers to lines on a picture; null where there is no program. */
export function session(text, background, lines, folder) {
  const program = process.env.NONOBENCH;
  if (!program) return null;
  const file = join(folder, 'session.ppm');
  writeFileSync(file, text);
  const done = spawnSync(
      program,
      ['work', file, ...(background ? ['--background', background] : [])],
      {input: lines.map((line) => `${line}\n`).join(''), encoding: 'utf8', maxBuffer: 1 << 28}
  );
  assert.equal(done.status, 0, done.stderr);
  return done.stdout;
}

export class Trial {
  constructor(page, url, folder) {
    Object.assign(this, {page, url, folder});
  }

  static async start(browser, url, folder, size = SIZES.small) {
    const page = await browser.page({...size, downloads: folder});
    await page.before(NOTE_WORKERS);
    const trial = new Trial(page, url, folder);
    await trial.load();
    return trial;
  }

  async load() {
    await this.page.goto(this.url);
    await this.page.until(() => 'listed' in (document.getElementById('start')?.dataset ?? {}));
  }

  /**
   * Opens a P3 text as a file that is handed to the page. It is not kept, and nothing asks whether
   * it may be lost.
   */
  async open(text, name = 'trial') {
    await this.page.run(
        (one, file) => bench
                           .open({text: one, format: 'ppm', background: '255,255,255', lines: []}, {
                             name: file
                           })
                           .then(() => {
                             keep.isKept = true;
                           }),
        text,
        name
    );
    await this.page.run(
        () => new Promise((go) => requestAnimationFrame(() => requestAnimationFrame(go)))
    );
  }

  example(name) {
    return this.open(
        readFileSync(new URL(`../../examples/${name}.ppm`, import.meta.url), 'utf8'), name
    );
  }

  /** Waits until strokes are answered. */
  settled() {
    return this.page.until(() => !bench.running && !bench.queue.length);
  }

  /** Waits until a verdict is there or no search runs any more. */
  async judged() {
    await this.settled();
    return this.page.until(
        () => bench.state.verdict.word !== 'undecided' && bench.state.verdict.word
    );
  }

  /** The middle of a cell in the window, rows and columns from 1; it is scrolled there. */
  cell(row, col) {
    return this.page.run((r, c) => {
      sheet.reveal(r, c);
      const {geometry: at} = sheet;
      const box = sheet.view.getBoundingClientRect();
      return [
        box.left + (at.x(c) + at.cell / 2) / at.scale,
        box.top + (at.y(r) + at.cell / 2) / at.scale
      ];
    }, row - 1, col - 1);
  }

  async drag(cells, more) {
    const points = [];
    for (const [row, col] of cells) points.push(await this.cell(row, col));
    await this.page.drag(points, more);
    await this.settled();
  }

  async press(...keys) {
    await this.page.press(...keys);
    await this.settled();
  }

  state() {
    return this.page.run(() => {
      const {
        rows,
        columns,
        maxval,
        colours,
        picture,
        givens,
        map,
        open,
        verdict,
        clues,
        past,
        future
      } = bench.state;
      return {
        rows,
        columns,
        maxval,
        colours,
        picture,
        givens: [...givens],
        map,
        open,
        verdict,
        clues,
        past,
        future,
        strokes: [bench.past.length, bench.future.length]
      };
    });
  }

  async picture() {
    return (await this.state()).picture;
  }

  text(selector) {
    return this.page.run((one) => document.querySelector(one)?.textContent ?? '', selector);
  }

  action(id) {
    return this.page.click(`button[data-action="${id}"]`);
  }

  /** Compares what is shown with a session on the same picture. */
  async check(what) {
    const {text, lines, background, state} = await this.page.run(() => {
      const {rows, columns, maxval, colours, picture, givens, map, open, clues} = bench.state;
      const flat = picture.join('').split('');
      return {
        text: `P3\n${columns} ${rows}\n${maxval}\n${
            flat.map(
                    (letter) => colours['.abcdefghijklmno'.indexOf(letter)].join(' ')
            ).join('\n')}\n`,
        background: colours[0].join(','),
        lines:
            [...givens].map((one) => `pin ${Math.floor(one / columns) + 1} ${(one % columns) + 1}`),
        state: {map, open, clues}
      };
    });
    const said = session(text, background, [...lines, 'allow 0', 'report'], this.folder);
    if (said === null) return;
    const wanted = said.slice(said.indexOf('size ')).split('\n');
    assert.equal(
        wanted.find((line) => line.startsWith('open ')),
        `open ${state.open}`,
        `${what}: the open cells`
    );
    const shape = (rows) => rows.map((row) => row.replace(/[^?]/g, '-'));
    const at = wanted.indexOf('map') + 1;
    assert.deepEqual(
        shape(state.map), shape(wanted.slice(at, at + state.map.length)), `${what}: the map`
    );
    const lengths = wanted.filter(
                              (line) => /^[rc] \d+: /.test(line)
    ).map((line) => line.split(': ')[1].replace(/[a-o]/g, ''));
    const shown = [...state.clues.rows, ...state.clues.columns].map(
        (blocks) => blocks.map((block) => block.length).join(' ') || '0'
    );
    assert.deepEqual(shown, lengths, `${what}: the clues`);
  }
}

/** A P3 text of rows of letters. */
export function ppmOf(rows, colours = {
  '.': '255 255 255',
  a: '0 0 0',
  b: '200 40 40',
  c: '40 80 200'
}) {
  return `P3\n${rows[0].length} ${rows.length}\n255\n${
      rows.flatMap((row) => [...row].map((letter) => colours[letter])).join('\n')}\n`;
}

/** Rows of letters by chance, the same each time. */
export function noise(rows, columns, letters, seed = 7) {
  let state = seed;
  const chance = (below) => (state = (state * 48271) % 2147483647) % below;
  return Array.from(
      {length: rows},
      () => Array.from({length: columns}, () => letters[chance(letters.length)]).join('')
  );
}

/** The P3 text of a picture of 30 by 30 cells that cannot be packed, in 8 colours. */
export function eightColours() {
  const letters = '.abcdefg';
  return ppmOf(
      noise(30, 30, letters),
      Object.fromEntries([...letters].map(
          (letter,
           at) => [letter, at ? `${30 * at} ${250 - 30 * at} ${(97 * at) % 256}` : '255 255 255']
      ))
  );
}
