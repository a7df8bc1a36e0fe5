// Tests of the GIF that the page writes: read back by a reader of its own; and of when it writes
// none. Run: node --test tests/page/page_gif.mjs
import assert from 'node:assert/strict';
import {test} from 'node:test';
import {saidLine} from '../../page/test/worker.mjs';
import {emptyDoc} from '../../page/document/document.js';
import {bench} from '../../page/engine/bench.js';
import {exportPath} from '../../page/export/animation.js';
import {writeGif} from '../../page/formats/gif.js';
import {Walk} from '../../page/play/path.js';
import {searches, verdictView} from '../../page/view/verdict.js';

// The numbers of colours that codes of GIF's LZW stand for.
function unpacked(bytes, bits) {
  const [clear, end] = [1 << bits, (1 << bits) + 1];
  const pixels = [];
  let [table, width, held, count, last] = [[], bits + 1, 0, 0, null];
  const restart = () => {
    table = Array.from({length: end + 1}, (_, at) => [at]);
    [width, last] = [bits + 1, null];
  };
  for (const byte of bytes) {
    held |= byte << count;
    count += 8;
    while (count >= width) {
      const code = held & ((1 << width) - 1);
      held >>>= width;
      count -= width;
      if (code === end) return pixels;
      if (code === clear) {
        restart();
        continue;
      }
      const run = table[code] ?? [...last, last[0]];
      pixels.push(...run);
      if (last && table.length < 4096) table.push([...last, run[0]]);
      if (table.length === 1 << width && width < 12) width++;
      last = run;
    }
  }
  throw new Error('no end');
}

/** Size, palette and frames of a GIF. */
function read(gif) {
  const number = (at) => gif[at] | (gif[at + 1] << 8);
  assert.equal(String.fromCharCode(...gif.subarray(0, 6)), 'GIF89a');
  const colours = 2 << (gif[10] & 7);
  const palette =
      Array.from({length: colours}, (_, at) => [...gif.subarray(13 + 3 * at, 16 + 3 * at)]);
  const frames = [];
  let [at, delay] = [13 + 3 * colours, 0];
  const blocks = () => {
    const all = [];
    for (; gif[at]; at += gif[at] + 1) all.push(...gif.subarray(at + 1, at + 1 + gif[at]));
    at++;
    return all;
  };
  while (gif[at] !== 0x3b) {
    if (gif[at] === 0x21) {
      if (gif[at + 1] === 0xf9) delay = number(at + 4);
      at += 2;
      blocks();
      continue;
    }
    assert.equal(gif[at], 0x2c);
    const [x, y, width, height] = [1, 3, 5, 7].map((from) => number(at + from));
    const bits = gif[at + 10];
    at += 11;
    frames.push({x, y, width, height, delay, pixels: unpacked(blocks(), bits)});
  }
  assert.equal(at, gif.length - 1, 'nothing behind its end');
  return {width: number(6), height: number(8), palette, frames};
}

const PALETTE = [[255, 255, 255], [0, 0, 0], [200, 40, 40]];

test('frames come back as they were', () => {
  const frames = [
    {x: 0, y: 0, width: 3, height: 2, pixels: Uint8Array.from([0, 1, 2, 2, 1, 0]), delay: 100},
    {x: 1, y: 1, width: 1, height: 1, pixels: Uint8Array.from([2]), delay: 300},
  ];
  const gif = read(writeGif({width: 3, height: 2, palette: PALETTE, frames}));
  assert.deepEqual([gif.width, gif.height, gif.palette], [3, 2, [...PALETTE, [0, 0, 0]]]);
  assert.deepEqual(gif.frames, frames.map((frame) => ({...frame, pixels: [...frame.pixels]})));
});

test('large frames of many colours fill the table of codes more than once', () => {
  const palette = Array.from({length: 256}, (_, at) => [at, 255 - at, (7 * at) % 256]);
  for (const below of [2, 17, 256]) {
    let state = 5;
    const pixels = Uint8Array.from(
        {length: 300 * 200},
        (_, at) => (at % 3000 < 1000 ? 1 : (state = (state * 48271) % 2147483647) % below)
    );
    const [frame] = read(writeGif({
                      width: 300,
                      height: 200,
                      palette: palette.slice(0, below),
                      frames: [{x: 0, y: 0, width: 300, height: 200, pixels, delay: 8}]
                    })).frames;
    assert.deepEqual(Uint8Array.from(frame.pixels), pixels, `${below} colours`);
  }
});

test('a solving path that does not come to its end is not saved, and that is told', async () => {
  const line = saidLine();
  Object.assign(bench, {name: 'x', state: {...emptyDoc(3, 2), verdict: {word: 'unique'}}});
  for (const [why, walk] of [
           ['stopped', new Walk({...bench.state, map: ['...', '...']})],
           ['time', null]]) {
    line.text = '';
    searches.job = async () => {
      verdictView.ended = why;
      return walk;
    };
    await exportPath();
    assert.match(line.text, /^x-path\.gif was not saved/, why);
  }
});
