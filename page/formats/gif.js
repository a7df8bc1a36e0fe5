// GIF89a, written: an animation of parts of one picture over one another.

import {joined} from './deflate.js';

const MOST_CODES = 4096;
const MOST_BLOCK = 255;  // bytes

const bitsFor = (colours) => Math.max(2, Math.ceil(Math.log2(colours)));
const word = (value) => [value & 255, value >> 8];

// Codes of rising width as bytes, the lowest bits first.
class Codes {
  bytes = [];
  pending = 0;
  count = 0;

  put(code, width) {
    this.pending |= code << this.count;
    this.count += width;
    for (; this.count >= 8; this.count -= 8) {
      this.bytes.push(this.pending & 255);
      this.pending >>>= 8;
    }
  }

  end() {
    if (this.count > 0) this.bytes.push(this.pending & 255);
    return this.bytes;
  }
}

/** Colour numbers packed by GIF's LZW: runs that came before get codes of their own. */
function packed(pixels, bits) {
  const [clear, end] = [1 << bits, (1 << bits) + 1];
  const codes = new Codes();
  let [width, next, known] = [bits + 1, end + 1, new Map()];
  codes.put(clear, width);
  let run = pixels[0];
  for (const pixel of pixels.subarray(1)) {
    const key = (run << 8) | pixel;
    const longer = known.get(key);
    if (longer !== undefined) {
      run = longer;
      continue;
    }
    codes.put(run, width);
    run = pixel;
    if (next === MOST_CODES) {
      codes.put(clear, width);
      [width, next, known] = [bits + 1, end + 1, new Map()];
    } else {
      if (next >= 1 << width) width++;
      known.set(key, next++);
    }
  }
  codes.put(run, width);
  codes.put(end, width);
  return codes.end();
}

function inBlocks(bytes) {
  const blocks = [];
  for (let at = 0; at < bytes.length; at += MOST_BLOCK) {
    const block = bytes.slice(at, at + MOST_BLOCK);
    blocks.push(block.length, ...block);
  }
  return [...blocks, 0];
}

function frameBytes({x, y, width, height, pixels, delay}, bits) {
  const control = [0x21, 0xf9, 4, 1 << 2, ...word(delay), 0, 0];  // what is drawn stays
  return [
    ...control,
    0x2c,
    ...word(x),
    ...word(y),
    ...word(width),
    ...word(height),
    0,
    bits,
    ...inBlocks(packed(pixels, bits))
  ];
}

/**
 * An animation that begins anew at its end. `palette` has 1 to 256 colours, [red, green, blue] of 0
 * to 255; a frame is {x, y, width, height, pixels, delay}: a part of the picture, row by row as
 * numbers of colours, and how many hundredths of a second it is seen.
 */
export function writeGif({width, height, palette, frames}) {
  const bits = bitsFor(palette.length);
  const colours = Array.from({length: 1 << bits}, (_, at) => palette[at] ?? [0, 0, 0]).flat();
  const text = (name) => [...name].map((letter) => letter.charCodeAt(0));
  const head =
      [...text('GIF89a'), ...word(width), ...word(height), 0xf0 | (bits - 1), 0, 0, ...colours];
  const loop = [0x21, 0xff, 11, ...text('NETSCAPE2.0'), 3, 1, 0, 0, 0];
  return joined([head, loop, ...frames.map((frame) => frameBytes(frame, bits)), [0x3b]]);
}
