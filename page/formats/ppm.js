// Plain and raw PPM pictures (P3 and P6), read as images of 8-bit samples whatever their maxval is,
// and PBM pictures (P1 and P4), black and white. The formats are Netpbm's.

import {FileFault} from '../document/limits.js';
import {phrase} from '../texts/phrase.js';

export const MOST_BYTES_READ = 16 * 1024 * 1024;  // of a file
const MOST_PIXELS = 4096;                         // of an image, a side

export const isBlankByte = (byte) => byte === 32 || (byte >= 9 && byte <= 13);
const PPM_COMMENT = 35;
const [PLAIN_PBM, RAW_PBM] = [49, 52];  // the digits of P1 and P4

// Tokens of a PPM's text from a place: runs that are neither white space nor comments.
class PpmTokens {
  constructor(bytes) {
    this.bytes = bytes;
    this.at = 2;
  }

  skip() {
    const {bytes} = this;
    while (this.at < bytes.length) {
      if (isBlankByte(bytes[this.at]))
        this.at++;
      else if (bytes[this.at] === PPM_COMMENT)
        while (this.at < bytes.length && bytes[this.at] !== 10 && bytes[this.at] !== 13) this.at++;
      else
        return;
    }
  }

  number(what) {
    this.skip();
    const {bytes} = this;
    const from = this.at;
    let value = 0;
    for (; this.at < bytes.length && !isBlankByte(bytes[this.at]) && bytes[this.at] !== PPM_COMMENT;
         this.at++) {
      const digit = bytes[this.at] - 48;
      if (digit < 0 || digit > 9)
        throw new FileFault(phrase('formats.picturesByteNoNumber', {what, from}));
      value = Math.min(value * 10 + digit, 1e9);
    }
    if (this.at === from) throw new FileFault(phrase('formats.pictureEndsBefore', {what}));
    return value;
  }
}

/** Refuses sides that no image here may have. */
function boundSides(width, height) {
  if (width < 1 || height < 1) throw new FileFault(phrase('formats.pictureNoPixels'));
  if (width > MOST_PIXELS || height > MOST_PIXELS) {
    throw new FileFault(phrase('formats.picturePixelsMostSide', {width, height, most: MOST_PIXELS})
    );
  }
}

// The width and height behind a magic.
function sidesOf(tokens) {
  const [width, height] =
      [tokens.number(phrase('formats.width')), tokens.number(phrase('formats.height'))];
  boundSides(width, height);
  return [width, height];
}

const [BLANK_BIT, INK_BIT] = [48, 49];

// The bits of a P1 picture, in which no white space need stand between them.
function plainBits(tokens) {
  const what = phrase('formats.samples');
  return () => {
    tokens.skip();
    const byte = tokens.bytes[tokens.at++];
    if (byte === undefined) throw new FileFault(phrase('formats.pictureEndsBefore', {what}));
    if (byte !== BLANK_BIT && byte !== INK_BIT)
      throw new FileFault(phrase('formats.picturesByteNoNumber', {what, from: tokens.at - 1}));
    return byte - BLANK_BIT;
  };
}

// The bits of a P4 picture: a white space, and then rows of whole bytes, the highest bit first.
function rawBits({bytes, at: end}, width, height) {
  if (!isBlankByte(bytes[end]))
    throw new FileFault(
        phrase('formats.picturesByteNoNumber', {what: phrase('formats.height'), from: end})
    );
  const [from, stride] = [end + 1, Math.ceil(width / 8)];
  if (bytes.length < from + stride * height)
    throw new FileFault(phrase('formats.pictureEndsBeforeLast'));
  return (pixel) => {
    const [row, col] = [Math.floor(pixel / width), pixel % width];
    return (bytes[from + row * stride + (col >> 3)] >> (7 - (col & 7))) & 1;
  };
}

/** An image of a P1 or P4 picture, whose bits that are set are black; its maxval is 255. */
function readPbm(bytes) {
  const tokens = new PpmTokens(bytes);
  const [width, height] = sidesOf(tokens);
  const isRaw = bytes[1] === RAW_PBM;
  const bitAt = isRaw ? rawBits(tokens, width, height) : plainBits(tokens);
  const data = new Uint8ClampedArray(width * height * 4).fill(255);
  for (let pixel = 0; pixel < width * height; pixel++)
    if (bitAt(pixel)) data.fill(0, 4 * pixel, 4 * pixel + 3);
  tokens.skip();
  if (!isRaw && tokens.at < bytes.length)
    throw new FileFault(phrase('formats.thereMoreBehindLast'));
  return {width, height, data, maxval: 255};
}

/**
 * An image `{ width, height, data }` of 8-bit red, green, blue and alpha, from the bytes of a P3,
 * P6, P1 or P4 picture, with its `maxval`.
 */
export function readPpm(bytes) {
  if (bytes[1] === PLAIN_PBM || bytes[1] === RAW_PBM) return readPbm(bytes);
  const raw = bytes[1] === 54;  // P6
  const tokens = new PpmTokens(bytes);
  const [width, height] = sidesOf(tokens);
  const maxval = tokens.number(phrase('formats.maxval'));
  if (maxval < 1 || maxval > 65535) throw new FileFault(phrase('formats.picturesMaxvalNotFrom'));
  const data = new Uint8ClampedArray(width * height * 4);
  const what = phrase('formats.samples');
  const next = raw ? rawSamples(tokens, maxval, width * height * 3) : () => tokens.number(what);
  for (let at = 0; at < data.length; at++) {
    if (at % 4 === 3) {
      data[at] = 255;
      continue;
    }
    const sample = next();
    if (sample > maxval) throw new FileFault(phrase('formats.sampleAboveMaxval', {sample, maxval}));
    data[at] = Math.round((sample * 255) / maxval);
  }
  tokens.skip();
  if (!raw && tokens.at < bytes.length) throw new FileFault(phrase('formats.thereMoreBehindLast'));
  return {width, height, data, maxval};
}

// One white space stands behind the maxval of a raw picture, and then come its samples, of two
// bytes where maxval is above 255.
function rawSamples(tokens, maxval, count) {
  const {bytes} = tokens;
  const size = maxval > 255 ? 2 : 1;
  if (bytes[tokens.at] === PPM_COMMENT)
    throw new FileFault(
        phrase('formats.picturesByteNoNumber', {what: phrase('formats.maxval'), from: tokens.at})
    );
  let at = tokens.at + 1;
  if (bytes.length < at + count * size)
    throw new FileFault(phrase('formats.pictureEndsBeforeLast'));
  return () => {
    const sample = size === 1 ? bytes[at] : bytes[at] * 256 + bytes[at + 1];
    at += size;
    return sample;
  };
}
