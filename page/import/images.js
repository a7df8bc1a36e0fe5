// Images of pixels, as `{ width, height, data }` with 8-bit red, green, blue and alpha: what a file
// is by its first bytes, the size that its head tells, and an image cropped and scaled to cells.
// Samples are averaged as light, not as numbers.

import {LIGHT_OF, sampleOf} from '../document/colours.js';
import {LETTERS, MOST_CELLS, MOST_COLOURS} from '../document/limits.js';
import {isBlankByte} from '../formats/ppm.js';

const COMMENT = 35;  // what begins one in a picture of Netpbm's
const bytesBegin =
    (bytes, text, from = 0
    ) => [...text].every((sign, at) => bytes[from + at] === sign.charCodeAt(0));

// Whether it begins as a certificate, also where an editor put a byte order mark before it, or made
// UTF-16 of it.
function isCertificate(bytes) {
  const signs =
      String.fromCharCode(...bytes.subarray(0, 24).filter((byte) => byte > 0 && byte < 128));
  return signs.startsWith('nonocert') || signs.startsWith('nonolemma');
}

// What a file of ISO's base media format is, by its brands: AVIF (AV1), or HEIC and its kin.
function kindOfBrands(bytes) {
  const brands =
      String.fromCharCode(...bytes.subarray(8, Math.min(bytes.length, pairAt(bytes, 2), 64)));
  return /avi[fs]/.test(brands)                  ? 'avif' :
      /hei[cxms]|hev[cx]|mif1|msf1/.test(brands) ? 'heic' :
                                                   null;
}

// Whether the first element of an XML text is SVG's.
function isSvg(bytes) {
  const text = new TextDecoder('latin1').decode(bytes.subarray(0, 8192));
  const left = text.replace(
                       /<!--[^]*?-->|<\?[^]*?\?>/g, ''
  ).replace(/<!DOCTYPE[^>[]*(\[[^\]]*\])?\s*>/i, '');
  return /^[^<]*<(\w+:)?svg[\s/>]/.test(left);
}

/**
 * What a file is, by its bytes alone: 'ppm', 'png', 'jpeg', 'gif', 'webp', 'bmp', 'avif', 'svg',
 * 'heic', 'tiff', 'zip', 'cert', 'xml', 'non' or null.
 */
export function kindOfFile(bytes) {
  if (bytesBegin(bytes, 'P3') || bytesBegin(bytes, 'P6')) return 'ppm';
  if (['P1', 'P4'].some((magic) => bytesBegin(bytes, magic)) &&
      (isBlankByte(bytes[2]) || bytes[2] === COMMENT))
    return 'ppm';
  if (bytesBegin(bytes, '\u0089PNG\r\n\u001a\n')) return 'png';
  if (bytes[0] === 0xff && bytes[1] === 0xd8 && bytes[2] === 0xff) return 'jpeg';
  if (bytesBegin(bytes, 'GIF8')) return 'gif';
  if (bytesBegin(bytes, 'PK\u0003\u0004') || bytesBegin(bytes, 'PK\u0005\u0006')) return 'zip';
  if (isCertificate(bytes)) return 'cert';
  if (bytesBegin(bytes, 'RIFF') && bytesBegin(bytes, 'WEBP', 8)) return 'webp';
  if (bytesBegin(bytes, 'BM') && bytes[14] >= 12 && bytes[15] === 0) return 'bmp';
  if (bytesBegin(bytes, 'ftyp', 4)) return kindOfBrands(bytes);
  if (bytesBegin(bytes, 'II*\u0000') || bytesBegin(bytes, 'MM\u0000*')) return 'tiff';
  let at = bytesBegin(bytes, '\u00ef\u00bb\u00bf') ? 3 : 0;
  while (at < bytes.length && isBlankByte(bytes[at])) at++;
  if (bytes[at] === 60) return isSvg(bytes) ? 'svg' : 'xml';  // <
  return bytes.length && bytes.subarray(0, 4096).every((byte) => byte >= 32 || isBlankByte(byte)) ?
      'non' :
      null;
}

const pairAt = (bytes, at, low) =>
    (low ? bytes[at] + bytes[at + 1] * 256 : bytes[at] * 256 + bytes[at + 1]);

// The size in the frame header of a JPEG: markers follow one another, each with its length; one
// without a length has no place there.
function sizeOfJpeg(bytes) {
  for (let at = 2; at + 8 < bytes.length;) {
    const marker = bytes[at + 1];
    if (bytes[at] !== 0xff || marker < 2 || (marker >= 0xd0 && marker < 0xda)) return null;
    if (marker === 0xff)
      at++;
    else if (marker >= 0xc0 && marker <= 0xcf && marker !== 0xc4 && marker !== 0xc8 && marker !== 0xcc)
      return [pairAt(bytes, at + 7), pairAt(bytes, at + 5)];
    else
      at += 2 + pairAt(bytes, at + 2);
  }
  return null;
}

// The size of a GIF: that of its screen, or more where its first frame reaches beyond.
function sizeOfGif(bytes) {
  let at = 13 + (bytes[10] & 128 ? 6 << (bytes[10] & 7) : 0);
  for (; bytes[at] === 0x21; at++)
    for (at += 2; bytes[at]; at += bytes[at] + 1)
      ;
  if (bytes[at] !== 0x2c || at + 9 > bytes.length) return null;
  return [6, 8].map(
      (side) => Math.max(
          pairAt(bytes, side, true),
          pairAt(bytes, at + side - 5, true) + pairAt(bytes, at + side - 1, true)
      )
  );
}

function sizeOfWebp(bytes) {
  const three = (at) => pairAt(bytes, at, true) + bytes[at + 2] * 65536;
  if (bytesBegin(bytes, 'VP8X', 12)) return [three(24) + 1, three(27) + 1];
  if (bytesBegin(bytes, 'VP8 ', 12))
    return [pairAt(bytes, 26, true) & 0x3fff, pairAt(bytes, 28, true) & 0x3fff];
  if (!bytesBegin(bytes, 'VP8L', 12)) return null;
  const bits = (bytes[21] | (bytes[22] << 8) | (bytes[23] << 16) | (bytes[24] << 24)) >>> 0;
  return [(bits & 0x3fff) + 1, ((bits >>> 14) & 0x3fff) + 1];
}

const fourAt = (bytes, at) => pairAt(bytes, at) * 65536 + pairAt(bytes, at + 2);

// The size of a BMP; rows from the top down are counted below 0.
function sizeOfBmp(bytes) {
  if (bytes[14] === 12) return [pairAt(bytes, 18, true), pairAt(bytes, 20, true)];
  const view = new DataView(bytes.buffer, bytes.byteOffset);
  return [18, 22].map((at) => Math.abs(view.getInt32(at, true)));
}

// The size of an AVIF: that of the largest of its items, by their properties `ispe`; null where
// they are not known, or it is a sequence.
function sizeOfAvif(bytes) {
  let [at, size] = [0, null];
  while (at + 8 <= bytes.length && !bytesBegin(bytes, 'meta', at + 4))
    at += Math.max(8, fourAt(bytes, at));
  const end = at + fourAt(bytes, at);
  if (!(end <= bytes.length) || bytesBegin(bytes, 'avis', 8)) return null;
  for (at = bytes.indexOf(0x69, at); at >= 0 && at + 16 <= end; at = bytes.indexOf(0x69, at + 1)) {
    if (!bytesBegin(bytes, 'ispe', at)) continue;
    const found = [fourAt(bytes, at + 8), fourAt(bytes, at + 12)];
    if (!size || found[0] * found[1] > size[0] * size[1]) size = found;
  }
  return size;
}

/**
 * Width and height that the head of an image file tells, before anything is unpacked; null where
 * it tells none.
 */
export function sizeOfImage(bytes, kind) {
  if (bytes.length < 26) return null;
  if (kind === 'png') return [fourAt(bytes, 16), fourAt(bytes, 20)];
  if (kind === 'gif') return sizeOfGif(bytes);
  if (kind === 'jpeg') return sizeOfJpeg(bytes);
  if (kind === 'bmp') return sizeOfBmp(bytes);
  if (kind === 'avif') return sizeOfAvif(bytes);
  return kind === 'webp' && bytes.length >= 30 ? sizeOfWebp(bytes) : null;
}

const LIGHT_STEPS = 16384;  // fine enough that the light of each sample gives that sample back
const SAMPLE_OF =
    Uint8Array.from({length: LIGHT_STEPS + 1}, (_, step) => sampleOf(step / LIGHT_STEPS));
const sampleNear = (light) => SAMPLE_OF[Math.min(LIGHT_STEPS, Math.round(light * LIGHT_STEPS))];

// For each target place: the first source place, and the share of each one from there.
function sharesOf(from, length, count) {
  return Array.from({length: count}, (_, at) => {
    const [low, high] = [from + (at * length) / count, from + ((at + 1) * length) / count];
    const first = Math.floor(low);
    const parts = [];
    for (let place = first; place < high; place++)
      parts.push(Math.min(high, place + 1) - Math.max(low, place));
    return {first, parts};
  });
}

/**
 * A part of an image, `{ x, y, width, height }` in whole pixels, scaled to cells: each is the mean
 * of the light that falls on it, or, where `sharp`, the pixel in its middle. Transparent parts
 * count by what they cover.
 */
export function scaledTo(image, crop, columns, rows, sharp = false) {
  const out = {width: columns, height: rows, data: new Uint8ClampedArray(columns * rows * 4)};
  const {data, width} = image;
  if (sharp) {
    for (let row = 0, to = 0; row < rows; row++) {
      const y = Math.min(
          crop.y + crop.height - 1, Math.floor(crop.y + ((row + 0.5) * crop.height) / rows)
      );
      for (let col = 0; col < columns; col++, to += 4) {
        const x = Math.min(
            crop.x + crop.width - 1, Math.floor(crop.x + ((col + 0.5) * crop.width) / columns)
        );
        out.data.set(data.subarray((y * width + x) * 4, (y * width + x) * 4 + 4), to);
      }
    }
    return out;
  }
  const [across, down] =
      [sharesOf(crop.x, crop.width, columns), sharesOf(crop.y, crop.height, rows)];
  const cover = (crop.width / columns) * (crop.height / rows);
  for (let row = 0, to = 0; row < rows; row++) {
    for (let col = 0; col < columns; col++, to += 4)
      meanInto(out.data, to, data, width, across[col], down[row], cover);
  }
  return out;
}

function meanInto(target, to, data, width, across, down, cover) {
  let [red, green, blue, sum] = [0, 0, 0, 0];
  for (let dy = 0; dy < down.parts.length; dy++) {
    let at = ((down.first + dy) * width + across.first) * 4;
    for (let dx = 0; dx < across.parts.length; dx++, at += 4) {
      const share = across.parts[dx] * down.parts[dy] * data[at + 3];
      red += share * LIGHT_OF[data[at]];
      green += share * LIGHT_OF[data[at + 1]];
      blue += share * LIGHT_OF[data[at + 2]];
      sum += share;
    }
  }
  if (sum > 0) {
    target[to] = sampleNear(red / sum);
    target[to + 1] = sampleNear(green / sum);
    target[to + 2] = sampleNear(blue / sum);
  }
  target[to + 3] = Math.round(sum / cover);
}

/**
 * How many pixels a side each dot of an enlarged pixel picture has: the largest number for which
 * all dots are of one colour.
 */
export function dotSize({width, height, data}) {
  const pixels = new Uint32Array(data.buffer, data.byteOffset, width * height);
  const common = (a, b) => (b ? common(b, a % b) : a);
  let side = common(width, height);
  for (let row = 0; row < height && side > 1; row++) {
    for (let col = 1; col < width; col++)
      if (pixels[row * width + col] !== pixels[row * width + col - 1]) side = common(side, col);
  }
  for (let row = 1; row < height && side > 1; row++) {
    for (let col = 0; col < width; col++) {
      if (pixels[row * width + col] === pixels[(row - 1) * width + col]) continue;
      side = common(side, row);
      break;
    }
  }
  return side;
}

export const isTransparent = (data, at) => data[at + 3] < 128;

/**
 * An image as a document, pixel by pixel, or null if it has too many pixels or colours for that.
 * The background is what is transparent, shown as `background` or else white; or what has that
 * colour. Null too if there are both, and if no background is named and there is neither: then it
 * is the user's choice.
 */
export function docOfImage({width, height, data}, background = null) {
  if (width > MOST_CELLS || height > MOST_CELLS) return null;
  const ground = background ?? [255, 255, 255];
  const groundKey = (ground[0] << 16) | (ground[1] << 8) | ground[2];
  let clear = false;
  for (let at = 0; at < data.length; at += 4)
    if (isTransparent(data, at)) clear = true;
  const numbers = new Map([[groundKey, 0]]);
  const colours = [ground];
  let met = clear || background !== null;
  let cells = '';
  for (let at = 0; at < data.length; at += 4) {
    if (isTransparent(data, at)) {
      cells += '.';
      continue;
    }
    const key = (data[at] << 16) | (data[at + 1] << 8) | data[at + 2];
    if (key === groundKey && clear) return null;
    if (key === groundKey) met = true;
    if (!numbers.has(key)) {
      if (colours.length === MOST_COLOURS) return null;
      numbers.set(key, colours.length);
      colours.push([data[at], data[at + 1], data[at + 2]]);
    }
    cells += LETTERS[numbers.get(key)];
  }
  if (!met) return null;
  const picture =
      Array.from({length: height}, (_, row) => cells.slice(row * width, (row + 1) * width));
  return {rows: height, columns: width, maxval: 255, colours, picture, givens: new Set()};
}
