// A sheet of sprites cut into pictures: where its grid is, and the part of the image that each of
// its fields has.

import {isTransparent, scaledTo} from './images.js';

const LEAST = 6;      // pixels a side of a sprite
const MOST_GAP = 4;   // pixels between sprites
const CROSSED = 0.5;  // of what crosses a line in the mean: what crosses one of the grid, at most

/**
 * For each pixel of a sheet whether it shows something: what is transparent does not, or else the
 * colour of the first pixel.
 */
export function shownOf({width, height, data}) {
  const pixels = new Uint32Array(data.buffer, data.byteOffset, width * height);
  const isClear = pixels.some((_, at) => isTransparent(data, at * 4));
  return new Uint8Array(pixels.length
  ).map((_, at) => Number(isClear ? !isTransparent(data, at * 4) : pixels[at] !== pixels[0]));
}

// For each line between two columns (or rows) how many pixels are shown on both of its sides, and
// for each column how many are shown.
function profileOf(shown, length, across, place) {
  const crossing = new Uint32Array(length);
  const filled = new Uint32Array(length);
  for (let at = 0; at < length; at++) {
    for (let one = 0; one < across; one++) {
      if (!shown[place(at, one)]) continue;
      filled[at]++;
      if (at > 0 && shown[place(at - 1, one)]) crossing[at]++;
    }
  }
  return {
    crossing,
    filled,
    mean: crossing.reduce((sum, one) => sum + one, 0) / Math.max(1, length - 1)
  };
}

// How many fields of some pixels a side fit a profile, with `gap` between them and `margin` around;
// 0 where it has no such grid.
function fieldsIn({crossing, filled, mean}, side, gap, margin) {
  const count = (filled.length + gap - 2 * margin) / (side + gap);
  if (!Number.isInteger(count) || count < 1) return 0;
  const starts = Array.from({length: count}, (_, at) => margin + at * (side + gap));
  const isField = new Uint8Array(filled.length);
  for (const start of starts) isField.fill(1, start, start + side);
  if (filled.some((one, at) => one > 0 && !isField[at])) return 0;
  return starts.slice(1).every((start) => crossing[start] <= mean * CROSSED) ? count : 0;
}

// What the grids of a sheet can be, the smallest first: the side of a field, the gap between fields
// and the margin around all.
function* gridsUpTo(most) {
  for (let side = LEAST; side <= most; side++) {
    for (let gap = 0; gap <= MOST_GAP; gap++) {
      yield {side, gap, margin: 0};
      if (gap) yield {side, gap, margin: gap};
    }
  }
}

/**
 * The grid of a sheet with square fields, the smallest that it can be: `{ columns, rows, gap,
 * margin }`; null where none is seen.
 */
export function gridOf({width, height}, shown) {
  if (!shown.includes(1)) return null;
  const profiles = [
    profileOf(shown, width, height, (x, y) => y * width + x),
    profileOf(shown, height, width, (y, x) => y * width + x)
  ];
  for (const {side, gap, margin} of gridsUpTo(Math.max(width, height) / 2)) {
    const [columns, rows] = profiles.map((profile) => fieldsIn(profile, side, gap, margin));
    if (columns * rows > 1) return {columns, rows, gap, margin};
  }
  return null;
}

/** The parts of an image that the fields of a grid have, row by row, in whole pixels. */
export function fieldsOf({width, height}, {columns, rows, gap, margin}) {
  const [wide, high] = [(width + gap - 2 * margin) / columns, (height + gap - 2 * margin) / rows];
  const edge = (at, step) => Math.round(margin + at * step);
  const fields = [];
  for (let row = 0; row < rows; row++) {
    for (let col = 0; col < columns; col++) {
      const [x, y] = [edge(col, wide), edge(row, high)];
      fields.push({
        x,
        y,
        width: Math.max(1, Math.min(width, edge(col + 1, wide) - gap) - x),
        height: Math.max(1, Math.min(height, edge(row + 1, high) - gap) - y)
      });
    }
  }
  return fields;
}

/** The fields of a grid that show something: each is a sprite. */
export function spritesOf(image, grid, shown) {
  const isShown = ({x, y, width, height}) => {
    for (let row = y; row < y + height; row++)
      if (shown.subarray(row * image.width + x, row * image.width + x + width).includes(1))
        return true;
    return false;
  };
  return fieldsOf(image, grid).filter(isShown);
}

/** The image that a sprite is. */
export const cutOut = (image, field) => scaledTo(image, field, field.width, field.height, true);
