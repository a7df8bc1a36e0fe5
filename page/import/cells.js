// Which colour of a palette each cell gets: what most of its part has, where no colour with some
// area is lost; or by dithering; and specks that are removed. Colours are numbers; -1 is what is
// transparent.

import {oklabOf} from '../document/colours.js';
import {isTransparent} from './images.js';
import {nearestOf} from './spots.js';

const LEAST_AREA = 0.01;   // of what is not transparent: such a colour is not lost
const LEAST_SHARE = 0.25;  // of a cell: what a colour has at least of one that it is given

/**
 * How often each number is in each cell: `at(cell, number)`. `fine` has some times as many numbers
 * a side as there are cells.
 */
export class Votes {
  columns;
  colours;
  each;  // how many pixels a cell has

  constructor(fine, times, columns, colours) {
    Object.assign(this, {columns, colours, each: times * times});
    this.counts = new Uint16Array((fine.length / this.each) * (colours + 1));
    const wide = columns * times;
    for (let at = 0; at < fine.length; at++) {
      const cell =
          Math.floor(Math.floor(at / wide) / times) * columns + Math.floor((at % wide) / times);
      this.counts[cell * (colours + 1) + fine[at] + 1]++;
    }
  }

  at(cell, number) {
    return this.counts[cell * (this.colours + 1) + number + 1];
  }

  /**
   * For each cell the number that most of its part has; of those that are even, that of its mean
   * where it is one of them.
   */
  most(means) {
    return means.map((mean, cell) => {
      let best = mean;
      for (let number = -1; number < this.colours; number++)
        if (this.at(cell, number) > this.at(cell, best)) best = number;
      return best;
    });
  }

  /**
   * Gives a colour that has some area but lost more than a third of it, as thin lines do, the
   * cells that it has most of.
   */
  guard(numbers) {
    const areas = Array.from(
        {length: this.colours},
        (_, number) => numbers.reduce((sum, _one, cell) => sum + this.at(cell, number), 0)
    );
    const total = areas.reduce((sum, area) => sum + area, 0);
    for (const [number, area] of areas.entries()) {
      let missing = Math.round(area / this.each) - numbers.filter((one) => one === number).length;
      if (area < total * LEAST_AREA || missing * this.each * 3 <= area) continue;
      const cells = [...numbers.keys()].filter(
          (cell) => numbers[cell] !== number && numbers[cell] >= 0 &&
              this.at(cell, number) >= this.each * LEAST_SHARE
      );
      for (const cell of cells.sort((a, b) => this.at(b, number) - this.at(a, number)))
        if (missing-- > 0) numbers[cell] = number;
    }
    return numbers;
  }
}

// Where the error of a cell goes, as far as rows are read from the left: so many rows down, so many
// cells on, and how many sixteenths of it.
const SPREAD = [[0, 1, 7], [1, -1, 3], [1, 0, 5], [1, 1, 1]];

// The errors of cells in Oklab, of a row and of the next one. Each row has a cell more at its ends.
class Errors {
  constructor(width) {
    this.width = width + 2;
    this.all = new Float64Array(2 * this.width * 3);
  }

  #place(row, col) {
    return ((row % 2) * this.width + col + 1) * 3;
  }

  at(row, col) {
    const place = this.#place(row, col);
    return this.all.subarray(place, place + 3);
  }

  // Nothing was added to a row so far.
  clear(row) {
    this.all.fill(0, this.#place(row, -1), this.#place(row, -1) + this.width * 3);
  }

  spread(row, col, way, error) {
    for (const [down, on, part] of SPREAD) {
      const to = this.at(row + down, col + on * way);
      for (let axis = 0; axis < 3; axis++) to[axis] += (error[axis] * part) / 16;
    }
  }
}

/**
 * For each cell the number of a colour, where the error of each goes on to the next ones (Floyd
 * and Steinberg, 1976, in Oklab).
 */
export function dithered({width, height, data}, palette) {
  const labs = palette.map((triple) => oklabOf(...triple));
  const numbers = new Int8Array(width * height);
  const errors = new Errors(width);
  for (let row = 0; row < height; row++) {
    errors.clear(row + 1);
    const way = row % 2 ? -1 : 1;
    for (let step = 0; step < width; step++) {
      const col = way > 0 ? step : width - 1 - step;
      const at = (row * width + col) * 4;
      if (isTransparent(data, at)) {
        numbers[at / 4] = -1;
        continue;
      }
      const own = errors.at(row, col);
      const wanted =
          oklabOf(data[at], data[at + 1], data[at + 2]).map((one, axis) => one + own[axis]);
      const number = nearestOf(labs, wanted);
      numbers[at / 4] = number;
      errors.spread(row, col, way, wanted.map((one, axis) => one - labs[number][axis]));
    }
  }
  return numbers;
}

// The cells of one number that are connected, by their sides, with one cell; `met` has those of
// before.
function patchOf(numbers, columns, first, met) {
  const cells = [first];
  met[first] = 1;
  for (let at = 0; at < cells.length; at++) {
    for (const next of besides(cells[at], columns, numbers.length)) {
      if (met[next] || numbers[next] !== numbers[first]) continue;
      met[next] = 1;
      cells.push(next);
    }
  }
  return cells;
}

function besides(cell, columns, count) {
  const col = cell % columns;
  return [
    cell - columns,
    cell + columns,
    ...(col > 0 ? [cell - 1] : []),
    ...(col < columns - 1 ? [cell + 1] : [])
  ].filter((one) => one >= 0 && one < count);
}

// The number that most of the neighbours of a patch have.
function numberAround(numbers, columns, cells) {
  const [own, counts] = [numbers[cells[0]], new Map()];
  for (const next of cells.flatMap((cell) => besides(cell, columns, numbers.length)))
    if (numbers[next] !== own) counts.set(numbers[next], (counts.get(numbers[next]) ?? 0) + 1);
  const [[number]] = [...counts].sort((a, b) => b[1] - a[1]);
  return number;
}

/**
 * Numbers without patches of at most so many cells: each gets the number that most of its
 * neighbours have, the smallest first.
 */
export function withoutSpecks(numbers, columns, most) {
  const left = numbers.slice();
  for (let size = 1; size <= most; size++) {
    const met = new Uint8Array(left.length);
    for (let cell = 0; cell < left.length; cell++) {
      if (met[cell]) continue;
      const cells = patchOf(left, columns, cell, met);
      if (cells.length > size || cells.length === left.length) continue;
      const number = numberAround(left, columns, cells);
      for (const one of cells) left[one] = number;
    }
  }
  return left;
}
