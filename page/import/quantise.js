// An image of cells as a document: its palette, which colour each cell gets, and which of them is
// the background.

import {isAmong, oklabOf} from '../document/colours.js';
import {LETTERS} from '../document/limits.js';
import {coloursTooNear} from '../document/near.js';
import {Votes, dithered, withoutSpecks} from './cells.js';
import {flatPalette, isFlat, nearestPalette} from './flat.js';
import {photoPalette} from './photo.js';
import {
  ALIKE,
  EXACT,
  farness,
  hasClear,
  hasFewColours,
  nearestOf,
  numbersFor,
  once,
  spotsOf
} from './spots.js';
import {drawnCells} from './tone.js';

export const LOCKED_FAR = 0.04 ** 2;  // a locked colour takes the place of one within that

// The triples that stand well for an image's colours, at most so many: where `isExact`, its own
// ones if there are no more than that, else those of smoothed edges would be among them.
const foundFor = (image, most, from, isExact) =>
    once(image, `palette ${most} ${from?.join(';')} ${isExact}`, () => {
      if (from) return nearestPalette(image, from, most);
      if (isExact && hasFewColours(image, most))
        return [...spotsOf(image)].sort((a, b) => b.weight - a.weight).map((spot) => spot.triple);
      return isFlat(image) ? flatPalette(image, most) : photoPalette(image, most);
    });

// What is found with what is locked: each of that in place of the nearest that looks like it, else
// beside all.
function withLocked(found, locked) {
  const all = [...found];
  for (const triple of locked.filter((one) => !isAmong(found, one))) {
    const free = all.filter((one) => !isAmong(locked, one));
    const labs = free.map((one) => oklabOf(...one));
    const near = free.length ? nearestOf(labs, oklabOf(...triple)) : -1;
    const isLike = near >= 0 && farness(labs[near], oklabOf(...triple)) <= LOCKED_FAR;
    all.splice(isLike ? all.indexOf(free[near]) : all.length, isLike ? 1 : 0, triple);
  }
  return all;
}

/**
 * At most so many triples that stand well for an image's colours, the locked ones among them: those
 * that are found for as many as leave room for these, so that one more that is locked, with room
 * for one more, displaces none.
 */
export function paletteFor(image, most, {locked = [], from = null, isExact = true} = {}) {
  const all = (count) => withLocked(count > 0 ? foundFor(image, count, from, isExact) : [], locked);
  let [fits, high, tried] = [Math.max(0, most - locked.length), most, most];
  while (fits < high) {
    if (all(tried).length <= most)
      fits = tried;
    else
      high = tried - 1;
    tried = Math.ceil((fits + high) / 2);
  }
  return all(fits).slice(0, most);
}

// The palette as it was edited: what was dropped is found, so that the others stay as they are, and
// taken out. What is locked stays, even where that is more than is asked for.
function editedPalette(image, most, {locked = [], dropped = [], palette = null}, isExact) {
  const fixed = locked.slice(1 - LETTERS.length);  // one is left for what is transparent
  const wanted = Math.max(1, most, fixed.length);
  const found = paletteFor(
      image,
      Math.min(LETTERS.length, wanted + dropped.length),
      {locked: fixed, from: palette, isExact}
  );
  const left = found.filter((triple) => !isAmong(dropped, triple));
  const kept = left.length ? left : found.slice(0, 1);
  const others = kept.filter((triple) => !isAmong(fixed, triple)).slice(0, wanted - fixed.length);
  return kept.filter((triple) => isAmong(fixed, triple) || isAmong(others, triple));
}

// Which number most cells of the border have; -1 is transparent.
function borderNumber(numbers, columns, rows) {
  const counts = new Map();
  numbers.forEach((one, index) => {
    const [row, col] = [Math.floor(index / columns), index % columns];
    if (row === 0 || col === 0 || row === rows - 1 || col === columns - 1)
      counts.set(one, (counts.get(one) ?? 0) + 1);
  });
  return [...counts].sort((a, b) => b[1] - a[1])[0][0];
}

const GROUNDS = [
  [255, 255, 255],
  [224, 224, 224],
  [214, 228, 240],
  [216, 236, 214],
  [240, 222, 236],
  [246, 238, 196],
  [190, 205, 220],
  [205, 200, 226],
  [200, 216, 190],
  [170, 190, 205]
];

/**
 * A background for what is transparent: the first of some light colours that no solver takes for
 * another one, else that which is furthest from all. It is never dark, however many colours there
 * are.
 */
export function groundFor(palette) {
  const isApart = (triple) => palette.every((one) => !coloursTooNear(one, triple));
  const labs = palette.map((triple) => oklabOf(...triple));
  const gap = (triple) => Math.min(...labs.map((lab) => farness(lab, oklabOf(...triple))), 9);
  return GROUNDS.find(isApart) ??
      GROUNDS.reduce((best, triple) => (gap(triple) > gap(best) ? triple : best));
}

// The number of the palette for each cell.
function numbersOf(image, palette, {dither = false}, fine, points) {
  if (dither) return dithered(image, palette);
  const bits = hasFewColours(points, palette.length) || isFlat(points) ? EXACT : ALIKE;
  const means = numbersFor(image, palette, bits);
  if (!fine) return means;
  const votes = new Votes(
      numbersFor(fine, palette, bits), fine.width / image.width, image.width, palette.length
  );
  const numbers = votes.most(means);
  return isFlat(points) ? votes.guard(numbers) : numbers;
}

/**
 * An image of cells as a document. `options`: `colours` 2 to 16 with the background; `locked`,
 * `dropped` and `replaced` (pairs) are triples of the palette; `palette` has those that there may
 * be alone; `dither`, and `specks`, the cells of a patch that is removed; `sharp`, where each cell
 * is one pixel; `threshold` 1 to 255 for two colours, with `inverted` and `area` as drawnCells has
 * them; `background` a triple of the palette, or null to choose: what is transparent, else what
 * most of the border has. `fine` is the same image with some times as many pixels a side: a cell
 * then has the colour that most of its part has, so that edges stay clean. `points` are single
 * pixels of it, whose colours are no means across edges: the palette is found for these.
 */
export function docOfCells(image, options, {fine = null, points = image} = {}) {
  const {width: columns, height: rows} = image;
  const cleaned = (numbers) => withoutSpecks(numbers, columns, options.specks ?? 0);
  if (options.threshold) {
    const colours = options.inverted ? [[0, 0, 0], [255, 255, 255]] : [[255, 255, 255], [0, 0, 0]];
    return docOfNumbers(cleaned(drawnCells(image, options, fine)), colours, columns, rows);
  }
  const isClear = hasClear(image);
  const palette = editedPalette(
      points,
      isClear ? options.colours - 1 : options.colours,
      options,
      points === image || Boolean(options.sharp)
  );
  const numbers = cleaned(
      palette.length ? numbersOf(image, palette, options, fine, points) :
                       new Int8Array(columns * rows).fill(-1)
  );
  const ground = palette.findIndex((triple) => triple.join() === String(options.background));
  const shown = palette.map(
      (triple) => options.replaced?.find(([from]) => from.join() === triple.join())?.[1] ?? triple
  );
  const {order, first} = isClear || !palette.length ?
      clearGround(numbers, palette, shown, options) :
      {order: groundFirst(numbers, palette, ground, columns, rows), first: null};
  return docOfColours(numbers, order, {shown, palette, first}, columns, rows);
}

// The numbers in their order where what is transparent is the background, and its colour.
function clearGround(numbers, palette, shown, {background}) {
  const isOwn = background && !isAmong(palette, background) && !isAmong(shown, background);
  return {
    order: [...palette.keys()].filter((one) => numbers.includes(one)),
    first: isOwn ? background : groundFor(shown)
  };
}

// The numbers in their order, the background's first.
function groundFirst(numbers, palette, chosen, columns, rows) {
  const ground = chosen < 0 ? borderNumber(numbers, columns, rows) : chosen;
  return [ground, ...palette.keys()].filter(
      (one, at, all) => all.indexOf(one) === at && (at === 0 || numbers.includes(one))
  );
}

// The document of numbers; colours that are shown the same are one. `sources` has what of the
// palette each of its colours is, and `isClear` says that its background is what is transparent.
function docOfColours(numbers, order, {shown, palette, first}, columns, rows) {
  const colours = first ? [first] : [];
  const sources = first ? [first] : [];
  const letterOf = new Map();
  for (const one of order) {
    const at = colours.findIndex((triple) => triple.join() === shown[one].join());
    letterOf.set(one, at < 0 ? colours.push(shown[one]) - 1 : at);
    if (at < 0) sources.push(palette[one]);
  }
  return {
    ...docOfNumbers(numbers.map((one) => letterOf.get(one) ?? 0), colours, columns, rows),
    sources,
    isClear: first !== null
  };
}

function docOfNumbers(numbers, colours, columns, rows) {
  const picture = Array.from(
      {length: rows},
      (_, row) =>
          Array.from(
                   numbers.subarray(row * columns, (row + 1) * columns), (one) => LETTERS[one]
          ).join('')
  );
  return {rows, columns, maxval: 255, colours, picture, givens: new Set()};
}
