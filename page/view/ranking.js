// Which proposals come first: what keeps a symmetry, what leaves nothing to guess, what is small,
// and what is seen least.

import {eightBits, oklabOf} from '../document/colours.js';
import {painted} from '../document/cover.js';
import {LETTERS} from '../document/limits.js';

// Whether both halves of a picture are alike about an axis: 'x', left and right, or 'y'.
const isMirrored = (picture, axis) =>
    (axis === 'x' ? picture.every((row) => row === [...row].reverse().join('')) :
                    picture.join() === [...picture].reverse().join());

/** The axis about which both halves of a picture are alike: 'x', 'y' or null. */
export const mirrorOf = (picture) => ['x', 'y'].find((axis) => isMirrored(picture, axis)) ?? null;

const AXES_OF_PENS = {
  across: ['x'],
  down: ['y'],
  both: ['x', 'y']
};

/** The axis of symmetric pens about which a picture is alike; null where there is none. */
export const mirrorOfPens = (picture, symmetry) =>
    (AXES_OF_PENS[symmetry] ?? []).find((axis) => isMirrored(picture, axis)) ?? null;

const codesOf = (cells) => cells.map(({index, colour}) => index * 16 + colour);

// What a proposal paints and gives.
const numbersOf = ({cells = [], given = []}
) => [codesOf(cells), given].flatMap((list) => [...list].sort((one, other) => one - other));

/** A text for that. */
export const keyOf = (one) => `${one.cells?.length}: ${numbersOf(one)}`;

// How much a cell's new colour is seen: by how far it is from the old one, less where more of its
// neighbours have it, as in a notch.
function seenAt({picture, colours, columns, maxval}, {index, colour}) {
  const [row, col] = [Math.floor(index / columns), index % columns];
  const before = picture[row][col];
  const [old, lab] = [LETTERS.indexOf(before), (at) => oklabOf(...eightBits(colours[at], maxval))];
  const beside = [[-1, 0], [1, 0], [0, -1], [0, 1]].map(
      ([down, across]) => picture[row + down]?.[col + across]
  );
  const count = (letter) => beside.filter((one) => one === letter).length;
  return Math.hypot(...lab(colour).map((value, at) => value - lab(old)[at])) *
      (1 + (count(before) - count(LETTERS[colour])) / 4);
}

/**
 * How much a repaint is `seen`, by its cells and what it does to the areas; and whether it
 * `breaks` a symmetry.
 */
export function seenOf(state, {cells = [], pain = 0}) {
  if (!cells.length) return {};
  const mirror = mirrorOf(state.picture);
  return {
    seen: pain + cells.reduce((sum, cell) => sum + seenAt(state, cell), 0),
    breaks: Boolean(mirror) && mirrorOf(painted(state.picture, cells)) !== mirror
  };
}

/** How many cells a proposal changes. */
export const sizeOf = ({cells = [], given = []}) => cells.length + given.length;

// Numbers by which proposals are ordered; of those by which a part is known later, the latest come
// first. What is alike in all else goes by its places, so that no list depends on what was found
// first.
const ranksOf = (one) =>
    [Number(one.breaks),
     Number(one.goal !== 'lines' && one.open > 0),
     -(one.share ?? 0),
     sizeOf(one),
     one.seen,
     -Number(one.isLeast ?? false),
     ...numbersOf(one)];

/** The order of proposals. */
export function bySize(one, other) {
  const others = ranksOf(other);
  return ranksOf(one).map((rank, at) => rank - others[at]).find(Boolean) ?? 0;
}

/**
 * Repaints about as small as the smallest, and those that are `kept`. What shares no cell with any
 * before comes first: it is another idea.
 */
export function ideas(list, most, kept) {
  const [best] = list;
  const near = list.filter((one) => sizeOf(one) <= sizeOf(best) + 1 || kept.has(one));
  const used = new Set();
  const isNew = ({cells}) => {
    const codes = codesOf(cells);
    const is = !codes.some((code) => used.has(code));
    for (const code of codes) used.add(code);
    return is;
  };
  const first = near.filter(isNew);
  return [...first, ...near.filter((one) => !first.includes(one))].slice(0, most);
}
