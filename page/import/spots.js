// The colours of an image: how many pixels have each, their places in Oklab (Ottosson, 2020), and
// the nearest of a palette.

import {oklabOf} from '../document/colours.js';
import {isTransparent} from './images.js';

export const EXACT = 0xffffff;  // which bits of a colour count
// colours whose samples differ in the last three bits alone count as one
export const ALIKE = 0xf8f8f8;

export const keyOf = (data, at) => (data[at] << 16) | (data[at + 1] << 8) | data[at + 2];
const tripleOfKey = (key) => [key >> 16, (key >> 8) & 255, key & 255];

// What was worked out of an image, as long as the image is open: images do not change.
const workedOut = new WeakMap();
export function once(image, what, work) {
  if (!workedOut.has(image)) workedOut.set(image, new Map());
  const known = workedOut.get(image);
  if (!known.has(what)) known.set(what, work());
  return known.get(what);
}

/** A colour: how many pixels have it, and its place in Oklab once that is asked for. */
class Spot {
  constructor(key) {
    this.triple = tripleOfKey(key);
    this.weight = 1;
    this.place = null;
  }

  get lab() {
    return (this.place ??= oklabOf(...this.triple));
  }
}

/** The colours of the pixels that are not transparent. */
export function spotsOf(image, bits = EXACT) {
  return once(image, `spots ${bits}`, () => {
    const spots = new Map();
    const {data} = image;
    for (let at = 0; at < data.length; at += 4) {
      if (isTransparent(data, at)) continue;
      const key = keyOf(data, at);
      const spot = spots.get(key & bits);
      if (spot)
        spot.weight++;
      else
        spots.set(key & bits, new Spot(key));
    }
    return [...spots.values()];
  });
}

export function hasClear({data}) {
  for (let at = 0; at < data.length; at += 4)
    if (isTransparent(data, at)) return true;
  return false;
}

/** Whether an image has at most so many colours beside what is transparent. */
export function hasFewColours({data}, most) {
  const met = new Set();
  for (let at = 0; at < data.length && met.size <= most; at += 4)
    if (!isTransparent(data, at)) met.add(keyOf(data, at));
  return met.size <= most;
}

export const weightOf = (spots) => spots.reduce((sum, spot) => sum + spot.weight, 0);
export const farness = (one, two) =>
    (one[0] - two[0]) ** 2 + (one[1] - two[1]) ** 2 + (one[2] - two[2]) ** 2;

/** The number of the nearest of some places. */
export function nearestOf(labs, lab) {
  let best = 0;
  for (let at = 1; at < labs.length; at++)
    if (farness(labs[at], lab) < farness(labs[best], lab)) best = at;
  return best;
}

// Colours that are alike, by a number below 32,768, and their place in Oklab, worked out once.
const alikeOf = (data, at) =>
    ((data[at] >> 3) << 10) | ((data[at + 1] >> 3) << 5) | (data[at + 2] >> 3);
const alikePlaces = [];
const alikeLab = (alike) =>
    (alikePlaces[alike] ??=
         oklabOf(((alike >> 10) << 3) + 4, (((alike >> 5) & 31) << 3) + 4, ((alike & 31) << 3) + 4)
    );

/**
 * For each pixel the number of the nearest triple, or -1 where it is transparent; `bits` as for
 * spots.
 */
export function numbersFor({data}, palette, bits = EXACT) {
  const labs = palette.map((triple) => oklabOf(...triple));
  const numbers = new Int8Array(data.length / 4);
  const known = new Map();
  const knownAlike = new Int8Array(bits === EXACT ? 0 : 32768).fill(-1);
  for (let at = 0; at < data.length; at += 4) {
    if (isTransparent(data, at))
      numbers[at / 4] = -1;
    else if (bits === EXACT) {
      const key = keyOf(data, at);
      if (!known.has(key)) known.set(key, nearestOf(labs, oklabOf(...tripleOfKey(key))));
      numbers[at / 4] = known.get(key);
    } else {
      const alike = alikeOf(data, at);
      if (knownAlike[alike] < 0) knownAlike[alike] = nearestOf(labs, alikeLab(alike));
      numbers[at / 4] = knownAlike[alike];
    }
  }
  return numbers;
}
