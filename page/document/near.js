// Colours that a solver may take for one another, as docs/SESSION.md defines it. The engine says
// the same of a document; here it is asked of palettes that are no document yet, with each cell
// that is painted, and of colours as other eyes see them.

import {eightBits} from './colours.js';
import {LETTERS} from './limits.js';

const NEAR = 2097152;

/** Whether two colours of eight bits are too similar. */
export function coloursTooNear(one, other) {
  const [red, green, blue] = one.map((sample, at) => sample - other[at]), reds = one[0] + other[0];
  return (1024 + reds) * red * red + 2048 * green * green + (1534 - reds) * blue * blue < NEAR;
}

/**
 * The pairs of letters whose colours are too near to be told apart; of colours that no cell has,
 * the background alone counts.
 */
export function nearPairs({colours, maxval, picture}) {
  const shown = colours.map((colour) => eightBits(colour, maxval));
  const used = new Set(picture.join(''));
  const counts = [...colours.keys()].filter((at) => at === 0 || used.has(LETTERS[at]));
  const pairs = [];
  for (const [place, one] of counts.entries()) {
    for (const other of counts.slice(place + 1))
      if (coloursTooNear(shown[one], shown[other])) pairs.push([LETTERS[one], LETTERS[other]]);
  }
  return pairs;
}

/**
 * For each colour of a document the number of that which it becomes where those that look alike
 * are one: the one with most cells.
 */
export function mergedNumbers(doc) {
  const flat = doc.picture.join('');
  const counts = doc.colours.map((_, at) => flat.split(LETTERS[at]).length);
  const pairs = nearPairs(doc).map((pair) => pair.map((letter) => LETTERS.indexOf(letter)));
  const isNear = (one, other) => pairs.some((pair) => pair.includes(one) && pair.includes(other));
  // What is transparent is no colour that another one becomes.
  const order = [...counts.keys()].sort(
                                      (one, other) => counts[other] - counts[one]
  ).filter((at) => at > 0 || !doc.isClear);
  const stay = [];
  const into = [...counts.keys()];
  for (const at of order) {
    const other = stay.find((one) => isNear(one, at));
    if (other === undefined)
      stay.push(at);
    else
      into[at] = other;
  }
  return into;
}
