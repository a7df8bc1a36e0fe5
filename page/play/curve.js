// The difficulty curve of a solving path: cells left after each of its steps, and its cliffs, that
// is, the steps where it is hardest to go on.

import {svgPart} from '../base/elements.js';
import {phrase} from '../texts/phrase.js';

const [WIDE, HIGH] = [284, 88];  // points of the drawing
const EDGE = 6;
const MOST_WAITS = 3;
const LEAST_WAIT = 3;  // lines without a cell before a step that make it a cliff

/** How many cells are left after each number of steps, from none on. */
export function cellsLeft(walk) {
  const left = [walk.letters(0).filter((letter) => letter === '?').length];
  for (const {falls} of walk.steps) left.push(left.at(-1) - falls.length);
  return left;
}

// How many steps before each one, in a row, settled no cell.
function waitsOf({steps}) {
  let count = 0;
  return steps.map(({falls}) => {
    const before = count;
    count = falls.length ? 0 : count + 1;
    return falls.length ? before : 0;
  });
}

/**
 * The cliffs of a path, in its order: guesses, the longest waits for a cell, and the hardest step.
 * Each is `{at, why}`: the number of the step, from 1, and what makes it hard, in words.
 */
export function cliffsOf(walk) {
  const {steps} = walk;
  if (!steps.some(({falls}) => falls.length)) return [];
  const waits = waitsOf(walk);
  const guesses = [...steps.keys()].filter((at) => steps[at].line === null);
  const waiting = [...steps.keys()].filter(
                                       (at) => waits[at] >= LEAST_WAIT
  ).sort((one, other) => waits[other] - waits[one] || one - other);
  const found = new Map();
  const add = (at, why) => found.has(at) || found.set(at, why);
  for (const at of guesses.slice(0, MOST_WAITS)) add(at, phrase('play.cliffGuess'));
  for (const at of waiting.slice(0, MOST_WAITS))
    add(at, phrase('play.cliffWait', {lines: waits[at]}));
  add(walk.hardest - 1, phrase('play.cliffHardest'));
  return [...found].map(([at, why]) => ({at: at + 1, why})).sort((one, other) => one.at - other.at);
}

/** Draws the curve of cells left, the cliffs on it, and the step that is shown. */
export function drawCurve(svg, left, cliffs, at) {
  const most = Math.max(1, left[0]);
  const x = (step) => EDGE + ((WIDE - 2 * EDGE) * step) / Math.max(1, left.length - 1);
  const y = (count) => HIGH - EDGE - ((HIGH - 2 * EDGE) * count) / most;
  const line = left.map((count, step) => `${step ? 'L' : 'M'}${x(step)} ${y(count)}`).join('');
  svg.setAttribute('viewBox', `0 0 ${WIDE} ${HIGH}`);
  svg.replaceChildren(
      svgPart('path', {d: line}),
      svgPart('path', {class: 'now', d: `M${x(at)} ${EDGE}V${HIGH - EDGE}`}),
      ...cliffs.map(
          (cliff) => svgPart(
              'circle', {class: 'cliff', cx: x(cliff.at - 1), cy: y(left[cliff.at - 1]), r: 4}
          )
      )
  );
}

/** The step at a place across the curve, as a share of its width. */
export const stepAcross = (share, count) =>
    Math.round(((share * WIDE - EDGE) / (WIDE - 2 * EDGE)) * count);
