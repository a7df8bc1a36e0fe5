// The picture of the start screen: a balloon that becomes a puzzle and a picture again, as a short
// loop; a still of both where motion is not wanted.

import {make} from '../base/elements.js';
import {runsOf} from '../document/document.js';
import {coloursOf, drawClue, drawRules, edges, linesOn, wholeFrame} from '../draw/board.js';
import {CanvasSurface} from '../draw/surface.js';
import {LETTERS} from '../document/limits.js';

const [SIDE, WIDE, HIGH] = [14, 62, 96];  // points of a cell, and of the room of clues
const STEP = 60;                          // milliseconds between two pictures
const [HOLD, TURN] = [28, 24];            // pictures while it stands, and while it changes
const SOON = 50;                          // milliseconds until it is drawn
const REST = 1500;                        // milliseconds until it begins

// The share of the picture that is a puzzle, at a picture of the loop.
function shareAt(at) {
  const step = at % (2 * (HOLD + TURN));
  if (step < HOLD) return 0;
  if (step < HOLD + TURN) return (step - HOLD) / TURN;
  return step < 2 * HOLD + TURN ? 1 : 1 - (step - 2 * HOLD - TURN) / TURN;
}

function lookOf(doc, style) {
  const ground =
      (style.backgroundColor.match(/[0-9.]+/g) ?? [255, 255, 255]).slice(0, 3).map(Number);
  return {
    ...coloursOf(doc),
    ...linesOn(ground),
    signs: null,
    family: style.fontFamily,
    thin: 1,
    wide: 1,
    border: 1,
    isWhole: true,
    ink: style.color,
    faint: style.color,
    style: 'chip',
    edge: null,
    hair: 0,
    radius: 3,
    font: 10,
    least: 6,
    weight: 600,
    blank: style.backgroundColor
  };
}

// Draws it with a share of its columns as a puzzle, from the left.
function drawShare(canvas, doc, clues, share) {
  const style = getComputedStyle(canvas);
  const look = lookOf(doc, style);
  const surface = new CanvasSurface(canvas.getContext('2d'));
  const frame = wholeFrame(WIDE, HIGH, SIDE, doc);
  const first = share * doc.columns;
  surface.rect(0, 0, canvas.width, canvas.height, look.blank);
  drawRules(surface, look, frame);
  doc.picture.forEach((row, at) => {
    const [y, high] = edges(look, at, at + 1, HIGH, SIDE, doc.rows);
    for (const [col, letter] of [...row].entries()) {
      if (col < first - 1e-9 || letter === '.') continue;
      const [x, wide] = edges(look, col, col + 1, WIDE, SIDE, doc.columns);
      surface.rect(x, y, wide, high, look.fills[LETTERS.indexOf(letter)]);
    }
  });
  if (!share) return;
  surface.pen.globalAlpha = share;
  const size = {width: 12, height: SIDE - 1};
  const place =
      {far: 0, gap: 1, unit: 1, sizeOf: ({length}) => ({...size, width: length > 9 ? 16 : 12})};
  clues.rows.forEach(
      (blocks, at) => drawClue(
          surface, look, 'r', blocks, {...place, near: WIDE - 4, middle: HIGH + (at + 0.5) * SIDE}
      )
  );
  clues.columns.forEach((blocks, at) => drawClue(surface, look, 'c', blocks, {
                          ...place,
                          near: HIGH - 4,
                          middle: WIDE + (at + 0.5) * SIDE,
                          sizeOf: () => size
                        }));
  surface.pen.globalAlpha = 1;
}

/** A picture that becomes a puzzle, over and over while it is seen. */
export function loopOf(doc) {
  const canvas = make('canvas', {
    id: 'loop',
    width: WIDE + SIDE * doc.columns + 2,
    height: HIGH + SIDE * doc.rows + 2,
    'aria-hidden': 'true'
  });
  const clues = runsOf(doc);
  const isStill = matchMedia('(prefers-reduced-motion: reduce)');
  let [at, drawn, timer] = [0, -1, 0];
  const draw = (share) => {
    if (share !== drawn) drawShare(canvas, doc, clues, share);
    drawn = share;
  };
  const go = () => {
    if (!document.hidden) draw(isStill.matches ? 0.5 : shareAt(at++));
    timer = setTimeout(go, isStill.matches ? REST : STEP);
  };
  const seen = new IntersectionObserver((changes) => {
    clearTimeout(timer);
    if (changes.at(-1).isIntersecting) timer = setTimeout(go, REST);
  });
  // The page is ready before it is drawn for the first time.
  requestAnimationFrame(() => setTimeout(() => {
                          draw(isStill.matches ? 0.5 : 0);
                          seen.observe(canvas);
                        }, SOON));
  return canvas;
}
