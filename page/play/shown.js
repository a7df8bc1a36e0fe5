// What a hint or a step of the solving path shows over the field: its line, the cells it settles,
// the cells it uses, and the heat map.

import {drawTwice} from '../draw/marks.js';
import {play} from './play.js';

const GUESS = 'rgb(160 40 110 / 45%)';

/** The tint of a round: the later, the stronger; what needs a guess (-1) apart. */
export const heatOf = (round, most) =>
    (round < 0 ? GUESS :
                 `hsl(24 90% 48% / ${
                     Math.round(10 + (45 * Math.max(0, round - 1)) / Math.max(1, most - 1))}%)`);

function ring(pen, index, ink, breadth, dash) {
  const {side, state} = play;
  const [x, y] = [(index % state.columns) * side, Math.floor(index / state.columns) * side];
  drawTwice(
      pen,
      1,
      [breadth + 2, breadth],
      {ink, dash},
      () => pen.strokeRect(x + 2, y + 2, side - 3, side - 3)
  );
}

function drawHeat(pen, rounds, ink) {
  const {side, state} = play;
  const most = Math.max(1, ...rounds);
  rounds.forEach((round, index) => {
    if (round === 0) return;
    pen.fillStyle = heatOf(round, most);
    pen.fillRect(
        (index % state.columns) * side, Math.floor(index / state.columns) * side, side, side
    );
    if (side < 16) return;
    pen.fillStyle = ink;
    pen.font = `600 ${Math.floor(side * 0.5)}px system-ui, sans-serif`;
    pen.textAlign = 'center';
    pen.textBaseline = 'middle';
    const at = [
      (index % state.columns) * side + side / 2,
      Math.floor(index / state.columns) * side + side / 2 + 1
    ];
    pen.fillText(round < 0 ? '?' : String(round), ...at);
  });
}

/**
 * Draws what `play.shown` has: `line` (rows first, or null), `cells`, `premises`; and `play.heat`,
 * the round of each cell, with its number, in the inks of a look.
 */
export function drawShown(pen, {ink, alarm, here}) {
  const {shown, heat, side, state} = play;
  if (heat) drawHeat(pen, heat, ink);
  if (heat || !shown) return;
  if (shown.line !== null) {
    const across = shown.line < state.rows;
    const at = across ? shown.line : shown.line - state.rows;
    pen.strokeStyle = alarm;
    pen.lineWidth = 3;
    if (across)
      pen.strokeRect(1, at * side, state.columns * side - 1, side);
    else
      pen.strokeRect(at * side, 1, side, state.rows * side - 1);
  }
  for (const index of shown.premises) ring(pen, index, here, 2, [3, 2]);
  for (const index of shown.cells) ring(pen, index, alarm, 2.5, []);
}
