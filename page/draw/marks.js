// Marks over the cells: a reason with its premises, a selection, the rubber of a drag, the axes of
// symmetric pens, and rings through the cells that can turn.

import {HOLE, boxAround, shapeOf} from '../document/regions.js';
import {isPossible} from '../document/symmetry.js';
import {CanvasSurface} from './surface.js';

const MOST_TURNING = 48;  // cells of a ring
const WARNED = 0.75;      // how much is seen of a dot

/**
 * Draws a line that is seen on any colour: white, and then less wide in an ink, which may be
 * dashed. `widths` and `dash` are in pixels of the page.
 */
export function drawTwice(pen, scale, widths, {ink, dash = []}, stroke) {
  for (const [strokeStyle, wide, dashes] of [['#fff', widths[0], []], [ink, widths[1], dash]]) {
    Object.assign(
              pen, {strokeStyle, lineWidth: wide * scale}
    ).setLineDash(dashes.map((one) => one * scale));
    stroke();
  }
  pen.setLineDash([]);
}

function ringAround(pen, sheet, row, col, ink, dash, grow) {
  const {geometry: at} = sheet;
  const side = at.cell + 2 * grow;
  drawTwice(
      pen,
      at.scale,
      [4.5, 2.5],
      {ink, dash},
      () => pen.strokeRect(at.x(col) - grow, at.y(row) - grow, side, side)
  );
}

// The line of a reason, its premises and the cell that was asked about.
function drawReason(pen, sheet) {
  const {geometry: at, reason, state} = sheet;
  if (reason.word === 'by') {
    const across = reason.axis === 'r';
    const line = reason.at - 1;
    pen.lineWidth = 3 * at.scale;
    pen.strokeStyle = sheet.inks.accent;
    if (across)
      pen.strokeRect(at.x(0) - 1, at.y(line) - 1, state.columns * at.cell + 2, at.cell + 2);
    else
      pen.strokeRect(at.x(line) - 1, at.y(0) - 1, at.cell + 2, state.rows * at.cell + 2);
    for (const premise of reason.premises)
      ringAround(
          pen,
          sheet,
          across ? line : premise.at - 1,
          across ? premise.at - 1 : line,
          sheet.inks.accent,
          [3, 2],
          -1
      );
  }
  ringAround(pen, sheet, reason.row, reason.col, sheet.inks.alarm, [], 1);
}

// The sides of a shape's cells beyond which there is none of it.
function edgesOf(path, at, {top, left}, shape) {
  const has = (row, col) => (shape[row]?.[col] ?? HOLE) !== HOLE;
  const side = (x, y, toX, toY) => {
    path.moveTo(at.x(left + x), at.y(top + y));
    path.lineTo(at.x(left + toX), at.y(top + toY));
  };
  for (let row = 0; row <= shape.length; row++) {
    for (let col = 0; col <= shape[0].length; col++) {
      if (has(row, col) !== has(row - 1, col)) side(col, row, col + 1, row);
      if (has(row, col) !== has(row, col - 1)) side(col, row, col, row + 1);
    }
  }
}

const drawDashed = (pen, sheet, path) => drawTwice(
    pen,
    sheet.geometry.scale,
    [3.5, 2],
    {ink: sheet.inks.accent, dash: [5, 3]},
    () => pen.stroke(path)
);

function drawBox(pen, sheet, box) {
  const {geometry: at} = sheet;
  const path = new Path2D();
  if (box.shape?.some((row) => row.includes(HOLE)))
    edgesOf(path, at, box, box.shape);
  else
    path.rect(
        at.x(box.left),
        at.y(box.top),
        (box.right - box.left + 1) * at.cell,
        (box.bottom - box.top + 1) * at.cell
    );
  drawDashed(pen, sheet, path);
}

// The places where line solving stalls, each framed; where there are several they have numbers.
function drawPlaces(pen, sheet) {
  const {geometry: at, state, places} = sheet;
  const surface = new CanvasSurface(pen);
  places.forEach((cells, number) => {
    const box = boxAround(new Set(cells), state.columns);
    const path = new Path2D();
    edgesOf(path, at, box, shapeOf(new Set(cells), box, state.picture));
    drawTwice(pen, at.scale, [5, 2.5], {ink: sheet.inks.alarm}, () => pen.stroke(path));
    if (places.length < 2) return;
    const [x, y, size] =
        [at.x(cells[0] % state.columns), at.y(Math.floor(cells[0] / state.columns)), 8 * at.scale];
    surface.disc(x, y, size, sheet.inks.alarm);
    surface.text(
        number + 1,
        x,
        y + at.scale / 2,
        {size: Math.round(size * 1.4), ink: sheet.inks.paper, family: sheet.family, weight: 600}
    );
  });
}

// A line through the first and the last of some cells of a row or a column; along rows it has an
// arrow, of one to the right and of the next to the left.
function drawTurn(path, at, from, to, turns) {
  const [x, y, toX, toY] = [...from, ...to];
  path.moveTo(x, y);
  path.lineTo(toX, toY);
  if (turns === 0) return;
  const [tip, back] = turns > 0 ? [toX, -1] : [x, 1];
  const size = at.cell * 0.22;
  path.moveTo(tip + back * size, y - size);
  path.lineTo(tip, y);
  path.lineTo(tip + back * size, y + size);
}

// Cells in groups, by their line.
function byLine(cells, lineOf) {
  const lines = new Map();
  for (const place of cells) lines.set(lineOf(place), [...lines.get(lineOf(place)) ?? [], place]);
  return [...lines.values()];
}

// What can turn, as a ring through its cells, where these are not too many to follow.
function drawTurns(pen, sheet) {
  const {geometry: at, turns, state: {columns}} = sheet;
  const middle = (place
  ) => [at.x(place % columns) + at.cell / 2, at.y(Math.floor(place / columns)) + at.cell / 2];
  const path = new Path2D();
  for (const cells of turns.filter(({length}) => length <= MOST_TURNING)) {
    byLine(cells, (place) => Math.floor(place / columns))
        .forEach(
            (row, number) =>
                drawTurn(path, at, middle(row[0]), middle(row.at(-1)), number % 2 ? -1 : 1)
        );
    for (const column of byLine(cells, (place) => place % columns))
      drawTurn(path, at, middle(column[0]), middle(column.at(-1)), 0);
  }
  drawTwice(pen, at.scale, [4, 2], {ink: sheet.inks.alarm}, () => pen.stroke(path));
}

// A faint dot in each cell where painting would cost something, and a ring where that is not
// decided.
function drawWarned(pen, sheet) {
  const {geometry: at, state, warned, inks} = sheet;
  const radius = Math.max(1.5 * at.scale, at.cell / 8);
  pen.globalAlpha = WARNED;
  for (const [place, mark] of warned) {
    const [x, y] = [place % state.columns, Math.floor(place / state.columns)].map(
        (line, axis) => (axis ? at.y(line) : at.x(line)) + at.cell / 2
    );
    pen.beginPath();
    pen.arc(x, y, radius, 0, 2 * Math.PI);
    Object.assign(pen, {lineWidth: 3 * at.scale, strokeStyle: '#fff', fillStyle: inks.alarm});
    pen.stroke();
    if (mark === 'breaks') pen.fill();
    Object.assign(pen, {lineWidth: at.scale, strokeStyle: inks.alarm});
    pen.stroke();
  }
  pen.globalAlpha = 1;
}

// The axes of symmetric pens; quarter turns have a ring about the middle.
function drawAxes(pen, sheet) {
  const {geometry: at, state, symmetry} = sheet;
  const [x, y] = [at.x(0) + (state.columns * at.cell) / 2, at.y(0) + (state.rows * at.cell) / 2];
  const path = new Path2D();
  if (symmetry !== 'down') {
    path.moveTo(x, at.y(0));
    path.lineTo(x, at.y(state.rows));
  }
  if (symmetry !== 'across') {
    path.moveTo(at.x(0), y);
    path.lineTo(at.x(state.columns), y);
  }
  if (symmetry === 'quarter') {
    path.moveTo(x + at.cell, y);
    path.arc(x, y, at.cell, 0, 2 * Math.PI);
  }
  drawDashed(pen, sheet, path);
}

/** Draws all marks of a sheet. */
export function drawMarks(pen, sheet) {
  const {geometry: at} = sheet;
  pen.save();
  pen.beginPath();
  pen.rect(at.originX - 2, at.originY - 2, at.width, at.height);
  pen.clip();
  if (sheet.symmetry !== 'none' && isPossible(sheet.symmetry, sheet.state)) drawAxes(pen, sheet);
  drawPlaces(pen, sheet);
  if (sheet.turns.length && sheet.hatching === 'differing' && !at.isBare) drawTurns(pen, sheet);
  drawWarned(pen, sheet);
  for (const index of sheet.framed)
    ringAround(
        pen,
        sheet,
        Math.floor(index / sheet.state.columns),
        index % sheet.state.columns,
        sheet.inks.alarm,
        [],
        1
    );
  if (sheet.reason) drawReason(pen, sheet);
  for (const box of sheet.boxes) drawBox(pen, sheet, box);
  pen.restore();
}
