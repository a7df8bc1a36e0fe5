// The small map of a large picture: one point for each cell, the part that is seen as a frame; a
// press goes there.

import {make, say, withoutGestures} from '../base/elements.js';
import {on} from '../base/events.js';
import {eightBits} from '../document/colours.js';
import {LETTERS} from '../document/limits.js';
import {drawTwice} from '../draw/marks.js';
import {sheet} from '../draw/sheet.js';
import {bench} from '../engine/bench.js';
import {phrase} from '../texts/phrase.js';
import {cursor, moveCursor} from './grid.js';

const MAP_FROM = 60;  // lines

const minimap = {
  canvas: make(
      'canvas',
      {id: 'minimap', role: 'img', 'aria-label': phrase('view.smallMapPicture'), hidden: true}
  ),
  image: null
};

function drawMinimap() {
  const {canvas} = minimap;
  const {state, geometry: at} = sheet;
  const isShown = state && Math.max(state.rows, state.columns) > MAP_FROM &&
      (at.columns * at.cell > at.width - at.originX || at.rows * at.cell > at.height - at.originY);
  canvas.hidden = !isShown;
  if (!isShown) return;
  if (canvas.width !== state.columns || canvas.height !== state.rows) {
    [canvas.width, canvas.height] = [state.columns, state.rows];
    [canvas.style.width, canvas.style.height] = [`${state.columns}px`, `${state.rows}px`];
    minimap.image = null;
  }
  const pen = canvas.getContext('2d');
  minimap.image ??= minimapImage(pen);
  pen.putImageData(minimap.image, 0, 0);
  const {top, left, bottom, right} = at.seen();
  drawTwice(
      pen,
      1,
      [3, 1.5],
      {ink: sheet.inks.accent},
      () => pen.strokeRect(left + 0.5, top + 0.5, right - left, bottom - top)
  );
}

function minimapImage(pen) {
  const {state, doc} = sheet;
  const image = pen.createImageData(state.columns, state.rows);
  const points = doc.colours.map((triple) => eightBits(triple, doc.maxval));
  const {other} = state.verdict;
  let at = 0;
  for (let row = 0; row < state.rows; row++) {
    for (let col = 0; col < state.columns; col++, at += 4) {
      const differs = other && other[row][col] !== state.picture[row][col];
      const [red, green, blue] = differs ?
          [220, 60, 0] :
          points[LETTERS.indexOf(doc.picture[row][col])] ?? [128, 128, 128];
      image.data.set([red, green, blue, 255], at);
    }
  }
  return image;
}

function goByMinimap(event) {
  const box = minimap.canvas.getBoundingClientRect();
  sheet.geometry.isFitted = false;
  sheet.geometry.centre(Math.floor(event.clientY - box.top), Math.floor(event.clientX - box.left));
  sheet.redrawAll();
}

/** Puts the map over the sheet. */
export function makeMinimap() {
  sheet.stage.append(minimap.canvas);
  const later = () => {
    minimap.image = null;
    setTimeout(drawMinimap);
  };
  on('shown', later);
  on('judged', later);
  on('moved', drawMinimap);
  withoutGestures(minimap.canvas);
  minimap.canvas.addEventListener('pointerdown', (event) => {
    event.preventDefault();
    minimap.canvas.setPointerCapture(event.pointerId);
    goByMinimap(event);
  });
  minimap.canvas.addEventListener('pointermove', (event) => {
    if (event.buttons) goByMinimap(event);
  });
}

/**
 * The next cell in row order behind the cursor for which `wanted(row, col)` holds; the cursor goes
 * there.
 */
export function goToNext(wanted, nothing) {
  const {rows, columns} = bench.state;
  const from = cursor.row * columns + cursor.col;
  for (let step = 1; step <= rows * columns; step++) {
    const index = (from + step) % (rows * columns);
    const [row, col] = [Math.floor(index / columns), index % columns];
    if (!wanted(row, col)) continue;
    moveCursor(row, col, true);
    return true;
  }
  say(nothing);
  return false;
}
