// Pointers over the sheet: one paints, two pan and pinch, the wheel zooms, Space or the middle
// button pans, the right button or Alt takes the colour of a cell, and a clue that is dragged to
// another one exchanges the two lines.

import {spanOf, withoutGestures} from '../base/elements.js';
import {tell} from '../base/events.js';
import {sheet} from '../draw/sheet.js';
import {bench} from '../engine/bench.js';
import {takesKeys} from './actions.js';
import {cursor, gridCell, moveCursor} from './grid.js';
import {setDown} from './select.js';
import {alongDrag, beginDrag, dropDrag, endDrag, sendStroke, tools, useColour} from './tools.js';

const pointers = new Map();  // that are down: id to {x, y}
let pinch = null;
let panning = null;
export const space = {
  isDown: false,
  pans: false
};
const wheel = {
  rolled: 0,
  when: 0
};
// pixels of rolling for one step: a wheel sends more at once, a pad for two fingers less but often
const NOTCH = 40;

const placeOfEvent = (event) => ({x: event.clientX, y: event.clientY});

function panBy(dx, dy) {
  const {geometry} = sheet;
  const {panX, panY} = geometry;
  geometry.pan(dx * geometry.scale, dy * geometry.scale);
  if (geometry.panX === panX && geometry.panY === panY) return;
  geometry.isFitted = false;
  sheet.redrawAll();
}

// Zooms at a point of the window.
function zoomAt(cell, x, y) {
  const box = sheet.view.getBoundingClientRect();
  const {geometry} = sheet;
  if (geometry.zoom(cell, (x - box.left) * geometry.scale, (y - box.top) * geometry.scale))
    sheet.redrawAll();
}

/** Zooms by a step, at the middle. */
export function zoomBy(direction) {
  const {geometry} = sheet;
  if (geometry.zoom(geometry.step(direction, 6))) sheet.redrawAll();
}

// The step that a wheel makes: 1, -1, or 0 where it has not rolled far enough since the last one.
// What comes behind a rest is a step at once. A pinch on a pad comes as a little rolling with Ctrl.
function wheelStep({deltaY, deltaMode, ctrlKey, timeStamp}) {
  const isFirst = timeStamp - wheel.when > 200;
  wheel.when = timeStamp;
  wheel.rolled = isFirst ? Math.sign(deltaY) * NOTCH :
                           wheel.rolled + deltaY * (deltaMode ? 30 : 1) * (ctrlKey ? 5 : 1);
  if (Math.abs(wheel.rolled) < NOTCH) return 0;
  const direction = wheel.rolled < 0 ? 1 : -1;
  wheel.rolled = 0;
  return direction;
}

function pinchTo() {
  const now = spanOf(pointers);
  panBy(pinch.x - now.x, pinch.y - now.y);
  const wanted = (pinch.cell * now.far) / Math.max(1, pinch.from);
  if (Math.abs(wanted - sheet.geometry.cell) >= 1) zoomAt(wanted, now.x, now.y);
  Object.assign(pinch, {x: now.x, y: now.y});
}

function pointerDown(event) {
  if (!bench.state || event.target.closest('button')) return;
  event.preventDefault();
  if (document.activeElement instanceof HTMLElement) document.activeElement.blur();
  sheet.view.setPointerCapture(event.pointerId);
  pointers.set(event.pointerId, placeOfEvent(event));
  if (pointers.size === 2) {
    dropDrag();
    sheet.markDragged(null);
    tell('pointed', null);
    const at = spanOf(pointers);
    pinch = {...at, from: at.far, cell: sheet.geometry.cell};
    return;
  }
  if (pointers.size > 2) return;
  if (space.isDown || event.button === 1) {
    panning = placeOfEvent(event);
    space.pans = true;
    sheet.view.classList.add('panning');
    return;
  }
  const at = sheet.under(event);
  if (event.pointerType === 'touch') tell('pointed', at.part === 'none' ? null : at);
  if (at.part === 'none')
    return tools.name === 'select' && !event.shiftKey ? void setDown() : undefined;
  if (at.part !== 'cell') return holdLine(at);
  moveCursor(at.row, at.col);
  gridCell().focus({preventScroll: true, focusVisible: false});
  if (event.button === 2 || event.altKey) return useColour(sheet.letterAt(at.row, at.col));
  beginDrag({row: at.row, col: at.col}, event.shiftKey);
}

function holdLine(at) {
  const isRow = at.part === 'row';
  moveCursor(isRow ? at.row : cursor.row, isRow ? cursor.col : at.col);
  const line = isRow ? at.row : at.col;
  sheet.markDragged({axis: isRow ? 'r' : 'c', word: at.part, from: line, to: line});
}

function pointerMove(event) {
  if (!bench.state) return;
  if (pointers.has(event.pointerId)) pointers.set(event.pointerId, placeOfEvent(event));
  if (pinch) return pointers.size === 2 ? pinchTo() : undefined;
  if (panning) {
    panBy(panning.x - event.clientX, panning.y - event.clientY);
    panning = placeOfEvent(event);
    return;
  }
  const at = sheet.under(event);
  sheet.view.classList.toggle('over-clue', at.part === 'row' || at.part === 'column');
  if (sheet.dragged) return dragLine(at);
  if (tools.drag) {
    const last = tools.drag.last ?? tools.drag.from;
    if (at.row === last.row && at.col === last.col) return;
    tools.drag.last = {row: at.row, col: at.col};
    alongDrag({row: at.row, col: at.col});
    moveCursor(at.row, at.col);
    tell('pointed', {...at, part: 'cell'});
    if (sheet.isBeyond(event)) sheet.reveal(at.row, at.col);
    return;
  }
  tell('pointed', at.part === 'none' ? null : at);
}

function dragLine(at) {
  const line = sheet.dragged.axis === 'r' ? at.row : at.col;
  if (line === sheet.dragged.to) return;
  sheet.markDragged({...sheet.dragged, to: line});
  tell('pointed', {...at, part: sheet.dragged.word});
}

function pointerUp(event) {
  pointers.delete(event.pointerId);
  if (pinch) {
    if (!pointers.size) pinch = null;
    return;
  }
  if (panning) {
    panning = null;
    sheet.view.classList.remove('panning');
    return;
  }
  const {dragged} = sheet;
  const isTap = dragged !== null &&
      dragged.from ===
          dragged.to;  // what a finger shows by a tap on a clue stays until the next one
  if (event.pointerType === 'touch' && !isTap) tell('pointed', null);
  if (!dragged) return void endDrag();
  sheet.markDragged(null);
  if (dragged.from !== dragged.to)
    sendStroke([`swap ${dragged.word} ${dragged.from + 1} ${dragged.to + 1}`]);
}

function pointerLost(event) {
  pointers.delete(event.pointerId);
  if (!pointers.size) pinch = panning = null;
  if (sheet.state) sheet.markDragged(null);
  dropDrag();
}

/** Hears pointers, wheel and Space on the sheet. */
export function hearPointers() {
  const {view} = sheet;
  withoutGestures(view);
  view.addEventListener('contextmenu', (event) => event.preventDefault());
  view.addEventListener('pointerdown', pointerDown);
  view.addEventListener('pointermove', pointerMove);
  view.addEventListener('pointerup', pointerUp);
  view.addEventListener('pointercancel', pointerLost);
  view.addEventListener('pointerleave', (event) => {
    if (event.pointerType !== 'touch') tell('pointed', null);
  });
  view.addEventListener('wheel', (event) => {
    if (!bench.state) return;
    event.preventDefault();
    if (event.shiftKey) return panBy(event.deltaY || event.deltaX, 0);
    if (event.deltaX && !event.deltaY) return panBy(event.deltaX, 0);
    const direction = wheelStep(event);
    if (direction) zoomAt(sheet.geometry.step(direction, 8), event.clientX, event.clientY);
  }, {passive: false});
  addEventListener('keydown', (/** @type {any} */ event) => {
    if (event.key !== ' ' || takesKeys(event.target) ||
        event.target.closest?.('button, summary, dialog'))
      return;
    if (!event.repeat) Object.assign(space, {isDown: true, pans: false});
    if (event.target === document.body) event.preventDefault();
    sheet.view.classList.add('may-pan');
  });
  const endSpace = () => {
    space.isDown = false;
    view.classList.remove('may-pan');
  };
  addEventListener('keyup', (event) => {
    if (event.key === ' ') endSpace();
  });
  addEventListener('blur', endSpace);  // let go in another window it is not heard here
}
