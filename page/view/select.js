// The selection: a rectangle of cells, or those of it that a shape has, that is copied, cut, moved,
// mirrored, turned. What is moved floats over the picture until it is set down; then all of it is
// one stroke.

import {say} from '../base/elements.js';
import {on, tell} from '../base/events.js';
import {cellsBetween} from '../document/cover.js';
import {HOLE, boxAround, placesOfShape, shapeOf, without} from '../document/regions.js';
import {boxOf, rowsOfText, stamped} from '../document/shapes.js';
import {sheet} from '../draw/sheet.js';
import {bench} from '../engine/bench.js';
import {phrase} from '../texts/phrase.js';
import {isCovered, isTyping} from './actions.js';
import {heard, paintPlaces, tools, useTool} from './tools.js';

// `box` is where it lies; `shape` are rows with holes where it is not all of the box; `rows` are
// its letters where it floats, with the same holes; `under` is the picture below it.
export const selection = {
  box: null,
  shape: null,
  rows: null,
  under: null,
  grip: null,
  copied: null
};

const isOfSize = (picture, {rows, columns}) =>
    picture.length === rows && picture[0].length === columns;
const shapeNow = () => selection.rows ?? selection.shape;
export const selectionBoxes = () => (selection.box ? [{...selection.box, shape: shapeNow()}] : []);

/** Whether a cell is selected. */
export function isSelected({row, col}) {
  const {box} = selection;
  const isIn =
      box !== null && row >= box.top && row <= box.bottom && col >= box.left && col <= box.right;
  return isIn && shapeNow()?.[row - box.top][col - box.left] !== HOLE;
}

/** The places that are selected, of what does not float; null where nothing is. */
export const selectedPlaces = () =>
    (selection.box ? placesOfShape(selection.box, selection.shape, bench.state.columns) : null);

/** Selects some places in place of what was. */
export function selectPlaces(places) {
  setDown();
  const {picture} = bench.seen();
  const box = places.size ? boxAround(places, picture[0].length) : null;
  Object.assign(selection, {box, shape: box && shapeOf(places, box, picture)});
  showSelection();
}

export function showSelection() {
  sheet.boxes = selectionBoxes();
  if (selection.rows && bench.state && isOfSize(selection.under, sheet.doc)) {
    sheet.preview(cellsBetween(
        sheet.doc.picture,
        stamped(selection.under, selection.rows, selection.box.top, selection.box.left)
    ));
  }
  sheet.drawMarks();
  tell('selected', selection.box);
}

export function beginSelect(at) {
  if (isSelected(at)) {
    lift();
    selection.grip = {row: at.row - selection.box.top, col: at.col - selection.box.left};
    tools.drag = {tool: 'select', moves: true, from: at};
    return;
  }
  const hadOne = selection.box !== null;
  setDown();
  Object.assign(selection, {box: boxOf(at, at), shape: null});
  tools.drag = {tool: 'select', moves: false, from: at, hadOne};
  showSelection();
}

export function alongSelect(at) {
  const {drag} = tools;
  if (!drag.moves)
    selection.box = boxOf(drag.from, at);
  else
    moveFloat(
        at.row - selection.grip.row - selection.box.top,
        at.col - selection.grip.col - selection.box.left
    );
  showSelection();
}

export function endSelect() {
  const {drag} = tools;
  tools.drag = null;
  const {box} = selection;
  // A click beside a selection takes it away; it does not select one cell.
  if (!drag.moves && box.top === box.bottom && box.left === box.right && drag.hadOne)
    selection.box = null;
  showSelection();
}

// Takes the selected cells up: below them is background.
export function lift() {
  if (selection.rows) return;
  const {box} = selection;
  const {picture} = bench.seen();
  selection.rows = shapeOf(selectedPlaces(), box, picture);
  selection.under = without(picture, selection.rows, box);
}

export function moveFloat(down, across) {
  const {box} = selection;
  selection.box = {
    top: box.top + down,
    left: box.left + across,
    bottom: box.bottom + down,
    right: box.right + across
  };
}

/** Sets down what floats: one stroke. */
export function setDown() {
  const {rows, under, box} = selection;
  if (!rows) return;
  const picture = stamped(under, rows, box.top, box.left);
  Object.assign(
      selection,
      {rows: null, under: null, shape: rows.some((row) => row.includes(HOLE)) ? rows : null}
  );
  const doc = bench.seen();
  sheet.overlay = new Map();
  if (isOfSize(picture, doc))
    heard(bench.become(
        (now) => (isOfSize(picture, now) ? {...now, picture} : null),
        cellsBetween(doc.picture, picture)
    ));
  sheet.update();
  sheet.redraw();
  clipSelection(doc);
  showSelection();
}

// What is selected lies in a document.
function clipSelection(doc) {
  const {box, shape} = selection;
  const [top, left] = [Math.max(0, box.top), Math.max(0, box.left)];
  const [bottom, right] =
      [Math.min(doc.rows - 1, box.bottom), Math.min(doc.columns - 1, box.right)];
  if (top > bottom || left > right) return void Object.assign(selection, {box: null, shape: null});
  selection.box = {top, left, bottom, right};
  selection.shape = shape &&
      shape.slice(
               top - box.top, bottom - box.top + 1
      ).map((row) => row.slice(left - box.left, right - box.left + 1));
}

// Behind a stroke to another size what is selected lies in the picture still, and what floats is
// shown on it.
function keepSelection() {
  const {box, rows} = selection;
  if (!box || !bench.state) return;
  if (!rows) clipSelection(bench.seen());
  if (rows || String(Object.values(selection.box ?? {})) !== String(Object.values(box)))
    showSelection();
}

/** Takes a move back, or the selection away. */
export function dropSelection() {
  if (selection.rows)
    Object.assign(selection, {rows: null, under: null});
  else if (!selection.box)
    return false;
  Object.assign(selection, {box: null, shape: null});
  sheet.preview(null);
  showSelection();
  return true;
}

/** The letters of what is selected, or null. */
function selectedRows() {
  const {box, rows} = selection;
  if (!box) return null;
  return (rows ?? shapeOf(selectedPlaces(), box, bench.seen().picture)
  ).map((row) => row.replaceAll(HOLE, '.'));
}

/** Clears what is selected to the background. */
export function clearSelected() {
  if (!selection.box) return null;
  if (selection.rows) {
    selection.rows = selection.rows.map((row) => row.replace(/[^ ]/g, '.'));
    return setDown();
  }
  return paintPlaces(selectedPlaces(), '.');
}

/** Lets rows of letters float over the picture, where the selection or the view begins. */
export function pasteRows(rows) {
  setDown();
  const seen = sheet.geometry.seen();
  const at = selection.box ?? {top: seen.top, left: seen.left};
  useTool('select');
  selection.rows = rows;
  selection.under = bench.seen().picture;
  selection.box = {
    top: at.top,
    left: at.left,
    bottom: at.top + rows.length - 1,
    right: at.left + rows[0].length - 1
  };
  showSelection();
  say(phrase('view.dragIntoPlaceEnter'));
}

// Does something to what is selected, which floats from then on.
function changeSelected(change) {
  lift();
  const {box, rows} = selection;
  const doc = {
    ...bench.seen(),
    rows: rows.length,
    columns: rows[0].length,
    picture: rows,
    givens: new Set(),
    locks: new Set()
  };
  const {picture} = change(doc);
  selection.rows = picture;
  selection.box = {
    ...box,
    bottom: box.top + picture.length - 1,
    right: box.left + picture[0].length - 1
  };
  showSelection();
}

/** Mirrors, turns or shifts what is selected, or else the whole picture. */
export function transform(change) {
  if (selection.box) return changeSelected(change);
  return heard(bench.become(change));
}

// The browser's own copy, cut and paste, so that text goes to other programs and comes from them
// without being asked for.
function copySelected(event, cuts) {
  if (isTyping(event.target) || !bench.state || isCovered() ||
      document.querySelector('dialog[open]'))
    return;
  if (String(getSelection()) && !cuts && !selection.box) return;
  const rows = selectedRows() ?? bench.seen().picture;
  event.preventDefault();
  event.clipboardData.setData('text/plain', `${rows.join('\n')}\n`);
  if (cuts && selection.box) clearSelected();
  sayCopied(rows, cuts && selection.box);
}

const sayCopied = (rows, isCut) =>
    say(isCut ? phrase('view.cutRowsCells', {rows: rows.length, cells: rows[0].length}) :
                phrase('view.copiedRowsCells', {rows: rows.length, cells: rows[0].length}));

/** Copies what is selected, or the whole picture, to the clipboard; `cuts` clears it too. */
export async function copyToClipboard(cuts) {
  const rows = selectedRows() ?? bench.seen().picture;
  try {
    await navigator.clipboard.writeText(`${rows.join('\n')}\n`);
  } catch {
    say(phrase('view.browserDoesNotLet'), 'alarm');
    return;
  }
  sayCopied(rows, cuts && selection.box !== null);
  if (cuts && selection.box) clearSelected();
}

/** Hears the browser's copy, cut and paste, and keeps the selection in the picture. */
export function startSelection() {
  addEventListener('copy', (event) => copySelected(event, false));
  addEventListener('cut', (event) => copySelected(event, true));
  addEventListener('paste', (/** @type {any} */ event) => {
    if (isTyping(event.target) || !bench.state || isCovered() || event.defaultPrevented ||
        document.querySelector('dialog[open]'))
      return;
    const rows = rowsOfText(event.clipboardData.getData('text/plain'), bench.state.colours.length);
    if (!rows) return;
    event.preventDefault();
    pasteRows(rows);
  });
  on('stroke', keepSelection);
  on('shown', keepSelection);
  on('opened', () => Object.assign(selection, {box: null, shape: null, rows: null, under: null}));
}
