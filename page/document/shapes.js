// Shapes and turns, worked out on rows of letters: what a line, a rectangle or a bucket touches,
// and what becomes of a picture that is mirrored, turned, shifted or made larger or smaller.

import {LETTERS, MOST_CELLS} from './limits.js';

/** The places (row, column) on the way from one cell to another. */
export function lineCells(from, to) {
  const steps = Math.max(Math.abs(to.row - from.row), Math.abs(to.col - from.col), 1);
  const along = (one, other, step) => Math.round(one + ((other - one) * step) / steps);
  return Array.from(
      {length: steps + 1},
      (_, step) => ({row: along(from.row, to.row, step), col: along(from.col, to.col, step)})
  );
}

/** A rectangle with its edges in order. */
export function boxOf(from, to) {
  return {
    top: Math.min(from.row, to.row),
    left: Math.min(from.col, to.col),
    bottom: Math.max(from.row, to.row),
    right: Math.max(from.col, to.col)
  };
}

/** The places in a rectangle, or on its outline alone. */
export function boxCells({top, left, bottom, right}, isOutline = false) {
  const cells = [];
  for (let row = top; row <= bottom; row++) {
    for (let col = left; col <= right; col++) {
      if (!isOutline || row === top || row === bottom || col === left || col === right)
        cells.push({row, col});
    }
  }
  return cells;
}

/** The cells of one colour that hang together, by their sides, with one cell. */
export function bucketCells(picture, start) {
  const [rows, columns] = [picture.length, picture[0].length];
  const letter = picture[start.row][start.col];
  const met = new Set([start.row * columns + start.col]);
  const waiting = [start];
  const cells = [];
  while (waiting.length) {
    const cell = waiting.pop();
    cells.push(cell);
    for (const [down, across] of [[-1, 0], [1, 0], [0, -1], [0, 1]]) {
      const [row, col] = [cell.row + down, cell.col + across];
      if (row < 0 || col < 0 || row >= rows || col >= columns || picture[row][col] !== letter ||
          met.has(row * columns + col))
        continue;
      met.add(row * columns + col);
      waiting.push({row, col});
    }
  }
  return cells;
}

// A document whose cell at (row, column) is the one that `from(row, column)` names in the old one,
// or background.
function remade(doc, rows, columns, from) {
  const picture = [];
  const [givens, locks] = [new Set(), new Set()];
  for (let row = 0; row < rows; row++) {
    let text = '';
    for (let col = 0; col < columns; col++) {
      const [r, c] = from(row, col);
      const isInside = r >= 0 && c >= 0 && r < doc.rows && c < doc.columns;
      text += isInside ? doc.picture[r][c] : '.';
      if (isInside && doc.givens.has(r * doc.columns + c)) givens.add(row * columns + col);
      if (isInside && doc.locks?.has(r * doc.columns + c)) locks.add(row * columns + col);
    }
    picture.push(text);
  }
  return {...doc, rows, columns, picture, givens, locks};
}

const TURNS = {
  across: (doc) => remade(doc, doc.rows, doc.columns, (row, col) => [row, doc.columns - 1 - col]),
  down: (doc) => remade(doc, doc.rows, doc.columns, (row, col) => [doc.rows - 1 - row, col]),
  right: (doc) => remade(doc, doc.columns, doc.rows, (row, col) => [doc.rows - 1 - col, row]),
  left: (doc) => remade(doc, doc.columns, doc.rows, (row, col) => [col, doc.columns - 1 - row]),
};

/** A document mirrored ('across', 'down') or turned ('right', 'left'). */
export const turned = (doc, turn) => TURNS[turn](doc);

/** A document moved by rows and columns; what leaves at one edge comes in at the other. */
export function shifted(doc, down, across) {
  const from = (at, by, count) => (((at - by) % count) + count) % count;
  return remade(
      doc,
      doc.rows,
      doc.columns,
      (row, col) => [from(row, down, doc.rows), from(col, across, doc.columns)]
  );
}

/**
 * A document of another size. `anchor` says where the old one lies: {down, across}, 0 for top and
 * left, 1 for bottom and right.
 */
export function resized(doc, rows, columns, anchor) {
  const [top, left] = [
    Math.round((rows - doc.rows) * anchor.down),
    Math.round((columns - doc.columns) * anchor.across)
  ];
  return remade(doc, rows, columns, (row, col) => [row - top, col - left]);
}

/** A rectangle of a document as a small document. */
export const cutOut = (doc, {top, left, bottom, right}) =>
    remade(doc, bottom - top + 1, right - left + 1, (row, col) => [row + top, col + left]);

/**
 * The box of a picture without the rows and columns at its edges that are background alone; null
 * where it has none, or nothing else.
 */
export function boxInMargin(picture) {
  const isDrawn = (row) => /[^.]/.test(row);
  const [top, bottom] = [picture.findIndex(isDrawn), picture.findLastIndex(isDrawn)];
  if (top < 0) return null;
  const left = Math.min(...picture.filter(isDrawn).map((row) => row.search(/[^.]/)));
  const right = Math.max(...picture.map((row) => row.replace(/\.+$/, '').length)) - 1;
  const isWhole =
      top === 0 && left === 0 && bottom === picture.length - 1 && right === picture[0].length - 1;
  return isWhole ? null : {top, left, bottom, right};
}

/**
 * Rows of letters put over a picture at a place; what lies outside is left out, and below a blank
 * the picture stays.
 */
export function stamped(picture, rows, top, left) {
  return picture.map((row, at) => {
    const piece = rows[at - top];
    if (piece === undefined) return row;
    let text = '';
    for (let col = 0; col < row.length; col++)
      text += (piece[col - left] ?? ' ') === ' ' ? row[col] : piece[col - left];
    return text;
  });
}

/** Rows of letters in a text that was pasted, or null. */
export function rowsOfText(text, colours) {
  const rows =
      text.replaceAll('\r', '').split('\n').map(
                                               (row) => row.trimEnd().replaceAll(' ', '.')
      ).filter((row) => row !== '');
  const known = LETTERS.slice(0, colours);
  if (!rows.length || rows.length > MOST_CELLS || rows.some((row) => row.length > MOST_CELLS || [
        ...row
      ].some((letter) => !known.includes(letter))))
    return null;
  const columns = Math.max(...rows.map((row) => row.length));
  return rows.map((row) => row.padEnd(columns, '.'));
}

/**
 * A document whose colours stand in another order: `order` has the old numbers; a number that is
 * missing becomes `into`.
 */
export function reordered(doc, order, into = 0) {
  const to =
      doc.colours.map((_, at) => (order.includes(at) ? order.indexOf(at) : order.indexOf(into)));
  const letters = to.map((at) => LETTERS[at]);
  const inks = (doc.inks ?? []).length ? order.map((at) => doc.inks[at] ?? {}) : [];
  return {
    ...doc,
    inks,
    colours: order.map((at) => doc.colours[at]),
    picture: doc.picture.map(
        (row) => [...row].map((letter) => letters[LETTERS.indexOf(letter)]).join('')
    )
  };
}

/** The cells (row * columns + column) in which two pictures of one size differ. */
export function cellsThatDiffer(picture, other) {
  const places = [];
  picture.forEach((row, at) => {
    if (row === other[at]) return;
    for (let col = 0; col < row.length; col++)
      if (row[col] !== other[at][col]) places.push(at * row.length + col);
  });
  return places;
}
