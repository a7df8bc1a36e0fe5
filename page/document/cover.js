// Which commands paint what was asked for: rectangles that cover cells, the way from one document
// to another, and how a document is opened.

import {placeOf} from './document.js';
import {LETTERS} from './limits.js';
import {placesOfLetter} from './regions.js';
import {cellsThatDiffer} from './shapes.js';

/**
 * Cells that are touched and still want the colour, with the sums over rectangles that a cover is
 * found by.
 */
class Cover {
  rows;
  columns;  // of the picture

  constructor(touched, picture, letter) {
    [this.rows, this.columns] = [picture.length, picture[0].length];
    this.has = new Uint8Array(this.rows * this.columns);  // 1 for a touched cell
    this.wanted = new Uint8Array(
        this.rows * this.columns
    );  // 1 for one that has another colour and is not covered yet
    for (const place of touched) {
      this.has[place] = 1;
      this.wanted[place] =
          picture[Math.floor(place / this.columns)][place % this.columns] === letter ? 0 : 1;
    }
  }

  sum(cells, {top, left, bottom, right}) {
    let count = 0;
    for (let row = top; row <= bottom; row++)
      for (let at = row * this.columns + left; at <= row * this.columns + right; at++)
        count += cells[at];
    return count;
  }

  spans(box) {
    return box.bottom < this.rows && box.right < this.columns &&
        this.sum(this.has, box) === (box.bottom - box.top + 1) * (box.right - box.left + 1);
  }

  /** The rectangle of touched cells that grows from a cell, first across or first down. */
  grown(top, left, isAcross) {
    const box = {top, left, bottom: top, right: left};
    const down = () => {
      while (this.spans({...box, top: box.bottom + 1, bottom: box.bottom + 1})) box.bottom++;
    };
    const across = () => {
      while (this.spans({...box, left: box.right + 1, right: box.right + 1})) box.right++;
    };
    for (const grow of isAcross ? [across, down] : [down, across]) grow();
    return box;
  }

  /** The better of the two rectangles from a cell; its cells are covered from now on. */
  take(row, col) {
    const [flat, tall] = [this.grown(row, col, true), this.grown(row, col, false)];
    const box = this.sum(this.wanted, flat) >= this.sum(this.wanted, tall) ? flat : tall;
    for (let one = box.top; one <= box.bottom; one++)
      this.wanted.fill(0, one * this.columns + box.left, one * this.columns + box.right + 1);
    return box;
  }
}

const lineOf = ({top, left, bottom, right}, letter) =>
    (top === bottom && left === right ?
         `paint ${top + 1} ${left + 1} ${letter}` :
         `fill ${top + 1} ${left + 1} ${bottom + 1} ${right + 1} ${letter}`);

// The rectangles that together have each touched cell which does not yet have the colour.
function boxesOf(touched, picture, letter) {
  const cover = new Cover(touched, picture, letter);
  const boxes = [];
  for (let place = 0; place < cover.wanted.length; place++) {
    if (cover.wanted[place])
      boxes.push(cover.take(Math.floor(place / cover.columns), place % cover.columns));
  }
  return boxes;
}

/**
 * The commands for cells: rectangles of `touched` cells that together have each cell that does not
 * yet have the colour.
 */
export const coverOf = (touched, picture, letter) =>
    boxesOf(touched, picture, letter).map((box) => lineOf(box, letter));

/** A picture with some cells, by their places, in other colours. */
export function withCells(picture, cells) {
  const rows = picture.slice();
  const columns = picture[0].length;
  for (const [place, letter] of cells) {
    const [row, col] = [Math.floor(place / columns), place % columns];
    if (row < rows.length) rows[row] = rows[row].slice(0, col) + letter + rows[row].slice(col + 1);
  }
  return rows;
}

/** A picture with the cells of a repaint, `{ index, colour }`, painted. */
export const painted = (picture, cells) =>
    withCells(picture, cells.map(({index, colour}) => [index, LETTERS[colour]]));

/** The cells in which a picture differs from another of its size, with their letters. */
export function cellsBetween(from, to) {
  const columns = to[0].length;
  return new Map(cellsThatDiffer(
                     from, to
  ).map((place) => [place, to[Math.floor(place / columns)][place % columns]]));
}

/**
 * The commands that make one picture of another of its size: as few rectangles as are easily
 * found; null for more than `most`.
 */
export function repaintLines(from, to, most = Infinity) {
  const lines = [];
  let {picture} = from;
  for (const letter of new Set(cellsBetween(picture, to).values())) {
    const touched = placesOfLetter(to, letter);
    const boxes = boxesOf(touched, picture, letter);
    if (lines.length + boxes.length > most) return null;
    lines.push(...boxes.map((box) => lineOf(box, letter)));
    picture = withCells(picture, [...touched].map((place) => [place, letter]));
  }
  return lines;
}

/**
 * The commands that make one document of another; null for more than `most`, another size or fewer
 * colours.
 */
export function linesTo(from, to, most = Infinity) {
  if (from.rows !== to.rows || from.columns !== to.columns || from.maxval !== to.maxval)
    return null;
  if (from.colours.length > to.colours.length || from.colours[0].join() !== to.colours[0].join())
    return null;
  const lines = [];
  for (const [at, triple] of to.colours.entries()) {
    if (at >= from.colours.length)
      lines.push(`colour add ${triple.join(' ')}`);
    else if (triple.join() !== from.colours[at].join())
      lines.push(`colour set ${LETTERS[at]} ${triple.join(' ')}`);
  }
  if (lines.length > 1) return null;  // on the way two colours might be the same, which is refused
  const painted = repaintLines(from, to.picture, most);
  if (!painted) return null;
  lines.push(...painted);
  for (const place of from.givens)
    if (!to.givens.has(place)) lines.push(`unpin ${placeOf(to, place)}`);
  for (const place of to.givens)
    if (!from.givens.has(place)) lines.push(`pin ${placeOf(to, place)}`);
  return lines.length > most ? null : lines;
}

/**
 * How a document is opened: a P3 text and commands after it. A P3 text gives letters by first
 * appearance, so its first cells show the palette in its order, and the commands paint these cells
 * as they are.
 */
export function baseOf(doc) {
  const {rows, columns, maxval, colours, picture, givens} = doc;
  const head = Math.min(colours.length - 1, rows * columns);
  const flat = picture.join('');
  const triples = [...flat].map(
      (letter, place) => colours[place < head ? place + 1 : LETTERS.indexOf(letter)].join(' ')
  );
  const lines = colours.slice(head + 1).map((triple) => `colour add ${triple.join(' ')}`);
  for (let place = 0; place < head; place++)
    if (flat[place] !== LETTERS[place + 1])
      lines.push(`paint ${placeOf(doc, place)} ${flat[place]}`);
  for (const place of [...givens].sort((a, b) => a - b)) lines.push(`pin ${placeOf(doc, place)}`);
  return {
    text: `P3\n${columns} ${rows}\n${maxval}\n${triples.join('\n')}\n`,
    background: colours[0].join(','),
    lines
  };
}

// ---- what the page moves along with lines

// Where a line stands after a command: null where it is gone.
const MOVES = {
  insert: (at, [one]) => (at >= one - 1 ? at + 1 : at),
  delete: (at, [one]) =>
      (at === one - 1   ? null :
           at > one - 1 ? at - 1 :
                          at),
  swap: (at, [one, other]) =>
      (at === one - 1       ? other - 1 :
           at === other - 1 ? one - 1 :
                              at),
};

/**
 * Places after a command that was accepted: they go with their lines, as the module's givens do.
 */
export function placesAfter(places, columns, line) {
  const [word, axis, ...numbers] = line.split(' ');
  if (!places.size || !MOVES[word]) return places;
  const wide = axis === 'column' ? columns + {insert: 1, delete: -1, swap: 0}[word] : columns;
  const moved = new Set();
  for (const place of places) {
    const [row, col] = [Math.floor(place / columns), place % columns];
    const [r, c] = axis === 'row' ? [MOVES[word](row, numbers.map(Number)), col] :
                                    [row, MOVES[word](col, numbers.map(Number))];
    if (r !== null && c !== null) moved.add(r * wide + c);
  }
  return moved;
}

/** The page's part of a document after commands that were accepted. */
export function pageAfter(doc, lines) {
  let [locks, columns] = [doc.locks, doc.columns];
  for (const line of lines) {
    locks = placesAfter(locks, columns, line);
    if (line.startsWith('insert column')) columns++;
    if (line.startsWith('delete column')) columns--;
  }
  return {locks};
}
