// The picture that is to be repaired: which cells may take which colour, by what rule, and a
// candidate of it that is changed in place.

import {clueOf} from './lines.js';
import {Work} from './work.js';

const HALF = 2 ** 26;  // two halves of a key, each below this, make a number that is exact

// Numbers below HALF, the same each time.
function keys(count) {
  const found = new Float64Array(count);
  for (let at = 0, state = 12345; at < count; at++, state = (state * 48271) % 2147483647)
    found[at] = state % HALF;
  return found;
}

/** The letters of colours by number. */
export const LETTERS = '.abcdefghijklmno';

/** Colour numbers, row by row, of a picture of letters. */
export const cellsOf = (picture) =>
    Uint8Array.from([...picture.join('')], (letter) => LETTERS.indexOf(letter));

/**
 * One change: `codes` are its cells as index * 16 + colour, more than one where symmetry is kept;
 * `pain` ranks it.
 */
class Move {
  constructor(board, codes) {
    this.codes = codes;
    this.pain =
        codes.reduce((sum, code) => sum + board.pain(code >> 4, code & 15), 0) / codes.length;
    this.lines = [...new Set(codes.flatMap((code) => board.linesOf(code >> 4)))];
  }
}

/** What may change of an open document, as Board takes it. */
export function boardFields(state, {rule = true, mirror = null} = {}) {
  return {
    rows: state.rows,
    columns: state.columns,
    cells: cellsOf(state.picture),
    givens: [...state.givens],
    lockedCells: [...state.locks],
    lockedColours: state.colours.flatMap((_, at) => (state.inks[at]?.locked ? [at] : [])),
    rule,
    mirror,
  };
}

/**
 * A picture with what may be changed in it. `rule` asks for the damage rule; `mirror` is 'x', 'y'
 * or null.
 */
export class Board {
  constructor({
    rows,
    columns,
    cells,
    givens = [],
    lockedCells = [],
    lockedColours = [],
    rule = true,
    mirror = null
  }) {
    this.rows = rows;
    this.columns = columns;
    this.cells = cells;
    this.rule = rule;
    this.mirror = mirror;
    this.work = new Work();
    this.lines = rows + columns;
    this.givens = [...givens];
    this.isLocked = new Uint8Array(cells.length);
    for (const index of [...givens, ...lockedCells]) this.isLocked[index] = 1;
    this.isLockedColour = new Uint8Array(16);
    for (const colour of lockedColours) this.isLockedColour[colour] = 1;
    this.used = [...new Set([0, ...cells])].sort((one, other) => one - other);
    this.all = this.used.reduce((mask, colour) => mask | (1 << colour), 0);
    this.around = Array.from(cells, (_, index) => this.#around(index));
    this.wasLone = Uint8Array.from(cells, (_, index) => (this.isLone(cells, index) ? 1 : 0));
    this.moves = this.#moves();
    this.clues = this.cluesOf(cells);
  }

  /** The same with some cells painted: what givens are looked for on. */
  painted(changes) {
    const cells = this.cells.slice();
    for (const {index, colour} of changes) cells[index] = colour;
    return Object.assign(Object.create(Board.prototype), this, {cells, clues: this.cluesOf(cells)});
  }

  /** The same where some cells more are given: what is changed is elsewhere. */
  holding(given) {
    const isLocked = this.isLocked.slice();
    for (const index of given) isLocked[index] = 1;
    const moves = this.moves.filter((move) => move.codes.every((code) => !isLocked[code >> 4]));
    return Object.assign(
        Object.create(Board.prototype), this, {givens: [...this.givens, ...given], isLocked, moves}
    );
  }

  #around(index) {
    const [row, column] = [Math.floor(index / this.columns), index % this.columns];
    const found = [];
    for (let r = Math.max(0, row - 1); r <= Math.min(this.rows - 1, row + 1); r++) {
      for (let c = Math.max(0, column - 1); c <= Math.min(this.columns - 1, column + 1); c++)
        if (r !== row || c !== column) found.push(r * this.columns + c);
    }
    return found;
  }

  /** The row and the column of a cell, as line numbers: rows first. */
  linesOf(index) {
    return [Math.floor(index / this.columns), this.rows + (index % this.columns)];
  }

  sizeOf(line) {
    return line < this.rows ? this.columns : this.rows;
  }

  /** The index of a line's first cell, and the step from one cell to the next. */
  placeOf(line) {
    return line < this.rows ? [line * this.columns, 1] : [line - this.rows, this.columns];
  }

  /** The clue of a line of some cells. */
  clueAt(cells, line) {
    const [first, step] = this.placeOf(line);
    const its = [];
    for (let at = 0, size = this.sizeOf(line); at < size; at++) its.push(cells[first + at * step]);
    return clueOf(its);
  }

  cluesOf(cells) {
    return Array.from({length: this.lines}, (_, line) => this.clueAt(cells, line));
  }

  /** The cells that share a side with a cell. */
  beside(index) {
    const {rows, columns} = this;
    const [row, column] = [Math.floor(index / columns), index % columns];
    return [
      row > 0 && index - columns,
      column > 0 && index - 1,
      column + 1 < columns && index + 1,
      row + 1 < rows && index + columns
    ].filter((one) => one !== false);
  }

  /** Whether a cell side by side has this colour in the picture as it came. */
  isEdge(index, colour) {
    return this.beside(index).some((other) => this.cells[other] === colour);
  }

  /** Whether none of the eight cells around has the cell's colour. */
  isLone(cells, index) {
    for (const other of this.around[index])
      if (cells[other] === cells[index]) return false;
    return true;
  }

  /** Whether a change at a cell made a pixel alone that was not so before. */
  makesLone(cells, index) {
    const isNew = (at) =>
        this.isLone(cells, at) && !(cells[at] === this.cells[at] && this.wasLone[at] === 1);
    return isNew(index) || this.around[index].some(isNew);
  }

  // How many pieces of a colour touch a cell, going round it.
  #pieces(index, colour) {
    const {rows, columns, cells} = this;
    const [row, column] = [Math.floor(index / columns), index % columns];
    const has = ([down, right]) => row + down >= 0 && row + down < rows && column + right >= 0 &&
        column + right < columns && cells[index + down * columns + right] === colour;
    const ring = [[-1, -1], [-1, 0], [-1, 1], [0, 1], [1, 1], [1, 0], [1, -1], [0, -1]].map(has);
    return ring.filter((one, at) => one && !ring[(at + 1) % 8]).length;
  }

  /**
   * How much a change is seen: an area's colour that is not beside it, pieces that come apart,
   * pieces that grow together.
   */
  pain(index, colour) {
    return (this.isEdge(index, colour) ? 0 : 4) +
        (this.#pieces(index, this.cells[index]) > 1 ? 1 : 0) +
        (this.#pieces(index, colour) > 1 ? 1 : 0);
  }

  // The cell opposite, where the picture is symmetric and stays so.
  #opposite(index) {
    const [row, column] = [Math.floor(index / this.columns), index % this.columns];
    return this.mirror === 'x' ? row * this.columns + this.columns - 1 - column :
                                 (this.rows - 1 - row) * this.columns + column;
  }

  #isAllowed(index, colour) {
    return this.cells[index] !== colour && !this.isLocked[index] && !this.isLockedColour[colour] &&
        !this.isLockedColour[this.cells[index]] && (!this.rule || this.isEdge(index, colour));
  }

  #moves() {
    const moves = [];
    for (let index = 0; index < this.cells.length; index++) {
      const opposite = this.mirror ? this.#opposite(index) : index;
      if (opposite < index) continue;
      const both = [...new Set([index, opposite])];
      for (const colour of this.used) {
        if (both.every((at) => this.#isAllowed(at, colour)))
          moves.push(new Move(this, both.map((at) => at * 16 + colour)));
      }
    }
    return moves;
  }
}

// log2 of the number of lists of a length that have a clue: the choices of places for its blocks
// among the cells that are free.
function loosenessOf({lengths, colours}, size) {
  const needed = lengths.reduce(
      (sum, length, at) => sum + length + (at > 0 && colours[at] === colours[at - 1] ? 1 : 0), 0
  );
  let bits = 0;
  for (let at = 1; at <= lengths.length; at++) bits += Math.log2((size - needed + at) / at);
  return bits;
}

/** A candidate: the picture with some cells changed. `codes` are these by rising index. */
export class Candidate {
  #keys;
  #before = [];  // for each move, the clues of its lines before it was made, or null where they may
                 // be others now

  constructor(board) {
    this.board = board;
    this.cells = board.cells.slice();
    this.codes = [];
    this.moves = [];
    this.high = 0;
    this.low = 0;
    this.#keys = keys(board.cells.length * 16 * 2);
    this.clues = Array.from({length: board.lines}, () => null);
  }

  /** A number for the set of changes. */
  get key() {
    return this.high * HALF + this.low;
  }

  /** The clues of all lines. Only those that changed since the last time are worked out. */
  allClues() {
    for (let line = 0; line < this.clues.length; line++)
      this.clues[line] ??= this.board.clueAt(this.cells, line);
    return this.clues;
  }

  /** The sum of the logarithms of how many lists have each line's clue. */
  looseness() {
    const clues = this.allClues();
    let sum = 0;
    for (let line = 0; line < clues.length; line++)
      sum += clues[line].looseness ??= loosenessOf(clues[line], this.board.sizeOf(line));
    return sum;
  }

  has(move) {
    return move.codes.some((code) => this.cells[code >> 4] !== this.board.cells[code >> 4]);
  }

  #turn(move, isMade) {
    for (const code of move.codes) {
      this.cells[code >> 4] = isMade ? code & 15 : this.board.cells[code >> 4];
      this.high = (this.high ^ this.#keys[code * 2]) >>> 0;
      this.low = (this.low ^ this.#keys[code * 2 + 1]) >>> 0;
      if (isMade)
        this.codes.splice(this.#rank(code), 0, code);
      else
        this.codes.splice(this.codes.indexOf(code), 1);
    }
    for (const line of move.lines) this.clues[line] = null;
  }

  #rank(code) {
    let at = 0;
    while (at < this.codes.length && this.codes[at] < code) at++;
    return at;
  }

  make(move) {
    this.moves.push(move);
    this.#before.push(move.lines.map((line) => this.clues[line]));
    this.#turn(move, true);
  }

  takeBack(move) {
    const at = this.moves.lastIndexOf(move);
    this.moves.splice(at, 1);
    this.#turn(move, false);
    const [before] = this.#before.splice(at, 1);
    if (at < this.moves.length)
      this.#before.fill(null, at);
    else if (before)
      for (let each = 0; each < before.length; each++) this.clues[move.lines[each]] = before[each];
  }

  /** Makes exactly these moves. */
  become(moves) {
    for (const move of [...this.moves].reverse())
      if (!moves.includes(move)) this.takeBack(move);
    for (const move of moves)
      if (!this.moves.includes(move)) this.make(move);
  }

  /**
   * Whether the damage rule is kept: no pixel alone that was not so before. The colours of
   * neighbours are the moves' own rule.
   */
  isNeat() {
    return !this.board.rule ||
        this.codes.every((code) => !this.board.makesLone(this.cells, code >> 4));
  }

  isNeatAfter(move) {
    return !this.board.rule ||
        move.codes.every((code) => !this.board.makesLone(this.cells, code >> 4));
  }
}
