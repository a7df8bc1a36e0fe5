// What line logic leaves of a candidate, for searches alone: they try thousands a second, and the
// session judges what they find.

import {MOST_CELLS, narrow} from './lines.js';

const line = new Uint16Array(MOST_CELLS);
const out = new Uint16Array(MOST_CELLS);

const isSettled = (mask) => (mask & (mask - 1)) === 0;

// What a clue alone leaves of its line's cells. It is kept with the clue, which most candidates
// share.
function aloneOf(clue, size, {all, work}) {
  if (!clue.alone) {
    clue.alone = new Uint16Array(size);
    work.line(size, clue);
    narrow(line.fill(all, 0, size), size, clue, clue.alone);
  }
  return clue.alone;
}

/**
 * The candidates of a puzzle's cells, a mask each, narrowed line by line: `cells` are its
 * picture's, `clues` those of its lines.
 */
export class Narrowing {
  /** `from` is a settled narrowing of the puzzle with fewer givens, from which this one goes on. */
  constructor(
      board, {cells = board.cells, givens = board.givens, clues = board.clues} = {}, from = null
  ) {
    this.board = board;
    this.cells = cells;
    this.clues = clues;
    this.isNew = !from;
    this.isDue = new Uint8Array(board.lines);
    this.masks = from?.masks.slice() ?? new Uint16Array(cells.length).fill(board.all);
    this.openIn = from?.openIn.slice() ??
        Int32Array.from(this.isDue, (_, one) => (isSettled(board.all) ? 0 : board.sizeOf(one)));
    for (const index of givens) this.#write(index, 1 << cells[index], null);
  }

  /** What line logic leaves of a settled narrowing where one cell more is given. */
  given(index) {
    return new Narrowing(
               this.board, {cells: this.cells, givens: [index], clues: this.clues}, this
    ).settle();
  }

  /** Looks at lines until none excludes anything more. */
  settle() {
    if (this.isNew)
      for (let one = 0; one < this.isDue.length; one++)
        this.#restrict(one, aloneOf(this.clues[one], this.board.sizeOf(one), this.board));
    this.isNew = false;
    for (let looks = 1; looks > 0;) {
      looks = 0;
      for (let one = 0; one < this.isDue.length; one++) {
        if (this.isDue[one] === 0 || this.openIn[one] === 0) continue;
        this.#look(one);
        looks++;
      }
    }
    return this;
  }

  /** The indices of the open cells. */
  openCells() {
    const found = [];
    for (let index = 0; index < this.masks.length; index++)
      if (!isSettled(this.masks[index])) found.push(index);
    return found;
  }

  // Excludes what none of a line's fillings has.
  #look(one) {
    const {board, masks} = this;
    const [first, step] = board.placeOf(one);
    const size = board.sizeOf(one);
    for (let at = 0; at < size; at++) line[at] = masks[first + at * step];
    this.isDue[one] = 0;
    board.work.line(size, this.clues[one]);
    narrow(line, size, this.clues[one], out);
    this.#restrict(one, out);
  }

// Leaves of a line's candidates those that `allowed` has, too.
#restrict(one, allowed) {
  const [first, step] = this.board.placeOf(one);
  for(let at = 0, size = this.board.sizeOf(one); at < size; at++) {
    const index = first + at * step;
    const mask = this.masks[index] & allowed[at];
    if (mask !== this.masks[index]) this.#write(index, mask, one);
  }
}

// Puts candidates that were excluded in a line, or in none: then both of the cell's lines are
// due.
#write(index, mask, one) {
  const [row, column] = this.board.linesOf(index);
  const wasOpen = !isSettled(this.masks[index]);
  this.masks[index] = mask;
  if (one !== row) this.isDue[row] = 1;
  if (one !== column) this.isDue[column] = 1;
  if (!wasOpen || !isSettled(mask)) return;
  this.openIn[row]--;
  this.openIn[column]--;
}
}
