// Witnesses that a candidate misses the goal. For one solution: other colours for some cells with
// the same clues. For line logic: cells whose candidates hold one another up. Kept, one refutes
// further candidates without a question to the engine.

import {groupsByLines} from '../document/turning.js';
import {MOST_CELLS, clueOf, narrow} from './lines.js';

const line = new Uint8Array(MOST_CELLS);
const other = new Uint8Array(MOST_CELLS);
const masks = new Uint16Array(MOST_CELLS);
const narrowed = new Uint16Array(MOST_CELLS);
const changed = new Uint8Array(2 * MOST_CELLS);  // lines
const POOL = 4000;                               // witnesses kept

/** Whether two lines of one length have the same clue. */
export function haveSameClue(one, two, size) {
  let [at, to] = [0, 0];
  for (;;) {
    while (at < size && one[at] === 0) at++;
    while (to < size && two[to] === 0) to++;
    if (at === size || to === size) return at === size && to === size;
    const colour = one[at];
    if (two[to] !== colour) return false;
    const [from, begin] = [at, to];
    while (at < size && one[at] === colour) at++;
    while (to < size && two[to] === colour) to++;
    if (at - from !== to - begin) return false;
  }
}

/** Cells that share lines, each with a value: another colour, or the mask of its candidates. */
class Witness {
  constructor(board, cells, values, codes, isMask) {
    this.board = board;
    this.cells = Uint16Array.from(cells);
    this.values = Uint16Array.from(values);
    this.codes = codes;
    this.isMask = isMask;
    this.inLine = new Map();  // line: places along it and their values, one behind the other
    cells.forEach((index, at) => {
      const [row, column] = board.linesOf(index);
      this.#note(row, index % board.columns, values[at]);
      this.#note(column, row, values[at]);
    });
    this.touches = new Uint8Array(board.lines);
    for (const one of this.inLine.keys()) this.touches[one] = 1;
    this.lineCount = this.inLine.size;
  }

  #note(one, place, value) {
    if (!this.inLine.has(one)) this.inLine.set(one, []);
    this.inLine.get(one).push(place, value);
  }

  meets(lines) {
    for (const one of lines)
      if (this.touches[one]) return true;
    return false;
  }

  // Puts into `changed` the lines of the witness in which a candidate differs from the one where it
  // was found; answers how many.
  #findChanged(candidate) {
    const [mine, its] = [this.codes, candidate.codes];
    let [at, to, count] = [0, 0, 0];
    while (at < mine.length || to < its.length) {
      if (to === its.length || (at < mine.length && mine[at] < its[to]))
        count = this.#addChanged(mine[at++], count);
      else if (at === mine.length || its[to] < mine[at])
        count = this.#addChanged(its[to++], count);
      else {
        at++;
        to++;
      }
    }
    return count;
  }

  #addChanged(code, count) {
    const {columns, rows} = this.board;
    const row = Math.floor((code >> 4) / columns);
    return this.#addLine(rows + ((code >> 4) % columns), this.#addLine(row, count));
  }

  #addLine(one, count) {
    if (!this.touches[one]) return count;
    for (let at = 0; at < count; at++)
      if (changed[at] === one) return count;
    changed[count] = one;
    return count + 1;
  }

  /** Whether it refutes the candidate, too. */
  lives(candidate) {
    this.board.work.witness();
    const count = this.#findChanged(candidate);
    if (count === 0) return true;
    return this.isMask ? this.#holds(candidate, count) : this.#differs(candidate, count);
  }

  #differs(candidate, count) {
    const {cells, values} = this;
    let at = 0;
    while (at < cells.length && candidate.cells[cells[at]] === values[at]) at++;
    if (at === cells.length) return false;
    for (let one = 0; one < count; one++) {
      const size = this.#read(candidate, changed[one]);
      for (let cell = 0; cell < size; cell++) other[cell] = line[cell];
      const noted = this.inLine.get(changed[one]);
      for (let place = 0; place < noted.length; place += 2) other[noted[place]] = noted[place + 1];
      if (!haveSameClue(line, other, size)) return false;
    }
    return true;
  }

  // No line may exclude anything from the candidates of the witness's cells, where the other cells
  // are settled.
  #holds(candidate, count) {
    if (!this.cells.some((index, at) => this.values[at] & ~(1 << candidate.cells[index])))
      return false;
    for (let one = 0; one < count; one++) {
      const size = this.#read(candidate, changed[one]);
      for (let cell = 0; cell < size; cell++) masks[cell] = 1 << line[cell];
      const noted = this.inLine.get(changed[one]);
      for (let place = 0; place < noted.length; place += 2) masks[noted[place]] |= noted[place + 1];
      const clue = clueOf(line.subarray(0, size));
      this.board.work.line(size, clue);
      narrow(masks, size, clue, narrowed);
      for (let cell = 0; cell < size; cell++)
        if (narrowed[cell] !== masks[cell]) return false;
    }
    return true;
  }

  #read(candidate, one) {
    const {rows, columns} = this.board;
    const [first, step, size] =
        one < rows ? [one * columns, 1, columns] : [one - rows, columns, rows];
    for (let at = 0; at < size; at++) line[at] = candidate.cells[first + at * step];
    return size;
  }
}

/**
 * Witnesses of a candidate: the cells with a value, split into parts that share no line. Zero is
 * no value.
 */
export function witnessesOf(candidate, values, isMask) {
  const {board} = candidate;
  const places = [...values.keys()].filter((index) => values[index]);
  return groupsByLines(places, (index) => board.linesOf(index)).map((part) => {
    const its = part.map((index) => (isMask ? values[index] : values[index] - 1));
    return new Witness(board, part, its, [...candidate.codes], isMask);
  });
}

/** The witnesses so far. Those that refuted something lately come first. */
export class Pool {
  constructor() {
    this.all = [];
  }

  add(witnesses) {
    this.all.push(...witnesses);
    if (this.all.length > POOL) this.all.splice(POOL / 2, this.all.length - POOL);
  }

  /** Up to so many that refute the candidate. */
  living(candidate, most) {
    const found = [];
    for (let at = 0; at < this.all.length && found.length < most; at++) {
      const one = this.all[at];
      if (!one.lives(candidate)) continue;
      found.push(one);
      if (found.length === 1 && at > 0) {
        const to = at >> 1;
        this.all[at] = this.all[to];
        this.all[to] = one;
      }
    }
    return found;
  }

  /** The latest ones. */
  latest(count) {
    return this.all.slice(-count);
  }
}
