// Few cells to be given until a puzzle has one solution, or until line logic solves it.
//
// Each second picture is a set of cells one of which must be given. The fewest cells that meet all
// sets so far are asked for, and a further picture is a further set: so what has one solution at
// last has the fewest cells, and that is known.

import {groupsByLines} from '../document/turning.js';
import {Narrowing} from './narrowing.js';

const FEW = 3;          // so many given cells for line logic are looked for by trying all
const MOST_TRIED = 40;  // open cells that are tried where no second picture is known

/** The cells that line logic leaves open where `given` are given besides the board's own. */
const openWith = (board, given) =>
    new Narrowing(board, {givens: [...board.givens, ...given]}).settle().openCells();

// The cells in which two pictures differ, in parts that share no line: each part alone is a second
// picture.
function partsOf(board, other) {
  const differing = [...other.keys()].filter((index) => other[index] !== board.cells[index]);
  return groupsByLines(differing, (index) => board.linesOf(index));
}

// The cells to be given that are needed: line logic does not settle them by the others. Without the
// rest it leaves the same cells open, and the solutions are the same.
const needed = (board, given) => given.reduce((rest, index) => {
  const others = rest.filter((other) => other !== index);
  return openWith(board, others).includes(index) ? rest : others;
}, [...given]);

const isMet = (set, given) => set.some((index) => given.has(index));

// How often each cell is in a set that is not met yet.
function weights(sets, given) {
  const count = new Map();
  for (const set of sets) {
    if (isMet(set, given)) continue;
    for (const index of set) count.set(index, (count.get(index) ?? 0) + 1);
  }
  return count;
}

// At most so many cells more that meet all sets, or null.
function meeting(sets, given, left, limit) {
  limit.step();
  const open = sets.filter((set) => !isMet(set, given));
  if (open.length === 0) return new Set(given);
  const used = new Set();
  let apart = 0;
  for (const set of open) {
    if (isMet(set, used)) continue;
    apart++;
    for (const index of set) used.add(index);
  }
  if (apart > left) return null;
  const count = weights(open, given);
  const least = open.reduce((best, set) => (set.length < best.length ? set : best));
  for (const index of [...least].sort((one, other) => count.get(other) - count.get(one))) {
    given.add(index);
    const found = meeting(sets, given, left - 1, limit);
    given.delete(index);
    if (found) return found;
  }
  return null;
}

// The cell that meets most of the sets that are not met.
function heaviest(sets, given) {
  let best = [0, -1];
  for (const [index, count] of weights(sets, given))
    if (count > best[0]) best = [count, index];
  return best[1];
}

/**
 * The search for the fewest cells to be given until the verdict is unique. `hooks.found({ given,
 * isLeast })` hears what suffices.
 */
export class Giving {
  constructor(board, asker, limit, hooks) {
    this.board = board;
    this.asker = asker;
    this.hooks = hooks;
    this.sets = [];
    this.limit = limit;
  }

  // The verdict's word where these cells are given. Each part in which a second picture differs is
  // added to `sets`.
  async #word(given) {
    this.limit.step();
    const {word, other} = await this.asker.ask(this.board.cells, given);
    if (other) this.sets.push(...partsOf(this.board, other));
    return word;
  }

  async run() {
    const enough = await this.#greedy();
    this.hooks.found({given: needed(this.board, [...enough]), isLeast: enough.size < 2});
    await this.#leaveOut(enough);
    const {given, isKnown} = await this.fewest(enough.size);
    if (isKnown) this.hooks.found({given: needed(this.board, given ?? [...enough]), isLeast: true});
  }

  /**
   * The fewest cells that suffice, where fewer than `bound` do: `given` or null, and whether that
   * is known.
   */
  async fewest(bound) {
    for (let most = 0; most < bound;) {
      const given = meeting(this.sets, new Set(), most, this.limit);
      if (given === null) {
        most++;
        continue;
      }
      const word = await this.#word(given);
      if (word !== 'ambiguous')
        return {given: word === 'unique' ? [...given] : null, isKnown: word === 'unique'};
    }
    return {given: null, isKnown: true};
  }

  // Cells, one after the other, until they suffice: that which meets most sets, or where nothing is
  // known an open one.
  async #greedy() {
    const given = new Set();
    for (;;) {
      const word = await this.#word(given);
      if (word === 'unique') return given;
      given.add(
          word === 'ambiguous' ? heaviest(this.sets, given) :
                                 settling(this.board, given, this.limit)
      );
    }
  }

  async #leaveOut(given) {
    for (const index of [...given]) {
      given.delete(index);
      if ((await this.#word(given)) !== 'unique')
        given.add(index);
      else
        this.hooks.found({given: needed(this.board, [...given]), isLeast: given.size < 2});
    }
  }
}

// Of some open cells, all along the puzzle, the one that settles most.
function settling(board, given, limit) {
  const open = openWith(board, [...given]);
  const step = Math.ceil(open.length / MOST_TRIED);
  let best = null;
  for (let at = 0; at < open.length; at += step) {
    limit.step();
    const left = openWith(board, [...given, open[at]]).length;
    if (!best || left < best.left) best = {index: open[at], left};
  }
  return best.index;
}

// Cells to be given until line logic solves the puzzle, fewer than `bound`: that which settles
// most, again and again. Or null.
function settlers(board, bound, limit) {
  const chosen = [];
  for (let open = openWith(board, []); open.length > 0;) {
    if (chosen.length + 1 >= bound) return null;
    let best = null;
    for (const index of open) {
      limit.step();
      const rest = openWith(board, [...chosen, index]);
      if (!best || rest.length < best.rest.length) best = {index, rest};
    }
    chosen.push(best.index);
    open = best.rest;
  }
  return needed(board, chosen);
}

/**
 * Cells, fewer than `bound`, that have line logic solve the puzzle, as the session says too; or
 * null.
 */
export async function fewForLines(board, asker, limit, bound) {
  const chosen = settlers(board, bound, limit);
  return chosen && (await asker.isSolved(board.cells, new Set(chosen))) ? chosen : null;
}

/**
 * Few cells to be given until line logic solves the puzzle: the cell that settles most, again and
 * again; then by trying all few.
 */
export async function givensForLines(board, asker, limit, hooks) {
  const chosen = settlers(board, Infinity, limit);
  if (!(await asker.isSolved(board.cells, new Set(chosen)))) return;
  hooks.found({given: chosen, isLeast: chosen.length < 2});
  const open = openWith(board, []);
  for (let count = 1; count < chosen.length && count <= FEW; count++) {
    const given = anyOf(board, open, count, limit);
    if (given && (await asker.isSolved(board.cells, new Set(given))))
      return void hooks.found({given, isLeast: true});
  }
  if (chosen.length <= FEW + 1) hooks.found({given: chosen, isLeast: true});
}

// So many of the open cells that suffice, or null.
function anyOf(board, open, count, limit, given = []) {
  limit.step();
  if (count === 0) return openWith(board, given).length === 0 ? given : null;
  for (let at = 0; at < open.length; at++) {
    const found = anyOf(board, open.slice(at + 1), count - 1, limit, [...given, open[at]]);
    if (found) return found;
  }
  return null;
}
