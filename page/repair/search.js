// The search for few cells to repaint: small sets exactly, and cells of a repair taken back.
//
// The engine is asked only of candidates that no known witness refutes. One change meets at most
// two witnesses that share no line, which bounds the exact search. So where it ends without a find,
// no smaller repair exists (under the rule and the locks).

import {Candidate} from './board.js';
import {Pool} from './witness.js';

const KNOWN = 24;  // living witnesses looked at in an exact search

/**
 * One search. `hooks.found(candidate, finding)` hears each repair, `hooks.tried(finding,
 * candidate)` what misses the goal.
 */
export class Search {
  constructor(board, judge, limit, hooks) {
    this.board = board;
    this.judge = judge;
    this.limit = limit;
    this.work = board.work;
    this.hooks = hooks;
    this.candidate = new Candidate(board);
    this.pool = new Pool();
    this.best = null;           // the moves of the smallest repair
    this.proved = 0;            // no repair has so few moves
    this.proposed = new Set();  // the keys of repairs
    this.wanted = 1;            // how many repairs there are when an exact search ends
    this.until = Infinity;      // when an exact search is cut off
    this.isCut = false;
    this.isSure = true;  // no candidate was left undecided
    this.visited = new Set();
    this.openAtFirst = null;  // cells of the board's picture
    this.last = null;         // the last finding
  }

  get size() {
    return this.best ? this.best.length : Infinity;
  }

  /** Nothing smaller than the best repair is left. */
  get isDone() {
    return this.size <= this.proved + 1;
  }

  async evaluate() {
    this.limit.step();
    const finding = await this.judge.judge(this.candidate);
    this.openAtFirst ??= finding.open;
    this.last = finding;
    if (!finding.isGoal && !finding.isUndecided) this.hooks.tried(finding, this.candidate);
    return finding;
  }

  /** Tells the candidate, which was just judged, as a repair, once. */
  record() {
    const {candidate} = this;
    if (this.proposed.has(candidate.key)) return;
    this.proposed.add(candidate.key);
    if (candidate.moves.length < this.size) this.best = [...candidate.moves];
    this.hooks.found(candidate, this.last);
  }

  /**
   * Searches all sets of at most so many further moves. Answers whether it ends: enough were
   * found, or it has done what it may.
   */
  async exact(left) {
    const {candidate} = this;
    let living = this.pool.living(candidate, left > 0 ? KNOWN : 1);
    if (living.length === 0) {
      const finding = await this.evaluate();
      if (finding.isGoal) return this.#accept();
      if (finding.isUndecided) this.isSure = false;
      if (finding.witnesses.length === 0) return false;
      this.pool.add(finding.witnesses);
      living = finding.witnesses;
    }
    if (left === 0) return false;
    living = [...living].sort((one, other) => one.lineCount - other.lineCount);
    if (Math.ceil(countApart(living) / 2) > left) return false;
    for (const move of left === 1 ? this.#lastMoves(living) : this.#nextMoves(living, left)) {
      if (this.#mayNoMore()) return true;
      candidate.make(move);
      const isNew = this.#visit(left - 1);
      const ends = isNew && (left > 1 || candidate.isNeat()) && (await this.exact(left - 1));
      candidate.takeBack(move);
      if (ends) return true;
    }
    return false;
  }

  #accept() {
    if (!this.candidate.isNeat()) return false;
    this.record();
    return this.proposed.size >= this.wanted;
  }

  // Whether an exact search has done what it may.
  #mayNoMore() {
    this.limit.step();
    this.isCut ||= this.work.seconds > this.until;
    return this.isCut;
  }

  #keyFor(left) {
    return this.candidate.key * 4 + Math.min(left, 3);
  }

  #visit(left) {
    const key = this.#keyFor(left);
    if (this.visited.has(key)) return false;
    this.visited.add(key);
    return true;
  }

  #movesAt(witness) {
    return this.board.moves.filter(
        (move) => !this.candidate.has(move) && witness.meets(move.lines)
    );
  }

  // The moves after which none of the living witnesses lives, the least painful first.
  #lastMoves(living) {
    const {candidate} = this;
    const moves = this.#movesAt(living[0]
    ).filter((move) => living.every((witness) => witness.meets(move.lines)));
    return moves
        .filter((move) => {
          candidate.make(move);
          const isLeft =
              candidate.isNeatAfter(move) && !living.some((witness) => witness.lives(candidate));
          candidate.takeBack(move);
          return isLeft;
        })
        .sort((one, other) => one.pain - other.pain);
  }

  // All moves at the first witness: those that end it and most others come first.
  #nextMoves(living, left) {
    const {candidate} = this;
    const ranked = [];
    for (const move of this.#movesAt(living[0])) {
      if (this.#mayNoMore()) return [];
      candidate.make(move);
      if (!this.visited.has(this.#keyFor(left - 1))) {
        const alive = countLiving(living, candidate);
        ranked.push([(living[0].lives(candidate) ? 1e5 : 0) + alive * 16 + move.pain, move]);
      }
      candidate.takeBack(move);
    }
    return ranked.sort(([one], [other]) => one - other).map(([, move]) => move);
  }

  /**
   * Searches from these moves on, within some seconds of work, for so many repairs. Answers whether
   * one was found.
   */
  async within(moves, left, seconds, wanted = 1) {
    const before = this.proposed.size;
    this.candidate.become(moves);
    this.visited = new Set();
    this.until = this.work.seconds + seconds;
    this.isCut = false;
    this.wanted = before + wanted;
    await this.exact(left);
    this.until = Infinity;
    return this.proposed.size > before;
  }

  /**
   * Searches all sets of `count` moves, within some seconds of work. Where none is found and none
   * was left out, that is known then.
   */
  async all(count, seconds, wanted = 1) {
    this.isSure = true;
    const isFound = await this.within([], count, seconds, wanted);
    if (!isFound && !this.isCut && this.isSure && this.proved === count - 1 && this.size > count)
      this.proved = count;
    return isFound;
  }

  /** Leaves out moves that are not needed. */
  async shrink(moves) {
    for (let isGoing = true; isGoing && moves.length > 1;) {
      isGoing = false;
      for (const one of moves) {
        const rest = moves.filter((move) => move !== one);
        this.candidate.become(rest);
        if (!this.candidate.isNeat() || !(await this.evaluate()).isGoal) continue;
        this.record();
        moves = rest;
        isGoing = true;
        break;
      }
    }
    return moves;
  }

  // Puts one move less in the place of `out` of the best repair's.
  async #swap(out, seconds, until) {
    const {best} = this;
    if (!best || best.length <= out || seconds === 0) return false;
    for (const left of combinations(best, best.length - out)) {
      if (this.work.seconds > until) return false;
      if (await this.within(left, out - 1, seconds)) return true;
    }
    return false;
  }

  /**
   * Swaps two moves for one, and three for two, while that succeeds: `two` and `three`
   * seconds of work for each try, `all` together.
   */
  async improve(two, three = 0, all = 1) {
    const until = this.work.seconds + all;
    while (this.best && !this.isDone) {
      if (!(await this.#swap(2, two, until)) && !(await this.#swap(3, three, until))) return;
    }
  }
}

/** How many witnesses refute a candidate. */
export function countLiving(witnesses, candidate) {
  return witnesses.reduce((count, witness) => count + (witness.lives(candidate) ? 1 : 0), 0);
}

// How many witnesses share no line with those before them.
function countApart(witnesses) {
  const used = new Set();
  let count = 0;
  for (const {inLine} of witnesses) {
    const lines = [...inLine.keys()];
    if (lines.some((line) => used.has(line))) continue;
    count++;
    for (const line of lines) used.add(line);
  }
  return count;
}

/** All choices of so many of a list. */
function* combinations(list, count, from = 0) {
  if (count === 0) {
    yield [];
    return;
  }
  for (let at = from; at <= list.length - count; at++) {
    for (const rest of combinations(list, count - 1, at + 1)) yield [list[at], ...rest];
  }
}
