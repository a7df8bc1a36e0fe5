// A goal of which the engine says how far a candidate is: few cells to repaint, or one to give,
// until line logic solves the puzzle and it is met. Such as a grade: the word for how hard that is
// is the wanted one.

import {Candidate} from './board.js';

/** The words of puzzles that line logic solves, the easiest first. */
export const LINE_WORDS = ['easy', 'medium', 'hard'];

const MOST_CELLS = 4;    // that are repainted
const WIDTH = 10;        // candidates gone on from at each step
const MOVES = 60;        // moves tried behind each of them: those that came nearest by themselves
const ENOUGH = 24;       // repaints of more cells found
const FOR_GIVEN = 0.25;  // of the work

// The bounds of docs/SESSION.md. They rank candidates alone: the engine says which word each has.
const BOUNDS = {
  easy: {rounds: 2, wait: 8},
  medium: {rounds: 4, wait: 15}
};

const parts = (bounds, of) => Object.entries(bounds).map(([name, most]) => of(name, most) / most);
const above = (figures, bounds) => parts(
                                       bounds, (name, most) => Math.max(0, figures[name] - most)
).reduce((sum, one) => sum + one, 0);
const below = (figures, bounds) =>
    Math.max(0, Math.min(...parts(bounds, (name, most) => most + 1 - figures[name])));

/**
 * How far what the engine says of a candidate is from a word: 0 where it has it. An open cell is
 * farther than any figure is.
 */
export function farFrom(figures, word) {
  if (figures.open > 0) return 1000 + figures.open;
  if (figures.word === word) return 0;
  const easier = LINE_WORDS[LINE_WORDS.indexOf(word) - 1];
  return (BOUNDS[word] ? above(figures, BOUNDS[word]) : 0) +
      (easier ? below(figures, BOUNDS[easier]) : 0);
}

/** The goal that a puzzle has a word. `grade(cells, givens)` answers for the engine. */
export const wordGoal = (word, grade) => ({
  ask: grade,
  isMet: (figures) => figures.word === word,
  far: (figures) => farFrom(figures, word),
  goesOn: (count) => count === 0
});

/**
 * The search for a goal: `ask(cells, givens)` gives the figures of a candidate, which `isMet`
 * takes, `far`, how far they are from it, and `goesOn(count)`, whether more cells are tried behind
 * so many repaints. `found` hears `{ moves, codes, figures }` of what is repainted, or `{ given }`.
 */
export class Aiming {
  board;
  goal;
  limit;
  found;

  constructor({board, goal, limit, found}) {
    Object.assign(this, {board, goal, limit, found});
    this.candidate = new Candidate(board);
    this.seen = new Set();
    this.count = 0;  // repaints found
  }

  async figuresOf(cells, givens) {
    this.board.work.question(cells);
    this.limit.step();
    return this.goal.ask(cells, givens);
  }

  /**
   * One cell to be given, of those that line logic leaves open: another would not be needed.
   * `path()` gives the places of the cells that fall in the picture.
   */
  async give(path) {
    const {board, goal} = this;
    const falls = new Set(await path());
    const open = [...board.cells.keys()].filter(
        (index) => !falls.has(index) && !board.givens.includes(index)
    );
    for (const index of open) {
      if (!this.limit.isWithin(FOR_GIVEN)) return;
      if (goal.isMet(await this.figuresOf(board.cells, [...board.givens, index])))
        return void this.found({given: [index]});
    }
  }

  // Moves with how far they are from the goal; null where they were tried or are not allowed. What
  // meets it is reported.
  async tried(moves) {
    const {candidate, board, goal} = this;
    candidate.become(moves);
    const isTwice =
        candidate.codes.some((code, at) => at > 0 && code >> 4 === candidate.codes[at - 1] >> 4);
    if (isTwice || candidate.codes.length > MOST_CELLS || this.seen.has(candidate.key) ||
        !candidate.isNeat())
      return null;
    this.seen.add(candidate.key);
    const figures = await this.figuresOf(candidate.cells, board.givens);
    if (goal.isMet(figures)) {
      this.count++;
      this.found({moves: [...moves], codes: [...candidate.codes], figures});
    }
    return {
      moves: [...moves],
      far: goal.far(figures),
      pain: moves.reduce((sum, move) => sum + move.pain, 0)
    };
  }

  /**
   * Repaints of one cell, and while the goal goes on, of one more each time, from those that came
   * nearest; `beginnings` are lists of moves that are tried, too.
   */
  async repaint(beginnings) {
    const moves = [...this.board.moves].sort(
        (one, other) => one.pain - other.pain
    );  // what is seen least first, since the work may end
    let front = [];
    for (const begun of beginnings) front.push(await this.tried(begun));
    const singles = [];
    for (const move of moves) {
      const one = await this.tried([move]);
      if (one) singles.push(one);
    }
    const best = nearest(singles).slice(0, MOVES).map((one) => one.moves[0]);
    front = nearest([...front.filter(Boolean), ...singles]).slice(0, WIDTH);
    for (let step = 1; step < MOST_CELLS && this.goal.goesOn(this.count); step++)
      front = nearest([...await this.further(front, best), ...front]).slice(0, WIDTH);
  }

  // Tries each of some moves behind lists of moves, until it has found enough.
  async further(front, moves) {
    const enough = this.count + ENOUGH;
    const next = [];
    for (const {moves: made} of front) {
      for (const move of moves) {
        if (this.count >= enough) return next;
        const one = made.includes(move) ? null : await this.tried([...made, move]);
        if (one) next.push(one);
      }
    }
    return next;
  }
}

const nearest = (list) => list.sort((one, other) => one.far - other.far || one.pain - other.pain);
