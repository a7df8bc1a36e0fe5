// How far a candidate is from the goal: by questions to the session, or by line logic.

import {Narrowing} from './narrowing.js';
import {witnessesOf} from './witness.js';

/** What is known of a candidate: whether it meets the goal, and if not, how far it is from it. */
const findingOf = (facts) => ({
  isGoal: false,
  isUndecided: false,
  open: 0,
  differing: 0,
  witnesses: [],
  openCells: [],
  ...facts
});

/**
 * Judges candidates: for the goal 'unique' by questions, for 'lines' by line logic, and by a
 * question where that says yes.
 */
export class Judge {
  /** `pins` are cells that are given besides those of the session's picture. */
  constructor(asker, goal, pins = new Set()) {
    this.asker = asker;
    this.goal = goal;
    this.pins = pins;
  }

  async judge(candidate) {
    return this.goal === 'lines' ? this.#byLines(candidate) : this.#byQuestion(candidate);
  }

  async #byQuestion(candidate) {
    const {word, open, map, other} = await this.asker.ask(candidate.cells, this.pins);
    if (word === 'unique') return findingOf({isGoal: true, open});
    const openCells = [...map.join('')].flatMap((letter, index) => (letter === '?' ? [index] : []));
    if (word === 'undecided') return findingOf({isUndecided: true, open, openCells});
    const values =
        other.map((colour, index) => (colour === candidate.cells[index] ? 0 : colour + 1));
    const differing = values.reduce((count, value) => count + (value ? 1 : 0), 0);
    return findingOf({open, openCells, differing, witnesses: witnessesOf(candidate, values, false)}
    );
  }

  async #byLines(candidate) {
    const narrowing = this.settle(candidate);
    const openCells = narrowing.openCells();
    if (openCells.length === 0)
      return findingOf({isGoal: await this.asker.isSolved(candidate.cells, this.pins)});
    const values = new Uint16Array(narrowing.masks.length);
    for (const index of openCells) values[index] = narrowing.masks[index];
    return findingOf({
      open: openCells.length,
      openCells,
      differing: openCells.length,
      witnesses: witnessesOf(candidate, values, true)
    });
  }

  /** Where line logic ends for a candidate. */
  settle(candidate) {
    return new Narrowing(
               candidate.board, {cells: candidate.cells, clues: candidate.allClues()}
    ).settle();
  }
}
