// The solving path of a puzzle, as the engine tells it: its looks at lines, and where these end
// before the picture does, a cell that is guessed. The guess is the first split of a certificate:
// any other colour there leads nowhere.

import {phrase} from '../texts/phrase.js';
import {searches, secondsChosen} from '../view/verdict.js';
import {marksOf} from './crossing.js';

/**
 * The path: steps with what is known of each cell after so many of them. A step is a look of the
 * engine, `{ line, round, falls: [{ index, letter }], stands, needs: [{ index, letters }] }`; of a
 * guess the line is null.
 */
export class Walk {
  constructor(state, steps = []) {
    this.state = state;
    this.steps = steps;
    this.isWhole = false;
    this.falls = new Map(steps.flatMap(({round, falls}) => falls.map(({index}) => [index, round])));
  }

  /** The letters of the cells after so many steps, '?' where several are left. */
  letters(count) {
    const letters = marksOf(this.state).flat();
    for (const {falls} of this.steps.slice(0, count))
      for (const {index, letter} of falls) letters[index] = letter;
    return letters;
  }

  /**
   * The number of the hardest step, counted from 1: the first guess; else of those that settle
   * cells of a line whose blocks do not all stand yet, the first that needs most of it.
   */
  get hardest() {
    const guess = this.steps.findIndex(({line}) => line === null);
    if (guess >= 0) return guess + 1;
    const counts =
        this.steps.map(({falls, stands, needs}) => (falls.length && !stands ? needs.length : -1));
    return counts.indexOf(Math.max(...counts)) + 1;
  }

  /**
   * The round of line logic in which each cell falls, from 1; 0 where it was settled at the start,
   * -1 where it needs a guess.
   */
  get rounds() {
    return this.state.map.join('').split(''
    ).map((letter, index) => (letter === '?' ? -1 : this.falls.get(index) ?? 0));
  }
}

// Steps of the path of a copy's picture with its givens and guesses, without the cells that are
// known already.
async function looksOf(copy, known) {
  const [{looks, open}] = await copy.say('path');
  const steps =
      looks.map((look) => ({...look, falls: look.falls.filter(({index}) => !known.has(index))}));
  return {open, steps: known.size ? steps.filter(({falls}) => falls.length) : steps};
}

// A cell that is guessed in a copy's picture, which gives it from here on.
async function guessed(copy, {picture, columns}) {
  const [{text}] = await copy.say('certify');
  const [row, column] = /^split (\d+) (\d+)$/m.exec(text).slice(1).map(Number);
  copy.changes();
  await copy.say(`pin ${row} ${column}`);
  return {
    line: null,
    round: -1,
    falls: [{index: (row - 1) * columns + column - 1, letter: picture[row - 1][column - 1]}],
    stands: false,
    needs: []
  };
}

/**
 * The path through a state's puzzle; `report` hears it as far as it is known. Null where nothing is
 * known of it. A search without a name gives way to all others.
 */
export async function pathOf(
    state, report = null, {name = phrase('play.walkThrough'), seconds = secondsChosen()} = {}
) {
  return searches.job(name, seconds, async (copy) => {
    const known = new Set();
    let walk = new Walk(state);
    const add = (steps) => {
      for (const {falls} of steps)
        for (const {index} of falls) known.add(index);
      walk = copy.found = new Walk(state, [...walk.steps, ...steps]);
    };
    for (;;) {
      const {open, steps} = await looksOf(copy, known);
      add(steps);
      walk.isWhole = open === 0 || state.verdict.word !== 'unique';
      report?.(walk);
      if (walk.isWhole) return walk;
      add([await guessed(copy, state)]);
    }
  });
}
