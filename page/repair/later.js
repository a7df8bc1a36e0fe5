// When a part of a picture is known on the path of line logic, and a goal: that it is known later.

const LEAST = 2;        // percent of the path: less is not seen
const UNSOLVED = 1000;  // farther than any share is

/**
 * After how many steps half of some places is known: 0 where `known` has it from the start,
 * Infinity where the path leaves more open. Steps are looks of the engine, or guesses.
 */
export function stepHalfKnown(steps, places, known) {
  const until = new Map([...known].map((index) => [index, 0]));
  steps.forEach(({falls}, at) => {
    for (const {index} of falls) until.set(index, at + 1);
  });
  const sorted = [...places].map(
                                (place) => until.get(place) ?? Infinity
  ).sort((one, other) => (one > other ? 1 : -1));
  return sorted[Math.ceil(sorted.length / 2) - 1];
}

/** The share of a path's steps that so many of them make, in percent. */
export const shareOf = (steps, at) => (steps.length ? Math.round((100 * at) / steps.length) : 100);

/**
 * The goal that half of some places is known later than at a `share` of the path, and that lines
 * solve the puzzle. `path(cells)` answers for the engine: `{ looks, open }`.
 */
export class Later {
  constructor({places, givens, path}) {
    this.places = places;
    this.givens = givens;
    this.path = path;
    this.share = 0;
    this.latest = 0;
  }

  /** How many cells of a picture stay open, and at which share half of the places is known. */
  async ask(cells) {
    const {looks, open} = await this.path(cells);
    return {open, share: shareOf(looks, stepHalfKnown(looks, this.places, this.givens))};
  }

  isMet({open, share}) {
    if (open > 0 || share < this.share + LEAST) return false;
    this.latest = Math.max(this.latest, share);
    return true;
  }

  far({open, share}) {
    return open > 0 ? UNSOLVED + open : 100 - share;
  }

  /** More cells are worth it if it is known later by them than by fewer. */
  goesOn() {
    this.share = Math.max(this.share, this.latest);
    return true;
  }
}
