// What a search may do: counted in cells that it looks at, so that what it finds depends on the
// picture alone, never on how busy the machine is.

const IN_A_SECOND = 2e7;  // that a quiet processor looks at, about
const OF_STEP = 100;      // as long as so many cells takes a step of a search
const OF_WITNESS = 80;    // .. and a witness that is compared with a candidate
const OF_QUESTION = 25;   // .. and the engine, for each cell of a picture that it is asked about

/** An allowance is spent. */
export class SpentError extends Error {}

/** What has been done on a board so far. */
export class Work {
  #cells = 0;

  /** About the seconds that a quiet processor takes for it. */
  get seconds() {
    return this.#cells / IN_A_SECOND;
  }

  step() {
    this.#cells += OF_STEP;
  }

  witness() {
    this.#cells += OF_WITNESS;
  }

  /** A line is looked at for each of its blocks. */
  line(size, clue) {
    this.#cells += size * (1 + clue.lengths.length);
  }

  question(picture) {
    this.#cells += OF_QUESTION * picture.length;
  }
}

/** A search may do so much more on a board as a quiet processor does in some seconds. */
export class Allowance {
  constructor(work, seconds) {
    this.work = work;
    this.seconds = seconds;
    this.from = work.seconds;
  }

  /** Whether less than a part of it is spent. */
  isWithin(part) {
    return this.work.seconds - this.from < part * this.seconds;
  }

  /** A step of a search, which ends it if nothing is left. */
  step() {
    this.work.step();
    if (!this.isWithin(1)) throw new SpentError();
  }
}
