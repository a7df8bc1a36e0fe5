// What the engine says of documents that are not open, one after the other, in a worker of their
// own; and their repairs: the fewest cells to repaint until no guessing is needed, else until there
// is one solution.

import {baseOf, painted} from '../document/cover.js';
import {docOf, pageOf} from '../document/document.js';
import {boardFields} from '../repair/board.js';
import {assessed} from './assessing.js';
import {startEngine} from './client.js';
import {openedIn} from './opening.js';

/** What is said of a document that took too long, or whose engine failed; `isLate` says which. */
const LATE = {
  verdict: 'undecided',
  grade: null,
  flaws: [],
  fit: false,
  text: ''
};

/**
 * Judges documents, each within some seconds. A search that takes longer ends with its worker, and
 * another one goes on.
 */
export class Judge {
  constructor({seconds, start = startEngine}) {
    this.seconds = seconds;
    this.start = start;
    /** @type {any} */
    this.engine = null;
    this.isEnded = false;
  }

  /** What the engine says of a document, as `assessed` has it. Null where it was ended. */
  async judge(doc) {
    if (this.isEnded) return null;
    this.engine ??= this.start();
    const {engine} = this;
    let isLate = false;
    const late = setTimeout(() => {
      isLate = true;
      this.discard(engine);
    }, this.seconds * 1000);
    try {
      const found = await assessed(engine, doc);
      return this.isEnded ? null : found;
    } catch (fault) {
      this.discard(engine);
      if (fault.kind !== 'ended') throw fault;
      return this.isEnded ? null : {...LATE, isLate};
    } finally {
      clearTimeout(late);
    }
  }

  discard(engine) {
    engine.end();
    if (this.engine === engine) this.engine = null;
  }

  /** Ends what runs. */
  end() {
    this.isEnded = true;
    if (this.engine) this.discard(this.engine);
  }
}

// Of repairs of one size and pain that one counts whose places and colours come first.
const ranksOf =
    ({cells, pain}) => [cells.length, pain, ...cells.map(({index, colour}) => index * 16 + colour)];
const isBetter = (one, other) =>
    !other || ranksOf(one).map((rank, at) => rank - ranksOf(other)[at]).find(Boolean) < 0;

const MEND = 3;  // seconds of work for a search of repairs

/** Repairs documents. */
export class Mender {
  constructor({start = startEngine} = {}) {
    this.engine = start();
  }

  /**
   * A document repaired, and how many cells were repainted: `{ doc, cells }`; null where nothing
   * was found.
   */
  async mend(doc) {
    const state = await openedIn(this.engine, baseOf(doc), pageOf(doc));
    for (const goal of ['lines', 'unique']) {
      /** @type {any} */
      let best = null;
      await this.engine
          .call('repair', {board: boardFields(state), goal, seconds: MEND}, ({found}) => {
            if (found && isBetter(found, best)) best = found;
          });
      if (best)
        return {
          doc: {...docOf(state), picture: painted(state.picture, best.cells)},
          cells: best.cells.length
        };
    }
    return null;
  }

  /** Ends what runs. */
  end() {
    this.engine.end('stopped');
  }
}
