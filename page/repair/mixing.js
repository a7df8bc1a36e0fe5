// Repairs that repaint some cells and give others: what came near by few repaints is ended by few
// givens.

import {Giving, fewForLines} from './givens.js';

const MOST_REPAINTED = 4;  // of a mixture
const MOST_OF_A_SIZE = 3;  // beginnings of each size

/** The candidates of few changes that came nearest to the goal, so many of each size. */
export class Nearest {
  #bySize = new Map();

  /** Notes one: `far` is how far it is from the goal. */
  note(proposal, far) {
    const size = proposal.cells.length;
    if (size > MOST_REPAINTED) return;
    const list = this.#bySize.get(size) ?? [];
    const isSame = (one) => one.cells.every(
        ({index, colour}, at) =>
            index === proposal.cells[at].index && colour === proposal.cells[at].colour
    );
    if (list.some(isSame)) return;
    list.push({...proposal, far});
    list.sort((one, other) => one.far - other.far || one.pain - other.pain);
    this.#bySize.set(size, list.slice(0, MOST_OF_A_SIZE));
  }

  /** The fewest changes first. */
  get all() {
    return [...this.#bySize].sort(([one], [other]) => one - other).flatMap(([, list]) => list);
  }
}

/**
 * Looks for cells to give behind each of the beginnings, such that both together are fewer than
 * `bound`, and fewer each time one is found. `found` hears `{ goal, cells, given, pain }`.
 */
export async function mixAll({board, goal, beginnings, bound, asker, limit}, found) {
  let most = bound;
  for (const {cells, pain} of beginnings) {
    const left = most - cells.length;
    if (left < 2) continue;
    const painted = board.painted(cells);
    const given = goal === 'lines' ?
        await fewForLines(painted, asker, limit, left) :
        (await new Giving(painted, asker, limit, {}).fewest(left)).given;
    if (!given || given.length === 0) continue;
    most = cells.length + given.length;
    found({goal, cells, given, pain});
  }
}
