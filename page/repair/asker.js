// Questions to the proved session about candidates of a picture: what line logic leaves, and
// whether another picture has the clues.

import {LETTERS, cellsOf} from './board.js';

const ALLOWANCE = 300;  // that bounds the search behind each question

/** Memory ran out, or the session is not that of the picture. */
class AskError extends Error {}

/**
 * Asks a session that shows the board's picture. `say` gives the session's text for lines, or a
 * promise of it. The session's picture goes from one candidate to the next, and is the board's
 * again after `restore`.
 */
export class Asker {
  constructor(board, say) {
    this.board = board;
    this.say = say;
    this.shown = board.cells.slice();
    this.pinned = new Set();
  }

  // The lines that make the session's picture the candidate, with these cells given besides the
  // board's givens.
  #changes(cells, pins) {
    const {columns} = this.board;
    const place = (index) => `${Math.floor(index / columns) + 1} ${(index % columns) + 1}`;
    const lines = [];
    for (const index of this.pinned)
      if (!pins.has(index)) lines.push(`unpin ${place(index)}`);
    for (let index = 0; index < cells.length; index++)
      if (cells[index] !== this.shown[index])
        lines.push(`paint ${place(index)} ${LETTERS[cells[index]]}`);
    for (const index of pins)
      if (!this.pinned.has(index)) lines.push(`pin ${place(index)}`);
    return lines;
  }

  /**
   * What the session says of a picture's cells, where `pins` are given too: `{ word, open, map,
   * other }`, `other` a second picture's cells or null.
   */
  async ask(cells, pins = new Set()) {
    const lines = this.#changes(cells, pins);
    this.board.work.question(cells);
    const text = await this.say([...lines, `allow ${ALLOWANCE}`, 'map', 'verdict']);
    this.shown.set(cells);
    this.pinned = new Set(pins);
    return this.#read(text, lines.length + 1);
  }

  /** Whether the session says that line logic solves a picture where `pins` are given too. */
  async isSolved(cells, pins) {
    const {word, open} = await this.ask(cells, pins);
    return word === 'unique' && open === 0;
  }

  #read(text, oks) {
    const {rows} = this.board;
    const lines = text.split('\n');
    for (let at = 0; at < oks; at++)
      if (lines[at] !== 'ok') throw new AskError(lines[at]);
    const map = lines.slice(oks, oks + rows);
    const [word, ...rest] = lines.slice(oks + rows);
    const kind = word.split(' ')[0];
    if (!['unique', 'ambiguous', 'undecided'].includes(kind)) throw new AskError(word);
    const open = map.reduce((sum, row) => sum + row.split('?').length - 1, 0);
    return {
      word: kind,
      open,
      map,
      other: kind === 'ambiguous' ? cellsOf(rest.slice(0, rows)) : null
    };
  }

  /** Makes the session's picture the board's again. */
  async restore() {
    const lines = this.#changes(this.board.cells, new Set());
    if (lines.length > 0) await this.say(lines);
    this.shown.set(this.board.cells);
    this.pinned = new Set();
  }
}
