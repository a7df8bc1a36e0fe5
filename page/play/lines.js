// The lines of a puzzle, rows first: their cells and the blocks of their clues; and what looks of
// the engine leave to crossing lines.

import {LETTERS} from '../document/limits.js';
import {MOST_CELLS, narrow} from '../repair/lines.js';

/** The places of a line's cells; rows come first. */
export const cellsOf = ({rows, columns}, line) =>
    (line < rows ? Array.from({length: columns}, (_, at) => line * columns + at) :
                   Array.from({length: rows}, (_, at) => at * columns + line - rows));

/** The blocks of a line's clue. */
export const blocksOf = ({rows, clues}, line) =>
    (line < rows ? clues.rows[line] : clues.columns[line - rows]);

/** All lines of a puzzle, rows first. */
export const linesOf = ({rows, columns}) => [...Array(rows + columns).keys()];

const ANY = 0xffff;  // a mask of all colours
const maskOf =
    (letters) => [...letters].reduce((mask, letter) => mask | (1 << LETTERS.indexOf(letter)), 0);
const isOne = (mask) => (mask & (mask - 1)) === 0;
const left = new Uint16Array(MOST_CELLS);

/**
 * The cells that a look settles since crossing lines had excluded colours there. What it needs, as
 * the engine says, is enough for what it excludes; in such a cell it excludes only the rest.
 */
export function narrowedBefore(state, {line, falls, needs}) {
  const cells = cellsOf(state, line);
  const masks = cells.map(() => ANY);
  for (const {index, letters} of needs) masks[cells.indexOf(index)] = maskOf(letters);
  const blocks = blocksOf(state, line);
  const clue = {
    lengths: blocks.map(({length}) => length),
    colours: blocks.map(({letter}) => LETTERS.indexOf(letter))
  };
  narrow(masks, cells.length, clue, left);
  return falls.map(({index}) => index).filter((index) => !isOne(left[cells.indexOf(index)]));
}
