// What a site publishes beside a picture, as nonobench-audit reads it: NAME.givens, the cells that
// are revealed with the puzzle, and NAME.background.

import {withoutSpace} from '../base/words.js';
import {eightBits} from '../document/colours.js';
import {FileFault} from '../document/limits.js';
import {phrase} from '../texts/phrase.js';

/**
 * The places of the cells of a file of givens in a picture of that size: a line `given R C` each,
 * none twice. A line may end with CR LF.
 */
export function readGivens(text, {rows, columns}) {
  const found = new Set();
  for (const [at, line] of text.replace(/\n$/, '').split('\n').entries()) {
    if (!text) break;
    const [, row, column] =
        (/^given (0|[1-9][0-9]{0,2}) (0|[1-9][0-9]{0,2})\r?$/.exec(line) ?? []).map(Number);
    if (row === undefined) throw new FileFault(phrase('formats.lineNoGiven', {line: at + 1}));
    if (row < 1 || row > rows || column < 1 || column > columns)
      throw new FileFault(phrase('formats.givenOutside', {row, column}));
    const place = (row - 1) * columns + column - 1;
    if (found.has(place)) throw new FileFault(phrase('formats.givenTwice', {line: at + 1}));
    found.add(place);
  }
  return found;
}

/**
 * The background that a text names: white, or R,G,B. It is a function, which gives the triple of
 * eight bits for an image whose samples go up to `maxval`. An empty text names none.
 */
export function readGround(text) {
  const word = withoutSpace(text);
  const triple = /^[0-9]{1,5}(,[0-9]{1,5}){2}$/.test(word) ? word.split(',').map(Number) : null;
  if (!triple && word !== 'white') throw new FileFault(phrase('formats.noBackground'));
  return (_image, maxval) => {
    if (triple && Math.max(...triple) > maxval)
      throw new FileFault(phrase('formats.backgroundOver', {maxval}));
    return triple ? eightBits(triple, maxval) : [255, 255, 255];
  };
}
