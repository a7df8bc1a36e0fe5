// A document with the colours that its puzzle has: those of cells, and the background. What is
// handed to others has no other ones.

import {LETTERS} from './limits.js';

/** The letters that cells have, in the order of the palette, without the background. */
export const usedLetters = ({colours, picture}) => {
  const cells = picture.join('');
  return [...LETTERS.slice(1, colours.length)].filter((letter) => cells.includes(letter));
};

/** Whether a document has colours that its puzzle has not. */
export const hasUnused = (doc) => usedLetters(doc).length < doc.colours.length - 1;

/**
 * A document and its clues without the colours that neither a cell nor a clue has; the others keep
 * their order. One with further solutions keeps all, as these may have them.
 */
export function withoutUnused(doc, clues = null) {
  if (!hasUnused(doc) || doc.extras?.solutions?.length) return {doc, clues};
  const blocks = clues ? [...clues.rows, ...clues.columns].flat() : [];
  const used = new Set([...usedLetters(doc), ...blocks.map(({letter}) => letter)]);
  const letters = [...LETTERS].filter((letter) => letter === '.' || used.has(letter));
  const places = letters.map((letter) => LETTERS.indexOf(letter));
  const named = (letter) => LETTERS[letters.indexOf(letter)];
  const ofAxis = (lines) =>
      lines.map((blocks) => blocks.map((block) => ({...block, letter: named(block.letter)})));
  return {
    doc: {
      ...doc,
      colours: places.map((at) => doc.colours[at]),
      inks: doc.inks?.length ? places.map((at) => doc.inks[at] ?? {}) : doc.inks,
      picture: doc.picture.map((row) => [...row].map(named).join(''))
    },
    clues: clues &&
        {
          rows: ofAxis(clues.rows), columns: ofAxis(clues.columns)
        }
  };
}
