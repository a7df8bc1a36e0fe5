// What the engine says of a document: its verdict, its grade, its flaws, and whether it is fit to
// be published.

import {LETTERS} from '../document/limits.js';

/**
 * A document as a P3 text without notes, and the letters that its colours have there: the
 * background, and the others as they appear.
 */
export function plainOf({rows, columns, maxval, colours, picture}) {
  const flat = picture.join('');
  const letters = [...new Set(`.${flat}`)];
  const triples = [...flat].map((letter) => colours[LETTERS.indexOf(letter)].join(' '));
  return {text: `P3\n${columns} ${rows}\n${maxval}\n${triples.join('\n')}\n`, letters};
}

/**
 * Asks an engine for what it says of a document, as web/nonobench.mjs gives it, in the letters of
 * the document.
 */
export async function assessed(engine, doc) {
  const {text, letters} = plainOf(doc);
  const published = [...doc.givens].map(
      (index) => [Math.floor(index / doc.columns) + 1, (index % doc.columns) + 1]
  );
  const options = {
    background: doc.colours[0].join(','),
    published,
    allowance: 'off',  // the time is bounded
    format: 'ppm'
  };
  const found = await engine.call('assess', {puzzle: text, options});
  const own = (text) => Array.from(text, (letter) => letters[LETTERS.indexOf(letter)]);
  const flaws = found.flaws.map(
                               (flaw) => flaw.split(' ')
  ).map(([kind, ...words]) => (kind === 'alike' ? {kind, letters: own(words).sort()} : {
          kind,
          place: words.map(Number)
        }));
  return {...found, flaws, other: found.other?.map((row) => own(row).join('')) ?? null};
}

/** The grade of what an engine said, or null where it has none that is known. */
export const gradeIn = ({grade}) => (grade?.word === 'unknown' ? null : grade);
