// Colours of the open document: in words, and as the look of an element.

import {make} from '../base/elements.js';
import {verdictName} from '../base/names.js';
import {cssOf, inkOn} from '../document/colours.js';
import {LETTERS} from '../document/limits.js';
import {namesOf} from '../document/names.js';
import {nearPairs} from '../document/near.js';
import {bench} from '../engine/bench.js';
import {phrase} from '../texts/phrase.js';

export const wordOf = (letter) => (letter === '.' ? phrase('view.background') : letter);

/** A colour's name in a document. */
export const inkName = (doc, letter) => namesOf(doc)[LETTERS.indexOf(letter)];

/** A colour's letter and name in the open document. */
export const colourText = (letter) => `${wordOf(letter)}, ${inkName(bench.state, letter)}`;

/** A colour's name with its letter, which tells it from others of that name. */
const letterName = (doc, letter) =>
    (letter === '.' ? phrase('view.theBackground') :
                      phrase('view.nameLetter', {name: inkName(doc, letter), letter}));

/** Two colours by their names and letters. */
export const pairText = (doc, one, other) =>
    phrase('view.andPair', {name: letterName(doc, one), name2: letterName(doc, other)});

/**
 * Colours of a document that a solver may take for one another, in words; '' where there are none.
 */
export function nearText(doc) {
  const pairs = nearPairs(doc).map(([one, other]) => pairText(doc, one, other));
  if (!pairs.length) return '';
  const more = pairs.length > 2 ? [phrase('import.morePairs', {pairs: pairs.length - 2})] : [];
  return `${phrase('import.lookAlike')} ${[...pairs.slice(0, 2), ...more].join('; ')}.`;
}

// What the engine finds wrong with a puzzle, in words.
function flawText(doc, {kind, letters, place}) {
  if (kind === 'alike')
    return phrase(
        'view.flawAlike', {name: letterName(doc, letters[0]), name2: letterName(doc, letters[1])}
    );
  if (kind === 'blank') return phrase('view.flawBlank');
  if (kind === 'background') return phrase('view.flawBackground');
  return phrase(
      'view.flawGiven', {place: phrase('view.placeOfCell', {value: place[0], columns: place[1]})}
  );
}

/** Whether a puzzle is fit to be published, and what is wrong with it. */
export function fitText(doc, {fit, flaws}) {
  if (fit) return phrase('view.publishYes');
  return flaws.length ?
      phrase('view.publishNoAs', {flaws: flaws.map((flaw) => flawText(doc, flaw)).join('; ')}) :
      phrase('view.publishNo');
}

/** Why a puzzle is not fit to be published: its first flaw, or else the verdict. */
export const unfitText = (doc, {verdict, flaws}) =>
    (flaws.length ? flawText(doc, flaws[0]) : verdictName(verdict));

/** A colour of a document by its swatch and its name. */
export function swatchChip(doc, letter) {
  const chip = make(
      'span',
      {class: 'swatch-chip'},
      make('span', {class: 'swatch', 'aria-hidden': 'true'}),
      inkName(doc, letter)
  );
  chip.firstChild.style.background = cssOf(doc.colours[LETTERS.indexOf(letter)], doc.maxval);
  return chip;
}

/** Gives an element the colour of a letter, in the open document or another. */
export function dress(element, letter, {colours, maxval} = bench.state) {
  const triple = colours[LETTERS.indexOf(letter)];
  element.style.backgroundColor = cssOf(triple, maxval);
  element.style.color = inkOn(triple, maxval);
}
