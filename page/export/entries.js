// What sheets say of a puzzle: its clues, title, facts, and the names of its colours.

import {gradeName, gradeRank} from '../base/names.js';
import {sizeText} from '../base/words.js';
import {plainHexOf} from '../document/colours.js';
import {eightBitDoc} from '../document/document.js';
import {LETTERS} from '../document/limits.js';
import {namesOf} from '../document/names.js';
import {withoutUnused} from '../document/used.js';
import {hasOneInk, shownAs, signsOf} from '../draw/papers.js';
import {LANGUAGE, phrase} from '../texts/phrase.js';

/** In which order the puzzles of a book come. */
const ORDERS = {
  grade: (one, other) => placeOfGrade(one) - placeOfGrade(other) || byName(one, other),
  name: byName,
  hand: () => 0
};

// What has no grade that is known comes last.
function placeOfGrade({grade}) {
  const at = gradeRank(grade);
  return at < 0 ? Infinity : at;
}

// Names as they are called in the library: "2 cat" before "10 dog".
function byName(one, other) {
  return one.name.localeCompare(other.name, LANGUAGE, {numeric: true});
}

/**
 * Puzzles in the order of a book: by 'grade', the easiest first, by 'name', or by 'hand', as they
 * come. Where there are several, each gets its number.
 */
export const inOrder = (puzzles, order) => [...puzzles].sort(ORDERS[order]
).map((one, at) => ({...one, number: puzzles.length > 1 ? at + 1 : null}));

/** The texts of sheets themselves. */
export const SHEET_TEXTS = {
  part: ({at, count, top, bottom, left, right}) => phrase(
      'export.sheetRowsColumns',
      {at, count, top: top + 1, bottom: bottom + 1, left: left + 1, right: right + 1}
  ),
  solution: ({title, number}) =>
      (number ? phrase('export.solutionNumber', {number, title}) :
                phrase('export.solution', {title})),
  foot: (at, count) => `${at} / ${count}`,
};

/**
 * The colours that are drawn, with what stands for them, and the background where it is not white.
 */
export function legendOf(doc, wished) {
  const show = shownAs(doc, wished);
  const {colours} = eightBitDoc(doc);
  const names = namesOf(doc);
  const signs = show === 'signs' ? signsOf(doc) : LETTERS;
  const isUsed = (at) => doc.picture.some((row) => row.includes(LETTERS[at]));
  const all = colours.map((triple, at) => ({
                            text: names[at],
                            fill: `#${plainHexOf(triple)}`,
                            sign: show === 'colours' ? null : signs[at]
                          }));
  const inks = all.filter((_, at) => at > 0 && isUsed(at));
  const isPlain =
      hasOneInk(doc) && show === 'colours' && inks.every(({fill}) => fill === '#000000');
  const background = all[0].fill === '#ffffff' ?
      [] :
      [{...all[0], text: phrase('export.background', {names: names[0]}), sign: null}];
  return [...(isPlain ? [] : inks), ...background];
}

function factsOf(doc, grade) {
  const given = doc.givens.size ? `${phrase('import.given', {cells: doc.givens.size})} (◆)` : '';
  return [
    sizeText(doc),
    given,
    grade,
    doc.about.author ? phrase('export.by', {author: doc.about.author}) : ''
  ].filter(Boolean
  ).join(', ');
}

// What stands above a puzzle: its title, or what gives nothing away, its number.
function headOf(title, number, head) {
  if (head === 'titles') return title;
  return number ? phrase('export.puzzleNumber', {number}) : phrase('play.puzzle');
}

/**
 * What is printed of a document and its clues, which the engine told. `head` says what stands above
 * it, 'titles' or 'numbers'; `number` is its number in a book, null where it is the only one.
 */
export function entryOf(
    {name, grade = null, number = null, ...puzzle}, {show, hasGrade, head = 'numbers'}
) {
  const {doc, clues} = withoutUnused(puzzle.doc, puzzle.clues);
  return {
    doc,
    clues,
    title: doc.about.title || name,
    number,
    head: headOf(doc.about.title || name, number, head),
    facts: factsOf(doc, hasGrade && grade ? gradeName(grade) : null),
    legend: legendOf(doc, show)
  };
}
