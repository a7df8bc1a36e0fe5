// Verdicts and grades in words: what they are named inside, in the language of the page.

import {phrase} from '../texts/phrase.js';
import {capital} from './words.js';

/** @type {Record<string, import('../texts/phrase.js').PlainPhrase>} */
const GRADE_NAMES = {
  __proto__: null,
  easy: 'base.easy',
  medium: 'base.medium',
  hard: 'base.hard',
  'very-hard': 'base.veryHard',
  expert: 'base.expert'
};
/** @type {Record<string, import('../texts/phrase.js').PlainPhrase>} */
const VERDICTS = {
  __proto__: null,
  unique: 'base.unique',
  ambiguous: 'base.ambiguous',
  undecided: 'base.undecided'
};

// A library of earlier versions has the word with a blank.
const keyOf = (word) => word?.replace(' ', '-');

/** How many grades there are. */
export const GRADES = Object.keys(GRADE_NAMES).length;

/** A grade in words, as a library or a sheet shows it. */
export const gradeName = (word) =>
    (GRADE_NAMES[keyOf(word)] ? phrase(GRADE_NAMES[keyOf(word)]) : word);

/**
 * The place of a grade among all, the easiest first, and of a verdict; below 0 for what is none.
 */
export const gradeRank = (word) => Object.keys(GRADE_NAMES).indexOf(keyOf(word));
export const verdictRank = (word) => Object.keys(VERDICTS).indexOf(word);

/** A verdict in words; what is none stays as it is. */
export const verdictName = (word) => (VERDICTS[word] ? phrase(VERDICTS[word]) : word);

/** A verdict as a title. */
export const verdictTitle = (word) => capital(verdictName(word));

/**
 * The grade in one line, for a description, and what such a line begins with, in this language or
 * as pages before wrote it.
 */
export const gradeLine = (word) => phrase('export.gradeLine', {word: gradeName(word)});
export const isGradeLine = (line) =>
    line.startsWith('Grade: ') || line.startsWith(phrase('export.gradeLine', {word: ''}));
