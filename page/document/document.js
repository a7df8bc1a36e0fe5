// Documents: what the module holds, and what the page alone keeps beside it.
//
// {rows, columns, maxval, colours: [[r, g, b]], picture: [row of letters], givens: Set of places}
// is the module's part. The page's part is {about: texts by name, inks: [{name, sign, locked}]
// beside the colours, locks: Set of places that no repair may paint, extras: what else an XML
// puzzle had, or null}. A place is row * columns + column, both from 0.

import {phrase} from '../texts/phrase.js';
import {eightBits} from './colours.js';
import {FileFault, LETTERS, MOST_CELLS, MOST_COLOURS, MOST_NAME} from './limits.js';

const NONE = Object.freeze(new Set());
const ABOUT_LIMIT = 100000;  // signs of a text

/** The texts about a puzzle, as Web Paint-by-Number names them. */
export const ABOUT =
    ['title', 'author', 'authorid', 'copyright', 'description', 'id', 'source', 'note'];

/**
 * What the page alone keeps of a document.
 * @param {any} value
 */
export const pageOf = ({about = {}, inks = [], locks = NONE, extras = null}) =>
    ({about, inks, locks, extras});

/** What the module holds of a document. */
const benchPartOf = ({rows, columns, maxval, colours, picture, givens}) =>
    ({rows, columns, maxval, colours, picture, givens});

/** The document alone of a value that has more, a state for one. */
export const docOf = (value) => ({...benchPartOf(value), ...pageOf(value)});

export const rowOf = (doc, place) => Math.floor(place / doc.columns);
export const columnOf = (doc, place) => place % doc.columns;

/** A place as commands name it: row and column from 1. */
export const placeOf = (doc, place) => `${rowOf(doc, place) + 1} ${columnOf(doc, place) + 1}`;

const sameSet = (one, other) =>
    one === other || (one.size === other.size && [...one].every((place) => other.has(place)));
/** Whether two plain values are the same. */
export const sameValue = (one, other) =>
    one === other || JSON.stringify(one) === JSON.stringify(other);

/** Whether the module's part of two documents is the same. */
export function sameBenchPart(one, other) {
  return one.rows === other.rows && one.columns === other.columns && one.maxval === other.maxval &&
      one.colours.join(';') === other.colours.join(';') &&
      one.picture.every((row, at) => row === other.picture[at]) &&
      sameSet(one.givens, other.givens);
}

/** Whether two documents are the same. */
export function sameDoc(one, other) {
  const [page, wanted] = [pageOf(one), pageOf(other)];
  return sameBenchPart(one, other) && sameSet(page.locks, wanted.locks) &&
      sameValue(sortedAbout(page.about), sortedAbout(wanted.about)) &&
      sameValue(namedInks(one), namedInks(other)) && sameValue(page.extras, wanted.extras);
}

const sortedAbout = (about) => ABOUT.map((name) => about[name] ?? '');
const namedInks = ({colours, inks = []}) =>
    colours.map((_, at) => [inks[at]?.name ?? '', inks[at]?.sign ?? '', Boolean(inks[at]?.locked)]);

/** A picture of background alone, with one colour to draw with. */
export function emptyDoc(columns, rows, background = [255, 255, 255]) {
  const ink = background[0] + background[1] + background[2] > 240 ? [0, 0, 0] : [255, 255, 255];
  return docOf({
    rows,
    columns,
    maxval: 255,
    colours: [background, ink],
    picture: Array(rows).fill('.'.repeat(columns)),
    givens: new Set()
  });
}

/**
 * The runs of a picture's rows and columns, as blocks. Clues that leave the page come from the
 * engine alone.
 */
export function runsOf({picture}) {
  const runsIn = (letters) =>
      (letters.match(/([a-o])\1*/g) ?? []).map((run) => ({length: run.length, letter: run[0]}));
  return {
    rows: picture.map(runsIn),
    columns: [...picture[0]].map((_, col) => runsIn(picture.map((row) => row[col]).join('')))
  };
}

/** A document with 8-bit triples, as files out of the page have them. */
export function eightBitDoc(doc) {
  return {
    ...docOf(doc),
    maxval: 255,
    colours: doc.maxval === 255 ? doc.colours :
                                  doc.colours.map((triple) => eightBits(triple, doc.maxval))
  };
}

/**
 * Whether a document has locked cells or colours, and the document without: they are the state of
 * work on it, not of the puzzle.
 */
export const isLocked = ({locks, inks}) => locks.size > 0 || inks.some((ink) => ink?.locked);
export const unlocked = (doc) =>
    ({...doc, locks: NONE, inks: doc.inks.map(({locked: _, ...ink}) => ink)});

/** A document as a plain value, which any shelf keeps. */
export const packedDoc = (doc) =>
    ({...docOf(doc), givens: [...doc.givens], locks: [...(doc.locks ?? [])]});

const must = (holds, what) => {
  if (!holds) throw new FileFault(what);
};
const isWhole = (number, least, most) =>
    Number.isInteger(number) && number >= least && number <= most;
const isText = (text, most) => typeof text === 'string' && text.length <= most;

/**
 * Refuses what no bench would open, as a file or the browser's storage may hold it; else the
 * document of a plain value.
 */
export function unpackedDoc(value) {
  must(
      value && isWhole(value.columns, 1, MOST_CELLS) && isWhole(value.rows, 1, MOST_CELLS),
      phrase('document.puzzle1RowsColumns', {most: MOST_CELLS})
  );
  const {columns, rows, maxval, colours, picture} = value;
  must(isWhole(maxval, 1, 65535), phrase('document.maxvalPuzzleNotFrom'));
  must(
      Array.isArray(colours) && isWhole(colours.length, 1, MOST_COLOURS),
      phrase('document.puzzleMostColours', {most: MOST_COLOURS})
  );
  must(
      colours.every(
          (triple) => Array.isArray(triple) && triple.length === 3 &&
              triple.every((sample) => isWhole(sample, 0, maxval))
      ),
      phrase('document.colourPuzzleNotThree')
  );
  must(
      new Set(colours.map(String)).size === colours.length, phrase('document.twoColoursPuzzleSame')
  );
  const letters = LETTERS.slice(0, colours.length);
  const isRow = (row) => typeof row === 'string' && row.length === columns &&
      [...row].every((letter) => letters.includes(letter));
  must(
      Array.isArray(picture) && picture.length === rows && picture.every(isRow),
      phrase('document.rowsPuzzleDoNot')
  );
  const places = (list, fault) => {
    must(Array.isArray(list) || list instanceof Set, fault);
    const set = new Set(list);
    must([...set].every((place) => isWhole(place, 0, rows * columns - 1)), fault);
    return set;
  };
  return {
    rows,
    columns,
    maxval,
    colours,
    picture,
    givens: places(value.givens ?? [], phrase('document.givenCellLiesOutside')),
    ...unpackedPage(value),
    locks: places(value.locks ?? [], phrase('document.lockedCellLiesOutside'))
  };
}

const areTexts = (list) => Array.isArray(list) && list.every((text) => typeof text === 'string');

// What else an XML puzzle had, where all of it is as readers of files make it; else null.
function unpackedExtras(extras) {
  if (!extras || typeof extras !== 'object') return null;
  const {notes, goal, set, solutions} = extras;
  const others = solutions ?? [];
  const isSound = Array.isArray(others) && others.every((one) => typeof one?.image === 'string') &&
      [notes, goal?.notes, set?.notes, ...others.map((one) => one.notes)].every(
          (list) => areTexts(list ?? [])
      );
  return isSound ? extras : null;
}

// Texts, names and signs as far as they are such.
function unpackedPage({about, inks, extras}) {
  const texts = Object.entries(
                          about ?? {}
  ).filter(([name, text]) => ABOUT.includes(name) && isText(text, ABOUT_LIMIT) && text !== '');
  const ink = (one) => ({
    ...(isText(one?.name, MOST_NAME) && one.name !== '' ? {name: one.name} : {}),
    ...(isText(one?.sign, 4) && [...one.sign].length === 1 ? {sign: one.sign} : {}),
    ...(one?.locked === true ? {locked: true} : {}),
  });
  return {
    about: Object.fromEntries(texts),
    inks: Array.isArray(inks) ? inks.slice(0, MOST_COLOURS).map(ink) : [],
    extras: unpackedExtras(extras)
  };
}

// ---- what makes one document of another

/**
 * What makes a document of another one, as a plain value: the rows and parts that differ, or all
 * of it.
 */
export function patchOf(from, to) {
  const [one, other] = [docOf(from), docOf(to)];
  if (one.rows !== other.rows || one.columns !== other.columns || one.maxval !== other.maxval)
    return {whole: packedDoc(other)};
  const patch = {};
  const rows = other.picture.flatMap((row, at) => (row === one.picture[at] ? [] : [[at, row]]));
  if (rows.length) patch.rows = rows;
  for (const name of ['colours', 'about', 'inks', 'extras'])
    if (!sameValue(one[name], other[name])) patch[name] = other[name];
  for (const name of ['givens', 'locks'])
    if (!sameSet(one[name], other[name])) patch[name] = [...other[name]];
  return patch;
}

/** The document that a patch makes. Throws a FileFault where it makes none. */
export function patched(from, patch) {
  if (patch.whole) return unpackedDoc(patch.whole);
  const value = packedDoc(from);
  const {rows = [], ...others} = patch;
  value.picture = [...value.picture];
  for (const [at, row] of rows) value.picture[at] = row;
  return sharedRows(from, unpackedDoc({...value, ...others}));
}

/**
 * A document whose parts are those of an earlier one where they are the same, so that many cost
 * little.
 */
export function sharedRows(before, doc) {
  if (!before) return doc;
  const picture =
      doc.picture.map((row, at) => (row === before.picture[at] ? before.picture[at] : row));
  const same = (name) => (sameValue(before[name], doc[name]) ? before[name] : doc[name]);
  return {
    ...doc,
    picture,
    colours: same('colours'),
    givens: sameSet(before.givens, doc.givens) ? before.givens : doc.givens
  };
}
