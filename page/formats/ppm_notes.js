// P3 texts as the page writes them: with notes, comments to other programs, of what the format has
// no place for.

import {ABOUT, unpackedDoc} from '../document/document.js';
import {LETTERS, MOST_COLOURS} from '../document/limits.js';
import {phrase} from '../texts/phrase.js';

const PPM_NOTE = '# nonobench';
const MOST_HEAD = 100;  // bytes of sizes behind the notes

// JSON in bytes that every program takes for a comment.
const asciiOf = (value) => JSON.stringify(value
).replace(/[\u007f-\uffff]/g, (sign) => `\\u${sign.charCodeAt(0).toString(16).padStart(4, '0')}`);

const placesText = (doc, places) => [...places].sort(
                                                   (a, b) => a - b
).map((place) => `${Math.floor(place / doc.columns) + 1},${(place % doc.columns) + 1}`);

/**
 * A document as a P3 text that the page opens with the same background, palette, names, texts,
 * givens and locked cells: notes after the magic, which other programs skip, tell what a P3 text
 * has no place for. `extras` are left out.
 */
export function ppmTextOf(doc) {
  const {
    columns,
    rows,
    maxval,
    colours,
    picture,
    givens,
    about = {},
    inks = [],
    locks = new Set()
  } = doc;
  /** @type {[string, string[]][]} */
  const placed = [['givens', placesText(doc, givens)], ['locks', placesText(doc, locks)]];
  const notes = [`${PPM_NOTE} colours ${colours.map((triple) => triple.join(',')).join(' ')}`];
  for (const name of ABOUT)
    if (about[name]) notes.push(`${PPM_NOTE} ${name} ${asciiOf(about[name])}`);
  if (inks.some((ink) => ink?.name || ink?.sign || ink?.locked))
    notes.push(`${PPM_NOTE} inks ${asciiOf(inks)}`);
  for (const [word, places] of placed) {
    for (let at = 0; at < places.length; at += 100)
      notes.push(`${PPM_NOTE} ${word} ${places.slice(at, at + 100).join(' ')}`);
  }
  const triples = new Map(colours.map((triple, at) => [LETTERS[at], triple.join(' ')]));
  const cells = picture.flatMap((row) => [...row].map((letter) => triples.get(letter)));
  return `P3\n${notes.join('\n')}\n${columns} ${rows}\n${maxval}\n${cells.join('\n')}\n`;
}

/** What a P3 text with notes leaves out of a document, in words; '' where it is nothing. */
export const leftOutOfPpm = (doc) =>
    (doc.extras && ['set', 'goal', 'notes', 'solutions'].some((name) => doc.extras[name]) ?
         phrase('formats.furtherSolutionsNotesXml') :
         '');

/** The document of a P3 text with such notes, or null where it has none or they do not fit. */
export function docOfNotes(text, image) {
  const notes = new Map();
  let at = /^P3\r?\n/.exec(text)?.[0].length ?? 0;
  while (text[at] === '#') {
    const end = text.indexOf('\n', at) + 1 || text.length;
    const line = text.slice(at, end).trimEnd();
    at = end;
    if (!line.startsWith(`${PPM_NOTE} `)) continue;
    const [word] = line.slice(PPM_NOTE.length + 1).split(' ', 1);
    notes.set(word, notes.get(word) ?? [])
        .get(word)
        .push(line.slice(PPM_NOTE.length + word.length + 2));
  }
  const words = (what) => (notes.get(what) ?? []).flatMap((line) => line.split(' '));
  const colours = words('colours').map((word) => word.split(',').map(Number));
  if (!colours.length || colours.length > MOST_COLOURS ||
      !/^255\s/m.test(text.slice(at, at + MOST_HEAD)))
    return null;
  const numbers =
      new Map(colours.map((triple, at) => [(triple[0] << 16) | (triple[1] << 8) | triple[2], at]));
  const {width: columns, height: rows, data} = image;
  let cells = '';
  for (let at = 0; at < data.length; at += 4)
    cells += LETTERS[numbers.get((data[at] << 16) | (data[at + 1] << 8) | data[at + 2])] ?? '?';
  const places = (what) => words(what).map((word) => {
    const [row, col] = /^\d{1,3},\d{1,3}$/.test(word) ? word.split(',').map(Number) : [0, 0];
    if (row < 1 || row > rows || col < 1 || col > columns) throw new RangeError(word);
    return (row - 1) * columns + col - 1;
  });
  const picture =
      Array.from({length: rows}, (_, row) => cells.slice(row * columns, (row + 1) * columns));
  try {
    const value = (name) => (notes.has(name) ? JSON.parse(notes.get(name)[0]) : undefined);
    const about = Object.fromEntries(
        ABOUT.map((name) => [name, value(name)]).filter(([, text]) => text !== undefined)
    );
    return unpackedDoc({
      rows,
      columns,
      maxval: 255,
      colours,
      picture,
      givens: places('givens'),
      locks: places('locks'),
      inks: value('inks'),
      about
    });
  } catch {
    return null;  // notes that do not fit are comments like others
  }
}
