// Web Paint-by-Number's XML puzzle sets, written: all that a document has, its colours by their
// names and signs. The format is Wolter's, https://webpbn.com/pbn_fmt.html; givens and locked cells
// stand as saved solutions, `?` elsewhere.

import {plainHexOf} from '../document/colours.js';
import {eightBitDoc} from '../document/document.js';
import {LETTERS} from '../document/limits.js';
import {XML_WHOLE, namesOf} from '../document/names.js';
import {readWebpbnImage} from './webpbn_image.js';
import {xmlText} from './xml.js';

export const WEBPBN_GIVENS = 'givens';
export const WEBPBN_LOCKS = 'locks';
export const LOCKED_COLOURS = 'locked colours: ';
const SIGNS = {
  ffffff: '.',
  '000000': 'X'
};                          // as the format has them from the start
const NO_SIGNS = '?|\\[]';  // what means something else in an image
const MORE_SIGNS = '#%*+=o@&$~^:;!0123456789ABCDEFGHIJKLMNOPQRSTUVWXYZpqrstuvwxyz';

/**
 * The colours of a document with 8-bit triples as {hex, name, sign}: its own signs, else usual
 * ones; no two are the same.
 */
export function inksOf(doc) {
  const {colours, inks = []} = doc;
  const names = namesOf(doc, XML_WHOLE);
  const signs =
      new Set(inks.map((ink) => ink?.sign).filter((sign) => sign && !NO_SIGNS.includes(sign)));
  const given = new Set();
  return colours.map((triple, at) => {
    const hex = plainHexOf(triple);
    const own = inks[at]?.sign;
    const isOwn = own && !NO_SIGNS.includes(own) && !given.has(own);
    const usual = SIGNS[hex] ?? (at === 0 ? '-' : LETTERS[at]);
    const sign = isOwn ? own : [usual, LETTERS[at], ...MORE_SIGNS].find((one) => !signs.has(one));
    signs.add(sign);
    given.add(sign);
    return {hex, name: names[at], sign};
  });
}

const element = (name, text) => (text ? [`<${name}>${xmlText(text)}</${name}>`] : []);
const elements = (from, names) => names.flatMap((name) => element(name, from[name]));
const inImage = (sign) => xmlText(NO_SIGNS.includes(sign) ? `\\${sign}` : sign);
const imageOf =
    (rows) => ['<image>', ...rows.map((row) => `|${row.map(inImage).join('')}|`), '</image>'];

// Cells at some places by their signs, as a saved solution: what its id says they are.
function savedPart(doc, inks, places, id, note) {
  if (!places.size && !note.startsWith(LOCKED_COLOURS)) return [];
  const rows = doc.picture.map(
      (row, r) => [...row].map(
          (letter, c) =>
              (places.has(r * doc.columns + c) ? inImage(inks[LETTERS.indexOf(letter)].sign) : '?')
      )
  );
  return [
    `<solution type="saved" id="${id}">`,
    '<image>',
    ...rows.map((row) => `|${row.join('')}|`),
    '</image>',
    ...element('note', note),
    '</solution>'
  ];
}

// Whether a solution beside the goal still fits the picture: its size and its signs.
function isFitting({image}, doc, inks) {
  try {
    const rows = readWebpbnImage(image);
    const known = new Set(['?', ...inks.map((ink) => ink.sign)]);
    return rows.length === doc.rows &&
        rows.every((row) => row.length === doc.columns && row.every((sign) => known.has(sign)));
  } catch {
    return false;
  }
}

/**
 * Whether an XML text would leave out solutions beside the goal, which do not fit the picture any
 * more.
 */
export const leavesOut = (doc) =>
    (doc.extras?.solutions ?? []).some((one) => !isFitting(one, doc, inksOf(eightBitDoc(doc))));

const solutionOf = ({type, id, image, notes = []}) =>
    [`<solution type="${xmlText(type)}"${id ? ` id="${xmlText(id)}"` : ''}>`,
     `<image>${xmlText(image)}</image>`,
     ...notes.flatMap((note) => element('note', note)),
     '</solution>',
];

function lockedNote(doc, inks) {
  const locked = inks.filter((_, at) => doc.inks[at]?.locked).map((ink) => ink.name);
  return locked.length ? `${LOCKED_COLOURS}${locked.join(', ')}` :
                         'The cells that no repair may change.';
}

/** One puzzle of a set. */
function puzzleOf(doc, clues) {
  const inks = inksOf(doc);
  const {about, extras} = doc;
  const of = (letter) => inks[LETTERS.indexOf(letter)];
  const usual = inks.find((ink) => ink.name === extras?.defaultcolor) ?? inks[1] ?? {name: 'black'};
  const count = ({length, letter}) =>
      `<count color="${xmlText(of(letter).name)}">${length}</count>`;
  const axis = (name) =>
      [`<clues type="${name}">`,
       ...clues[name].map((blocks) => `<line>${blocks.map(count).join('')}</line>`),
       '</clues>'];
  const goal = extras?.goal ?? {};
  return [
    `<puzzle type="grid" defaultcolor="${xmlText(usual.name)}" backgroundcolor="${
        xmlText(inks[0].name)}">`,
    ...elements(
        {source: 'nonobench', ...about},
        ['source', 'id', 'title', 'author', 'authorid', 'copyright', 'description']
    ),
    ...inks.map(({name,
                  sign,
                  hex}) => `<color name="${xmlText(name)}" char="${xmlText(sign)}">${hex}</color>`),
    ...(clues ? ['columns', 'rows'].flatMap(axis) : []),
    `<solution type="goal"${goal.id ? ` id="${xmlText(goal.id)}"` : ''}>`,
    ...imageOf(doc.picture.map((row) => [...row].map((letter) => of(letter).sign))),
    ...(goal.notes ?? []).flatMap((note) => element('note', note)),
    '</solution>',
    ...(extras?.solutions ?? []).filter((one) => isFitting(one, doc, inks)).flatMap(solutionOf),
    ...savedPart(doc, inks, doc.givens, WEBPBN_GIVENS, 'The cells that are given with the puzzle.'),
    ...savedPart(doc, inks, doc.locks, WEBPBN_LOCKS, lockedNote(doc, inks)),
    ...[about.note, ...(extras?.notes ?? [])].flatMap((note) => element('note', note)),
    '</puzzle>',
  ];
}

/**
 * The XML text of a document with the clues that the engine told of it; without clues where none
 * are given.
 */
export function webpbnText(given, clues = null) {
  const doc = eightBitDoc(given);
  const set = doc.extras?.set ?? {};
  return [
    '<?xml version="1.0" encoding="UTF-8"?>',
    '<puzzleset>',
    ...elements(set, ['source', 'title', 'author', 'authorid', 'copyright']),
    ...puzzleOf(doc, clues),
    ...(set.notes ?? []).flatMap((note) => element('note', note)),
    '</puzzleset>',
    '',
  ].join('\n');
}
