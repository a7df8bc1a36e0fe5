// Web Paint-by-Number's XML puzzle sets, read: the picture, and all else that the format has, so
// that writing it again loses nothing.

import {withoutSpace} from '../base/words.js';
import {runsOf, sameValue, unpackedDoc} from '../document/document.js';
import {FileFault, LETTERS, MOST_CELLS, MOST_COLOURS} from '../document/limits.js';
import {phrase} from '../texts/phrase.js';
import {LOCKED_COLOURS, WEBPBN_GIVENS, WEBPBN_LOCKS} from './webpbn.js';
import {readWebpbnImage} from './webpbn_image.js';
import {readXml} from './xml.js';

const MOST_SIGNS = 100000;  // of a text
const MOST_KEPT = 64 * MOST_CELLS *
    MOST_CELLS;  // signs of an image, as for nonobench-audit, and of what is kept beside one

const childrenOf = (element, name) => element.children.filter((child) => child.name === name);
const trimmed = (element) => element.text.trim().slice(0, MOST_SIGNS);
const textIn = (element, name) =>
    (childrenOf(element, name).length ? trimmed(childrenOf(element, name)[0]) : '');
const textsIn = (element, name) => childrenOf(element, name).map(trimmed).filter(Boolean);
const present = (texts) =>
    Object.fromEntries(Object.entries(texts).filter(([, text]) => text.length));
const imageIn = (solution) => short(childrenOf(solution, 'image')[0]?.text ?? '');
const typeOf = (element, usual) => element.attributes.get('type') ?? usual;
const idOf = (element) => element.attributes.get('id') ?? '';

function short(text, most = MOST_KEPT) {
  if (text.length > most) throw new FileFault(phrase('formats.xmlTextsTooLong'));
  return text;
}

// A value in texts of its own: a part of the file's text would keep all of it in memory.
const kept = (value, most = MOST_KEPT) => JSON.parse(short(JSON.stringify(value), most));

function tripleOfHex(text) {
  const hex = withoutSpace(text).replace(/^#/, '');
  if (/^[0-9a-fA-F]{3}$/.test(hex)) return [...hex].map((digit) => parseInt(digit + digit, 16));
  if (/^[0-9a-fA-F]{6}$/.test(hex))
    return [0, 2, 4].map((at) => parseInt(hex.slice(at, at + 2), 16));
  throw new FileFault(phrase('formats.colourPuzzleNotThree'));
}

// The declared colours by name, and white and black where they are not declared.
function readColours(puzzle) {
  const colours = new Map();
  const known = [['white', '.', [255, 255, 255]], ['black', 'X', [0, 0, 0]]];
  for (const element of childrenOf(puzzle, 'color')) {
    const name = element.attributes.get('name') ?? '';
    const sign =
        element.attributes.get('char') ?? known.find(([other]) => other === name)?.[1] ?? null;
    if (colours.has(name)) throw new FileFault(phrase('formats.colourPuzzleDeclaredTwice'));
    colours.set(name, {name, sign, triple: tripleOfHex(element.text), declared: true});
  }
  for (const [name, sign, triple] of known)
    if (!colours.has(name)) colours.set(name, {name, sign, triple, declared: false});
  return colours;
}

// The clues as blocks with names of colours, or null where the puzzle has none.
function readClues(puzzle, type, usual) {
  const clues =
      childrenOf(puzzle, 'clues').find((element) => element.attributes.get('type') === type);
  if (!clues) return null;
  return childrenOf(clues, 'line')
      .map(
          (line) => childrenOf(line, 'count')
                        .map((count) => {
                          if (!/^[0-9]{1,6}$/.test(withoutSpace(count.text)))
                            throw new FileFault(phrase('formats.cluePuzzleNoNumber'));
                          return {
                            length: Number(count.text),
                            name: count.attributes.get('color') ?? usual
                          };
                        })
                        .filter((block) => block.length > 0)
      );
}

// ---- what stands beside the picture

const ABOUT_SET = ['source', 'title', 'author', 'authorid', 'copyright'];

function aboutOf(puzzle) {
  const names = ['source', 'id', 'title', 'author', 'authorid', 'copyright', 'description'];
  return present({
    ...Object.fromEntries(names.map((name) => [name, textIn(puzzle, name)])),
    note: textsIn(puzzle, 'note')[0] ?? ''
  });
}

const textsOfSet = (set) => present({
  ...Object.fromEntries(ABOUT_SET.map((name) => [name, textIn(set, name)])),
  notes: textsIn(set, 'note')
});

// What else the puzzle and its set had; null where there is nothing.
function extrasOf(puzzle, goal, others) {
  const goalTexts = goal ? present({id: idOf(goal), notes: textsIn(goal, 'note')}) : {};
  const solutions = others.map((one) => ({
                                 type: typeOf(one, 'goal'),
                                 ...present({id: idOf(one), notes: textsIn(one, 'note')}),
                                 image: imageIn(one)
                               }));
  const extras = present({
    notes: textsIn(puzzle, 'note').slice(1),
    solutions,
    defaultcolor: puzzle.attributes.get('defaultcolor') ?? ''
  });
  if (Object.keys(goalTexts).length) extras.goal = goalTexts;
  return extras;
}

/**
 * An XML text as `{ setTexts, puzzles }`: what stands beside the puzzles, and the elements of
 * those of rows and columns, at least one.
 */
export function readWebpbnSet(text) {
  const set = readXml(text);
  const all = set.name === 'puzzleset' ? childrenOf(set, 'puzzle') :
      set.name === 'puzzle'            ? [set] :
                                         [];
  const puzzles = all.filter((element) => typeOf(element, 'grid') === 'grid');
  if (!puzzles.length) throw new FileFault(phrase('formats.xmlNoPuzzleRows'));
  return {setTexts: set.name === 'puzzleset' ? kept(textsOfSet(set), MOST_SIGNS) : {}, puzzles};
}

/**
 * A puzzle of an XML text, or of what readWebpbnSet gives, the first one for 0: `{ doc, count }`,
 * or `{ non, page, count }` with the text of a two-colour puzzle that has clues and no solution.
 * `count` is how many there are. Throws a FileFault for what no bench would open.
 */
export function readWebpbn(text, at = 0) {
  const {setTexts, puzzles} = typeof text === 'string' ? readWebpbnSet(text) : text;
  const puzzle = puzzles[at];
  const count = puzzles.length;
  const solutions = childrenOf(puzzle, 'solution');
  const goal = solutions.find((one) => typeOf(one, 'goal') === 'goal') ??
      solutions.find((one) => typeOf(one, 'goal') === 'solution');
  const own = (id) => solutions.find((one) => typeOf(one, 'goal') === 'saved' && idOf(one) === id);
  const [givens, locks] = [own(WEBPBN_GIVENS), own(WEBPBN_LOCKS)];
  const page = kept({
    about: aboutOf(puzzle),
    extras: extrasOf(puzzle, goal, solutions.filter((one) => ![goal, givens, locks].includes(one)))
  });
  if (Object.keys(setTexts).length) page.extras.set = setTexts;
  if (!Object.keys(page.extras).length) page.extras = null;
  const usual = puzzle.attributes.get('defaultcolor') ?? 'black';
  const clues = {
    rows: readClues(puzzle, 'rows', usual),
    columns: readClues(puzzle, 'columns', usual)
  };
  const [colours, ground] =
      [readColours(puzzle), puzzle.attributes.get('backgroundcolor') ?? 'white'];
  if (!colours.has(ground)) throw new FileFault(phrase('formats.backgroundPuzzleColourDoes'));
  if (!goal && (givens || locks)) throw new FileFault(phrase('formats.givensNoSolution'));
  if (!goal) return {non: nonOfClues(clues, colours, ground), page, count};
  const signs = readWebpbnImage(imageIn(goal));
  const {doc, names} = docOfSigns(signs, colours, ground);
  checkClues(doc, clues, (name) => LETTERS[names.indexOf(name)] ?? '?');
  if (givens)
    doc.givens = placesOfSigns(
        readWebpbnImage(imageIn(givens)), signs, phrase('formats.givenCellAnotherColour')
    );
  if (locks)
    doc.locks = placesOfSigns(
        readWebpbnImage(imageIn(locks)), signs, phrase('formats.lockedCellAnotherColour')
    );
  for (const name of lockedNames(locks))
    if (names.includes(name)) doc.inks[names.indexOf(name)].locked = true;
  return {doc: unpackedDoc({...doc, ...page, inks: kept(doc.inks)}), count};
}

function lockedNames(locks) {
  const note = locks ? textsIn(locks, 'note').find((one) => one.startsWith(LOCKED_COLOURS)) : null;
  return note ? note.slice(LOCKED_COLOURS.length).split(', ') : [];
}

// ---- the picture

// The colours that the picture takes: the background first, then those that are declared, and white
// and black where they are used.
function orderOf(signs, colours, ground) {
  const background = colours.get(ground);
  const used = new Set(signs.flat());
  const bySign = new Map();
  for (const colour of colours.values()) {
    const before = bySign.get(colour.sign);
    if (before?.declared && colour.declared && used.has(colour.sign))
      throw new FileFault(phrase('formats.colourPuzzleDeclaredTwice'));
    if (colour.sign && (!before || colour.declared)) bySign.set(colour.sign, colour);
  }
  for (const sign of used)
    if (!bySign.has(sign))
      throw new FileFault(phrase('formats.solutionCellNoColour', {value: sign.slice(0, 2)}));
  const order = [
    background,
    ...[...colours.values()].filter(
        (one) => one !== background &&
            (one.declared || (used.has(one.sign) && bySign.get(one.sign) === one))
    )
  ];
  const taken = order.length > MOST_COLOURS ?
      order.filter((one) => one === background || used.has(one.sign)) :
      order;
  if (taken.length > MOST_COLOURS)
    throw new FileFault(phrase('document.puzzleMostColours', {most: MOST_COLOURS}));
  return {bySign, order: taken};
}

function docOfSigns(signs, colours, ground) {
  const {bySign, order} = orderOf(signs, colours, ground);
  const triples = new Set();
  const triplesOf = order.map(({triple}) => {
    // Two colours that are shown alike stay two, as near as they can be.
    const blues = [...Array(256).keys()].sort(
        (one, other) => Math.abs(one - triple[2]) - Math.abs(other - triple[2])
    );
    const own =
        blues.map((blue) => [triple[0], triple[1], blue]).find((one) => !triples.has(one.join()));
    triples.add(own.join());
    return own;
  });
  const picture = signs.map(
      (row) => row.map((sign) => LETTERS[order.indexOf(bySign.get(sign))] ?? '?').join('')
  );
  /** @type {any[]} */
  const inks = order.map(({name, sign}) => ({name, ...(sign ? {sign} : {})}));
  const doc = {
    rows: signs.length,
    columns: signs[0].length,
    maxval: 255,
    colours: triplesOf,
    picture,
    givens: [],
    inks,
    locks: []
  };
  return {doc, names: order.map((one) => one.name)};
}

// Compares a file's clues with its picture.
function checkClues(doc, clues, letterOf) {
  const runs = runsOf(doc);
  const texts = (lines, of) =>
      lines.map((blocks) => blocks.map((block) => block.length + of(block)).join(' '));
  for (const axis of ['rows', 'columns']) {
    if (!clues[axis]) continue;
    if (!sameValue(
            texts(clues[axis], ({name}) => letterOf(name)), texts(runs[axis], ({letter}) => letter)
        ))
      throw new FileFault(
          axis === 'rows' ? phrase('formats.cluesRowsNotThose') :
                            phrase('formats.cluesColumnsNotThose')
      );
  }
}

// The cells of a saved solution that are not `?`.
function placesOfSigns(saved, signs, fault) {
  if (!sameValue(saved.map((row) => row.length), signs.map((row) => row.length)))
    throw new FileFault(phrase('formats.savedCellsAnotherSize'));
  return saved.flatMap((row, r) => row.flatMap((sign, c) => {
    if (sign === '?') return [];
    if (sign !== signs[r][c]) throw new FileFault(fault);
    return [r * row.length + c];
  }));
}

function nonOfClues({rows, columns}, colours, ground) {
  if (!rows?.length || !columns?.length)
    throw new FileFault(phrase('formats.puzzleNeitherSolutionNor'));
  const names = [...new Set([...rows, ...columns].flat().map((block) => block.name))];
  if (names.length > 1) throw new FileFault(phrase('formats.puzzleCluesSeveralColours'));
  if (names.some((name) => name === ground || !colours.has(name)))
    throw new FileFault(phrase('formats.cluesNoColour'));
  const line = (blocks) => blocks.map((block) => block.length).join(',') || '0';
  return `width ${columns.length}\nheight ${rows.length}\nrows\n${
      rows.map(line).join('\n')}\ncolumns\n${columns.map(line).join('\n')}\n`;
}
