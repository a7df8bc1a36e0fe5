// Steps of a solver in words: which cells of which line are what colour, and what this follows
// from, with blocks by their names.

import {capital, lineName, linesText} from '../base/words.js';
import {LETTERS} from '../document/limits.js';
import {namesOf} from '../document/names.js';
import {phrase} from '../texts/phrase.js';
import {inkName} from '../view/dress.js';
import {placeText} from '../view/proposals.js';
import {isBackground} from './hinting.js';
import {blocksOf, cellsOf, narrowedBefore} from './lines.js';

const isRow = ({rows}, line) => line < rows;
const nameOfLine = (state, line) =>
    capital(isRow(state, line) ? lineName(true, line) : lineName(false, line - state.rows));

// Places along a line in words, as in “columns 2–4, 7”.
const placesText = (state, line, indices) => linesText(
    !isRow(state, line),
    indices.map(
        (index) =>
            (isRow(state, line) ? (index % state.columns) + 1 :
                                  Math.floor(index / state.columns) + 1)
    )
);

const inkOf = (state, letter) => namesOf(state)[LETTERS.indexOf(letter)];

// Cells of a line that have a letter, in words.
function cellsAre(state, line, letter, indices) {
  const found = {places: placesText(state, line, indices), count: indices.length};
  return letter === '.' ? phrase('play.areBackground', found) :
                          phrase('play.areColour', {...found, colour: inkOf(state, letter)});
}

// Places by their letters, those of colours first.
function byLetter(cells) {
  const groups = new Map();
  for (const {index, letter} of cells) groups.set(letter, [...(groups.get(letter) ?? []), index]);
  return [...groups].sort(([one], [other]) => Number(one === '.') - Number(other === '.'));
}

const blockName = (state, {letter, length}) =>
    phrase('play.block', {colour: inkOf(state, letter), length});

// A block's name, with its places where another block of its line has that name.
function blockText(state, line, block) {
  const name = blockName(state, block);
  const same = blocksOf(state, line).filter((one) => blockName(state, one) === name);
  return same.length < 2 ?
      name :
      phrase('play.blockIn', {block: name, places: placesText(state, line, block.indices)});
}

// The blocks of a line with the places that they have in the picture.
function standing(state, line) {
  const cells = cellsOf(state, line);
  const letters =
      cells.map((index) => state.picture[Math.floor(index / state.columns)][index % state.columns]);
  let at = 0;
  return blocksOf(state, line).map((block) => {
    while (letters[at] !== block.letter) at++;
    const from = at;
    at += block.length;
    return {...block, indices: cells.slice(from, at)};
  });
}

// ---- reasons

// Of a step that needs its clue alone.
function clueReason(state, {line, falls}) {
  const blocks = standing(state, line);
  if (blocks.length && falls.length === cellsOf(state, line).length)
    return phrase('play.blocksFill');
  const [block, ...others] =
      blocks.filter(({indices}) => falls.some(({index}) => indices.includes(index)));
  if (!block || others.length || falls.some(({letter}) => letter === '.'))
    return phrase('play.byClueAlone');
  return phrase('play.coversThem', {block: blockName(state, block), count: falls.length});
}

// What is known of the cells that a step needs: whole blocks by their names, the others by their
// colours.
function partsOf(state, step) {
  const {line, needs} = step;
  const known = needs.filter(({letters}) => letters.length === 1);
  const isKnown = new Set(known.map(({index}) => index));
  const whole =
      standing(state, line).filter(({indices}) => indices.every((index) => isKnown.has(index)));
  const inWhole = new Set(whole.flatMap(({indices}) => indices));
  const others = known.filter(({index}) => !inWhole.has(index));
  const parts = [
    ...whole.map((block) => phrase('play.isComplete', {block: blockText(state, line, block)})),
    ...byLetter(others.map(({index, letters}) => ({index, letter: letters}))
    ).map(([letter, indices]) => cellsAre(state, line, letter, indices))
  ];
  const excluded = [
    ...needs.filter(({letters}) => letters.length > 1).map(({index}) => index),
    ...narrowedBefore(state, step)
  ].sort((one, other) => one - other);
  if (excluded.length)
    parts.push(phrase('play.excludedIn', {places: placesText(state, line, excluded)}));
  return parts;
}

// Parts of a sentence one after the other: “a, b and c”.
const joined = (parts) =>
    (parts.length < 2 ?
         parts.join('') :
         phrase('play.lastOf', {others: parts.slice(0, -1).join(', '), last: parts.at(-1)}));

// Whether a step begins at an edge: it goes on with the first or the last block, of which a cell is
// known, and needs no cell behind it.
function isFromEdge(state, {line, falls, needs}) {
  const isKnown = new Set(
      needs.filter(({letters}) => letters.length === 1 && letters !== '.').map(({index}) => index)
  );
  const cells = cellsOf(state, line);
  const blocks = standing(state, line);
  const colours = falls.filter(({letter}) => letter !== '.').map(({index}) => index);
  return [[blocks.at(0), cells], [blocks.at(-1), [...cells].reverse()]].some(([block, inTurn]) => {
    const {indices} = block ?? {indices: []};
    const end = Math.max(...indices.map((index) => inTurn.indexOf(index)));
    return indices.some((index) => isKnown.has(index)) && colours.length > 0 &&
        colours.every((index) => indices.includes(index)) &&
        needs.every(({index}) => inTurn.indexOf(index) <= end);
  });
}

function reasonOf(state, step) {
  const parts = partsOf(state, step);
  if (!parts.length) return clueReason(state, step);
  const reasons = joined(parts);
  return isFromEdge(state, step) ? phrase('play.fromEdge', {reasons}) :
                                   phrase('play.since', {reasons});
}

/** What a step settles, in words. */
export const settledText = (state, {line, falls}) => phrase('play.lineSays', {
  lineName: nameOfLine(state, line),
  cells: joined(byLetter(falls).map(([letter, indices]) => cellsAre(state, line, letter, indices)))
});

// What a guess says.
const guessText = (state, [{index, letter}]) => phrase('play.suppose', {
  place: placeText(state, index),
  colour: letter === '.' ? phrase('view.background') : inkName(state, letter)
});

/**
 * What a step says, as far as it is told: 'line', 'cells' or 'why', that is, with what it follows
 * from.
 */
export function stepText(state, step, how = 'why') {
  const {line, falls} = step;
  if (line === null) return guessText(state, falls);
  if (!falls.length) return phrase('play.excludesColours', {lineName: nameOfLine(state, line)});
  if (how === 'line') return phrase('play.tellsMore', {lineName: nameOfLine(state, line)});
  return `${settledText(state, step)}${how === 'cells' ? '' : reasonOf(state, step)}.`;
}

/** That the cells of a step are to be marked, where these are background alone. */
export const markText = (step) =>
    (isBackground(step) ? phrase('play.markThem', {count: step.falls.length}) : '');
