// The solving path as an animated GIF: the empty puzzle with its clues, filled step by step.

import {say} from '../base/elements.js';
import {clamp} from '../base/words.js';
import {cssOf} from '../document/colours.js';
import {eightBitDoc} from '../document/document.js';
import {LETTERS} from '../document/limits.js';
import {canvasPaper, cellOnPaper, sizeOfPaper} from '../draw/papers.js';
import {writeGif} from '../formats/gif.js';
import {exportAs} from '../library/saving.js';
import {pathOf} from '../play/path.js';
import {phrase} from '../texts/phrase.js';
import {asSeen} from '../view/tools.js';
import {verdictView} from '../view/verdict.js';
import {puzzleOf} from './printing.js';

const SIDE = 640;  // pixels that the longer side comes near to
const MOST_FRAMES = 150;
const [LEAST, MOST] = [8, 50];     // hundredths of a second for a step
const WHOLE = 1200;                // for all steps together
const [FIRST, LAST] = [100, 300];  // for the empty puzzle, and for the picture
const MARK = [217, 115, 13];       // around the cells of a step
const DOT = [138, 138, 138];       // in a cell of the background
const MOST_COLOURS = 256;

const keyOf = ([red, green, blue]) => (red << 16) | (green << 8) | blue;

// The colours of an animation: those that cells are filled with, and the most frequent of the empty
// puzzle.
function paletteOf(data, wanted) {
  const counts = new Map();
  for (let at = 0; at < data.length; at += 4) {
    const key = keyOf(data.subarray(at, at + 3));
    counts.set(key, (counts.get(key) ?? 0) + 1);
  }
  const frequent = [...counts].sort(([, one], [, other]) => other - one).map(([key]) => key);
  return [...new Set([...wanted.map(keyOf), ...frequent])].slice(
                                                              0, MOST_COLOURS
  ).map((key) => [key >> 16, (key >> 8) & 255, key & 255]);
}

/** The empty puzzle on a canvas, and the frames in which it is filled. */
class Film {
  constructor(puzzle) {
    const {width, height} = sizeOfPaper(puzzle);
    this.puzzle = {...puzzle, doc: eightBitDoc(puzzle.doc)};
    this.place = {x: 0, y: 0, cell: clamp(Math.floor(SIDE / Math.max(width, height)), 6, 24)};
    this.surface = canvasPaper(puzzle, this.place.cell);
    const {canvas} = this.surface.pen;
    this.whole = {x: 0, y: 0, width: canvas.width, height: canvas.height};
    const {colours} = this.puzzle.doc;
    this.palette = paletteOf(this.dataOf(this.whole), [...colours, DOT, MARK]);
    this.numbers =
        new Map(this.palette.map((colour, at) => [keyOf(/** @type {any} */ (colour)), at]));
    this.frames = [];
  }

  dataOf({x, y, width, height}) {
    return this.surface.pen.getImageData(x, y, width, height).data;
  }

  boxOf(index) {
    const {columns} = this.puzzle.doc;
    return cellOnPaper(
        this.surface, this.puzzle, this.place, Math.floor(index / columns), index % columns
    );
  }

  // The number of the colour that is nearest to a pixel's.
  numberOf(colour) {
    const key = keyOf(colour);
    if (!this.numbers.has(key)) {
      const far = this.palette.map(
          (one) => one.reduce((sum, sample, at) => sum + (sample - colour[at]) ** 2, 0)
      );
      this.numbers.set(key, far.indexOf(Math.min(...far)));
    }
    return this.numbers.get(key);
  }

  /** Fills a cell with a letter's colour; '?' empties it. What is new has a frame. */
  fill(index, letter, isNew) {
    const [x, y, wide, high] = this.boxOf(index);
    this.surface.rect(
        x,
        y,
        wide,
        high,
        letter === '?' ? '#fff' : cssOf(this.puzzle.doc.colours[LETTERS.indexOf(letter)], 255)
    );
    if (letter === '.')
      this.surface.disc(x + wide / 2, y + high / 2, Math.max(1, wide * 0.1), cssOf(DOT, 255));
    if (isNew)
      this.surface.chip(x, y, wide, high, {
        fill: 'transparent',
        edge: cssOf(MARK, 255),
        weight: Math.max(1, Math.round(wide * 0.12))
      });
  }

  /** Adds what is seen in a part of the canvas. */
  add(part, delay) {
    const data = this.dataOf(part);
    const pixels = Uint8Array.from(
        {length: part.width * part.height},
        (_, at) => this.numberOf(data.subarray(4 * at, 4 * at + 3))
    );
    this.frames.push({...part, pixels, delay});
  }

  /** The smallest part of the canvas that has some cells. */
  around(cells) {
    const boxes = cells.map((index) => this.boxOf(index));
    const [x, y] = [0, 1].map((side) => Math.min(...boxes.map((box) => box[side])));
    const [right, bottom] =
        [0, 1].map((side) => Math.max(...boxes.map((box) => box[side] + box[side + 2])));
    return {x, y, width: right - x, height: bottom - y};
  }

  get bytes() {
    return writeGif({...this.whole, palette: this.palette, frames: this.frames});
  }
}

/** The path through a puzzle as a GIF: of a long path each frame has several steps. */
function animated(puzzle, walk) {
  const film = new Film(puzzle);
  film.add(film.whole, FIRST);
  const count = walk.steps.length;
  const each = Math.max(1, Math.ceil(count / MOST_FRAMES));
  const delay = clamp(Math.round((WHOLE * each) / Math.max(1, count)), LEAST, MOST);
  let [letters, marked] = [walk.letters(0), []];
  for (let at = each; at < count + 2 * each;
       at += each) {  // behind the last step once more, without marks
    const after = walk.letters(Math.min(at, count));
    const changed = [...after.keys()].filter((index) => after[index] !== letters[index]);
    const cells = [...new Set([...marked, ...changed])];
    for (const index of cells)
      film.fill(index, after[index], changed.includes(index) && after[index] !== '?');
    if (cells.length) film.add(film.around(cells), delay);
    [letters, marked] = [after, changed];
  }
  film.frames.at(-1).delay = LAST;
  return film.bytes;
}

/** Saves the solving path of the open picture. */
export const exportPath = () => asSeen(async (seen) => {
  const {state, name} = seen;
  if (state.verdict.word !== 'unique') return say(phrase('export.pathNeedsOne'), 'alarm');
  verdictView.ended = null;
  const walk = await pathOf(state);
  if (walk?.isWhole)
    return exportAs(name, 'gif', new Blob([animated(puzzleOf(seen), walk)]), '-path');
  return verdictView.ended && say(phrase('export.pathNotWhole', {name}), 'alarm');
});
