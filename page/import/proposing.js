// What the dialog for pictures proposes of an image: its size in cells, how many colours, and the
// part without a margin; and what is made of it without the dialog.

import {MOST_CELLS, MOST_COLOURS} from '../document/limits.js';
import {nearPairs} from '../document/near.js';
import {countFlat} from './flat.js';
import {docOfImage, dotSize, isTransparent, scaledTo} from './images.js';
import {MOST_POINTS, Maker} from './making.js';
import {docOfCells} from './quantise.js';
import {hasClear, hasFewColours, spotsOf} from './spots.js';

const SMALL = 0.003;      // of the area: a beak, a nose, a star
const FEW = 8;            // colours that a puzzle has easily
const MOST_SMALL = 1024;  // pixels a side of an icon or a drawing, which photos exceed

// How many colours flat art has: those of small features too, where all of them are few.
function flatColours(image) {
  const all = countFlat(image, SMALL);
  return all <= FEW ? all : countFlat(image);
}

/**
 * How many colours an image has with a background: all where each pixel counts and they are few,
 * its flat ones, or some.
 */
function coloursFor(image, {isExact, some}) {
  const clear = Number(hasClear(image));
  const most = MOST_COLOURS - clear;
  const own = isExact && hasFewColours(image, most) ? spotsOf(image).length : flatColours(image);
  return own && own <= most ? Math.max(2, own + clear) : some;
}

const sampled = (image, wide, high) => scaledTo(image, {x: 0, y: 0, ...image}, wide, high, true);

// What is proposed for pixel art: one cell a dot; null where it has too many dots for that, or one
// alone.
function dotsOf(image) {
  const dot = dotSize(image);
  const [columns, rows] = [image.width / dot, image.height / dot];
  if (columns > MOST_CELLS || rows > MOST_CELLS || columns * rows === 1) return null;
  const cells = sampled(image, columns, rows);
  return {
    columns,
    rows,
    dot,
    sharp: true,
    cells,
    colours: coloursFor(cells, {isExact: true, some: MOST_COLOURS})
  };
}

/**
 * A document with at most so many colours of which no two that cells have look alike, but at least
 * two, and how many these are. `docOf` makes the document with a number of colours.
 */
export function docApart(most, docOf) {
  let [colours, doc] = [most, docOf(most)];
  while (colours > 2 && nearPairs(doc).length) doc = docOf(--colours);
  return {colours, doc};
}

/**
 * What the dialog proposes for an image, where colours that look alike are not made fewer yet: one
 * cell a dot of a pixel picture, else 40 cells on the longer side.
 */
export function proposalFor(image) {
  const dots = dotsOf(image);
  if (dots) return dots;
  const scale = 40 / Math.max(image.width, image.height);
  const colours = coloursFor(
      sampled(image, Math.min(MOST_POINTS, image.width), Math.min(MOST_POINTS, image.height)),
      {isExact: false, some: 6}
  );
  return {
    columns: Math.max(1, Math.round(image.width * scale)),
    rows: Math.max(1, Math.round(image.height * scale)),
    dot: null,
    sharp: false,
    colours
  };
}

/** The document that the dialog proposes for an image. */
export function docProposed(image) {
  const proposal = proposalFor(image);
  const maker = new Maker();
  const docOf = (colours) => maker.doc(
      {image, box: {x: 0, y: 0, width: image.width, height: image.height}},
      [proposal.columns, proposal.rows],
      {...proposal, colours}
  );
  return docApart(proposal.colours, docOf).doc;
}

/**
 * The document of an image without the dialog: pixel by pixel, else dot by dot where it is enlarged
 * pixel art. Where that has neither the `background` nor few colours, it is what the dialog
 * proposes, with `all`, how many colours the image has. One that is not pixel by pixel says that it
 * `isMade`. Null for other images.
 */
export function docByItself(image, background = null) {
  const doc = docOfImage(image, background);
  const dots = doc ? null : dotsOf(image);
  if (!dots || dots.dot === 1) return doc;
  const exact = docOfImage(dots.cells, background);
  if (exact || background) return exact && {...exact, isMade: true};
  const all = spotsOf(dots.cells).length + Number(hasClear(dots.cells));
  const docOf = (colours) => docOfCells(dots.cells, {...dots, colours});
  return {
    ...(all > dots.colours ? docApart(dots.colours, docOf).doc : docOf(dots.colours)),
    all,
    isMade: true
  };
}

/**
 * The document of an image among several files: by itself, else what the dialog proposes, of a
 * small image. Null for a large one, and for one with a `background` that does not open by itself.
 */
export function docAmongSeveral(image, background = null) {
  const doc = docByItself(image, background);
  if (doc || background || Math.max(image.width, image.height) > MOST_SMALL) return doc;
  return {...docProposed(image), isMade: true};
}

/**
 * The part of an image without the lines at its edges that are transparent, or of the colour of
 * its corner, all along.
 */
export function withoutMargin({width, height, data}) {
  const pixels = new Uint32Array(data.buffer, data.byteOffset, width * height);
  const isMargin = (at) =>
      (isTransparent(data, 0) ? isTransparent(data, at * 4) : pixels[at] === pixels[0]);
  let [left, top, right, bottom] = [width, height, -1, -1];
  for (let row = 0, at = 0; row < height; row++) {
    for (let col = 0; col < width; col++, at++) {
      if (isMargin(at)) continue;
      if (col < left) left = col;
      if (col > right) right = col;
      if (row < top) top = row;
      bottom = row;
    }
  }
  return right < 0 ? {x: 0, y: 0, width, height} :
                     {x: left, y: top, width: right - left + 1, height: bottom - top + 1};
}
