// A puzzle, its solution, or a part of either, on a white surface: for print and for images.
// Lengths are in the surface's units.

import {hexOf, lightness, oklabOf, tintOf} from '../document/colours.js';
import {columnOf, eightBitDoc, rowOf} from '../document/document.js';
import {LETTERS} from '../document/limits.js';
import {nearPairs} from '../document/near.js';
import {
  FRAME,
  coloursOf,
  drawClue,
  drawGiven,
  drawRules,
  drawSign,
  edges,
  textSize,
  wholeFrame
} from './board.js';
import {penOf} from './small.js';
import {CanvasSurface} from './surface.js';

export const PAPER_INK = '#1a1a1a';
export const PAPER_FAMILY = 'system-ui, "Liberation Sans", "DejaVu Sans", sans-serif';
const PAPER_FAINT = '#8a8a8a';
const SIGNS = '■●▲▼★♥♣♠▶◀✚✖☀☂♪';  // one a colour, none like the mark of a given cell
/** From this size on, in millimetres, numbers are read easily. */
export const LEAST_TEXT = 2;
const PALE = 215;                         // from this lightness on white paper an edge is wanted
const ROOM = 0.88;                        // of a cell's side, for a box of a clue
const FRAMED = 1 - (1 - 2 * FRAME) ** 2;  // of a box's area, its frame
// in Oklab, on the mean over a box: so far apart are colours that are just not too similar
const ALIKE = 0.065;

/** The signs of colours on paper, each another one; the background has none. */
export const signsOf = ({colours}) => ['', ...SIGNS].slice(0, colours.length);

/** Whether a document has one colour besides its background: its clues need no colours. */
export const hasOneInk = ({colours}) => colours.length <= 2;

/**
 * How colours of a document are told where letters or signs are wished for: one ink has them only
 * where its background is too similar.
 */
export const shownAs = (doc, show) => (hasOneInk(doc) && !nearPairs(doc).length ? 'colours' : show);

// How it looks with cells of a size. `show` says how colours are told: 'colours', 'letters' or
// 'signs'. Lines of a canvas are whole.
function paperLook(surface, doc, cell, show) {
  const isWhole = Boolean(surface.pen);
  const weight = (share, least) =>
      (isWhole ? Math.max(least, Math.round(cell * share)) : cell * share);
  const {fills, inks} = coloursOf(doc, true);
  const shown = shownAs(doc, show);
  return {
    fills,
    inks,
    signs: shown === 'letters' ? LETTERS :
        shown === 'signs'      ? signsOf(doc) :
                                 null,
    family: PAPER_FAMILY,
    thin: weight(1 / 50, 1),
    wide: weight(1 / 12, 2),
    border: weight(1 / 10, 2),
    isWhole,
    under: !isWhole,
    light: '#555',
    heavy: PAPER_INK,
    ink: '#000',
    faint: PAPER_FAINT,
    style: show !== 'colours' || hasOneInk(doc) ? 'plain' : 'box',
    tints: doc.colours.map((triple) => hexOf(tintOf(triple), 255)),
    edges: doc.colours.map((triple) => (lightness(triple) > PALE ? PAPER_FAINT : null)),
    hair: cell / 40,
    font: cell * 0.66,
    least: isWhole ? 5 : 0,
    weight: 400,
  };
}

// The room of a block of a clue, by a cell's side: numbers without a box have all of it.
const roomOf = ({style}) => (style === 'box' ? ROOM : 1);

// How clues look: of one ink they are numbers alone.
const clueLook = (look, doc) => (hasOneInk(doc) ? {...look, signs: null} : look);

const longest = (clues) => Math.max(1, ...clues.map((blocks) => blocks.length));
const whole = ({rows, columns}) => ({top: 0, left: 0, bottom: rows - 1, right: columns - 1});

/**
 * The size of a puzzle on paper in cells' sides, {left, top, width, height}: the room of its clues
 * and all of it. `part` is the rows and columns that are drawn, all if it is left out; clues stand
 * beside the first of them alone. `hasNumbers` puts numbers of lines in their place where there are
 * none.
 */
export function sizeOfPaper(
    {doc, clues}, {part = whole(doc), hasClues = true, hasNumbers = false} = {}
) {
  const room = (lines, from) =>
      (hasClues && from === 0 ? longest(lines) + 0.25 :
           hasNumbers         ? 1.5 :
                                0.15);
  const [left, top] = [room(clues.rows, part.left), room(clues.columns, part.top)];
  return {
    left,
    top,
    width: left + part.right - part.left + 1.15,
    height: top + part.bottom - part.top + 1.15
  };
}

/**
 * Draws a puzzle at a place, with cells of a size. `solution` fills the cells; givens are always
 * filled. The empty puzzle is white whatever the background is: what is not known yet is not
 * background.
 */
export function drawPaper(surface, puzzle, {
  x,
  y,
  cell,
  show = 'colours',
  solution = false,
  hasClues = true,
  hasNumbers = false,
  part = whole(puzzle.doc)
}) {
  const doc = eightBitDoc(puzzle.doc);
  const {left, top} = sizeOfPaper(puzzle, {part, hasClues, hasNumbers});
  const snapped = (value) => (surface.pen ? Math.round(value) : value);
  const frame = {
    ...wholeFrame(
        snapped(x + (left - part.left) * cell), snapped(y + (top - part.top) * cell), cell, doc
    ),
    ...part
  };
  const board = {surface, doc, frame, look: paperLook(surface, doc, cell, show)};
  if (solution)
    drawSolution(board);
  else
    drawGivenCells(board);
  drawRules(surface, board.look, frame);
  if (!solution)
    for (const [row, col] of givensIn(board))
      drawGiven(surface, frame.x + col * cell, frame.y + row * cell, cell);
  if (hasClues) drawPaperClues(board, puzzle.clues, smallestText(puzzle, show) * cell);
  if (hasNumbers) drawPaperNumbers(board);
}

/** The empty puzzle on a white canvas of its own, as a surface. */
export function canvasPaper(puzzle, cell) {
  const {width, height} = sizeOfPaper(puzzle);
  const surface = new CanvasSurface(penOf(Math.ceil(width * cell), Math.ceil(height * cell)));
  surface.rect(0, 0, surface.pen.canvas.width, surface.pen.canvas.height, '#fff');
  drawPaper(surface, puzzle, {x: 0, y: 0, cell});
  return surface;
}

/** How large the smallest text of the clues is on paper, by the side of a cell. */
export function smallestText(puzzle, show) {
  const doc = eightBitDoc(puzzle.doc);
  const look = clueLook(paperLook({}, doc, 1, show), doc);
  const room = {width: roomOf(look), height: roomOf(look)};
  return [...puzzle.clues.rows, ...puzzle.clues.columns].flat().reduce(
      (least, block) => Math.min(least, textSize(look, block, room)), look.font
  );
}

/**
 * The first two letters whose boxes look alike on paper, by frame and tint together; null where
 * none do, and of one ink, which has none.
 */
export function alikeBoxes(own) {
  const doc = eightBitDoc(own);
  const letters = hasOneInk(doc) ?
      [] :
      LETTERS.slice(1, doc.colours.length)
          .split('')
          .filter((letter) => doc.picture.some((row) => row.includes(letter)));
  const boxes = letters.map(
                           (letter) => doc.colours[LETTERS.indexOf(letter)]
  ).map((triple) => [triple, tintOf(triple)].map(([red,
                                                   green,
                                                   blue]) => oklabOf(red, green, blue)));
  const apart = (one, other) => Math.hypot(...one.map((part, at) => part - other[at]));
  const isAlike = (one, other) =>
      FRAMED * apart(one[0], other[0]) + (1 - FRAMED) * apart(one[1], other[1]) < ALIKE;
  for (const [at, one] of boxes.entries()) {
    const other = boxes.findIndex((box, place) => place > at && isAlike(one, box));
    if (other > 0) return [letters[at], letters[other]];
  }
  return null;
}

/**
 * Where a cell lies between its lines, {left, top, width, height} in a list, in a puzzle that
 * `drawPaper` drew at a place.
 */
export function cellOnPaper(surface, puzzle, {x, y, cell}, row, col) {
  const {left, top} = sizeOfPaper(puzzle);
  const look = paperLook(surface, puzzle.doc, cell, 'colours');
  const [across, wide] =
      edges(look, col, col + 1, Math.round(x + left * cell), cell, puzzle.doc.columns);
  const [down, high] = edges(look, row, row + 1, Math.round(y + top * cell), cell, puzzle.doc.rows);
  return [across, down, wide, high];
}

// Numbers of each fifth line where a part has no clues.
function drawPaperNumbers({surface, look, frame: {x, y, cell, top, left, bottom, right}}) {
  const write = (line, across, down) => surface.text(
      String(line), across, down, {size: cell * 0.55, ink: PAPER_FAINT, family: look.family}
  );
  const isFifth = (line) => (line + 1) % 5 === 0;
  if (left > 0)
    for (let row = top; row <= bottom; row++)
      if (isFifth(row)) write(row + 1, x + (left - 0.8) * cell, y + (row + 0.5) * cell);
  if (top > 0)
    for (let col = left; col <= right; col++)
      if (isFifth(col)) write(col + 1, x + (col + 0.5) * cell, y + (top - 0.7) * cell);
}

const givensIn = ({doc, frame: {top, left, bottom, right}}
) => [...doc.givens]
         .map((place) => [rowOf(doc, place), columnOf(doc, place)])
         .filter(([row, col]) => row >= top && row <= bottom && col >= left && col <= right);

const boxOf =
    ({frame: {x, y, cell}}, row, from, to
    ) => [x + from * cell, y + row * cell, (to - from) * cell, cell];

function drawPaperSign({surface, look, frame: {x, y, cell}}, row, col, at, ink = PAPER_INK) {
  const middle = {x: x + (col + 0.5) * cell, y: y + (row + 0.5) * cell};
  if (at === 0)
    surface.text(
        '×',
        middle.x,
        middle.y,
        {size: cell * 0.7, ink: look.signs ? PAPER_INK : PAPER_FAINT, family: look.family}
    );
  else
    drawSign(surface, look, at, {...middle, size: cell * 0.7, ink});
}

function drawGivenCells(board) {
  for (const [row, col] of givensIn(board)) {
    const at = LETTERS.indexOf(board.doc.picture[row][col]);
    if (board.look.signs || at === 0)
      drawPaperSign(board, row, col, at);
    else
      board.surface.rect(...boxOf(board, row, col, col + 1), board.look.fills[at]);
  }
}

// One shape for a run of one colour, and on it a sign a cell where signs tell colours.
function drawRun(board, row, from, to) {
  const {surface, doc, look} = board;
  const at = LETTERS.indexOf(doc.picture[row][from]);
  if (look.fills[at] !== '#ffffff') surface.rect(...boxOf(board, row, from, to), look.fills[at]);
  if (look.signs && at > 0)
    for (let col = from; col < to; col++) drawPaperSign(board, row, col, at, look.inks[at]);
}

function drawSolution(board) {
  const {doc, frame: {top, left, bottom, right}} = board;
  for (let row = top; row <= bottom; row++) {
    const letters = doc.picture[row];
    for (let from = left, to; from <= right; from = to) {
      for (to = from + 1; to <= right && letters[to] === letters[from];) to++;
      drawRun(board, row, from, to);
    }
  }
}

// Beside letters and signs numbers have one size, that of the longest, but where this would leave
// none that is read easily.
function drawPaperClues({surface, doc, look: ofCells, frame}, clues, smallest) {
  const own = clueLook(ofCells, doc);
  const look = own.signs && smallest >= LEAST_TEXT ? {...own, font: smallest} : own;
  const {x, y, cell, top, left, bottom, right} = frame;
  const room = roomOf(look) * cell;
  const place =
      {far: -Infinity, gap: cell - room, unit: 1, sizeOf: () => ({width: room, height: room})};
  const away = cell * 0.25 + (cell - room) / 2;
  if (left === 0)
    for (let row = top; row <= bottom; row++)
      drawClue(surface, look, 'r', clues.rows[row], {
        ...place,
        near: x - away,
        middle: y + (row + 0.5) * cell
      });
  if (top === 0)
    for (let col = left; col <= right; col++)
      drawClue(surface, look, 'c', clues.columns[col], {
        ...place,
        near: y - away,
        middle: x + (col + 0.5) * cell
      });
}
