// The one renderer of a puzzle: its grid, what stands in cells, and its clues, on a surface. The
// editor, Play and paper call it. Each has a frame, in which its cells lie, and a look.
//
// A frame: {x, y} of the first cell, its side `cell`, `rows`, `columns`, and the part that is
// drawn, {top, left, bottom, right}. A look: `fills` and `inks` of the colours, `signs` (a sign a
// colour, or null: colours alone), `family` of the text; `thin`, `wide` and `border`, the weights
// of lines; `isWhole`, whether they lie on whole pixels; `under`, whether cells lie below them, or
// between; `light`, `heavy`, `ink` and `faint`, the inks of lines and texts; `style` of clues:
// 'plain', 'chip' with its `radius` and the `edge` around it, or 'box' with `tints` of the colours
// and `edges` around the pale ones; edges are `hair` wide; `font`, the size of a clue's text at
// most, and `least`, at least; the `weight` of texts.

import {cssOf, hexOf, inkOn, lightness} from '../document/colours.js';
import {LETTERS} from '../document/limits.js';

// Widths by the size of the text.
const DIGIT = 0.58;       // of a digit or a letter
const WIDE_DIGIT = 0.64;  // of one on paper, in the widest of usual fonts
const SIGN = 1.1;         // of a sign, or an m
const SPACE = 0.3;        // between numbers around which nothing is drawn

/** What a look has of a document: its colours, and what is read on them. */
export const coloursOf = (doc, isPaper = false) => ({
  fills: doc.colours.map((triple) => (isPaper ? hexOf : cssOf)(triple, doc.maxval)),
  inks: doc.colours.map((triple) => inkOn(triple, doc.maxval)),
});

// The lines between cells, thin and strong, on a light ground and on a dark one.
const LINES = [['#d4d3cd', '#77797d'], ['#3f444c', '#8b9096']];

/** The inks of the lines between cells on a ground of eight bits. */
export function linesOn(ground) {
  const [light, heavy] = LINES[lightness(ground) < 128 ? 1 : 0];
  return {light, heavy};
}

export const wholeFrame = (x, y, cell, {rows, columns}) =>
    ({x, y, cell, rows, columns, top: 0, left: 0, bottom: rows - 1, right: columns - 1});

// ---- the grid

const isHeavy = (at, count) => at % 5 === 0 || at === count;
const weightOf = (look, at, count) =>
    (at === 0 || at === count ? look.border :
         at % 5 === 0         ? look.wide :
                                look.thin);
const before = (look, weight) =>
    (look.isWhole ? Math.floor(weight / 2) : weight / 2
    );  // how much of a line lies before its place

/**
 * Left edge and width of columns, or upper edge and height of rows, between the lines.
 * @returns {[number, number]}
 */
export function edges(look, from, end, first, cell, count) {
  const [one, other] =
      look.under ? [0, 0] : [weightOf(look, from, count), weightOf(look, end, count)];
  const begin = first + from * cell + one - before(look, one);
  return [begin, first + end * cell - before(look, other) - begin];
}

/** The lines of the part that is drawn; each fifth and the border lie over the others. */
export function drawRules(surface, look, frame) {
  const {x, y, cell, top, left, bottom, right} = frame;
  const [west, north, wide, high] =
      [x + left * cell, y + top * cell, (right - left + 1) * cell, (bottom - top + 1) * cell];
  for (const strong of look.thin ? [false, true] : [true]) {
    const ink = strong ? look.heavy : look.light;
    for (let col = left; col <= right + 1; col++) {
      const weight = weightOf(look, col, frame.columns);
      if (isHeavy(col, frame.columns) === strong)
        surface.rect(x + col * cell - before(look, weight), north, weight, high, ink);
    }
    for (let row = top; row <= bottom + 1; row++) {
      const weight = weightOf(look, row, frame.rows);
      if (isHeavy(row, frame.rows) === strong)
        surface.rect(west, y + row * cell - before(look, weight), wide, weight, ink);
    }
  }
}

// ---- cells

/** The sign of a colour in the middle of a cell. */
export const drawSign = (surface, look, at, {x, y, size, ink = look.inks[at]}) =>
    surface.text(look.signs[at], x, y, {size, ink, family: look.family, weight: 600});

/** The mark of a given cell. */
export const drawGiven = (surface, x, y, side) => surface.polygon(
    givenCorners(x, y, side),
    {fill: '#fff', edge: '#1a1a1a', weight: Math.max(side * 0.05, surface.pen ? 0.8 : 0)}
);

// ---- clues

const signOf = (look, letter) => (look.signs ? look.signs[LETTERS.indexOf(letter)] : '');
const blockText = (look, block) => `${block.length}${signOf(look, block.letter)}`;
const widthOf = (text, digit = DIGIT) => [...text].reduce(
    (sum, sign) => sum + (sign > 'z' || sign === 'm' ? SIGN : digit), 0
);  // by its size

/** How wide the frame of a box is, by its side. */
export const FRAME = 0.13;

// A chip of a colour. A very small one has no edge.
function drawChip(surface, look, at, {x, y, width, height}) {
  surface.chip(x, y, width, height, {
    fill: look.fills[at] ?? '#888',
    edge: look.isWhole && height <= 4 ? null : look.edge,
    weight: look.hair,
    radius: Math.min(look.radius, height / 4)
  });
}

// A box on paper: a frame of a colour around a tint of it, on which digits are black. A pale frame
// has an edge of its own.
function drawBox(surface, look, at, {x, y, width, height}) {
  const hair = look.edges[at] ? look.hair : 0;
  if (hair)
    surface.chip(x, y, width, height, {fill: look.fills[at], edge: look.edges[at], weight: hair});
  surface.chip(x + hair, y + hair, width - 2 * hair, height - 2 * hair, {
    fill: look.tints[at],
    edge: look.fills[at],
    weight: FRAME * Math.min(width, height)
  });
}

// The size of a text that is as wide as its box, within its frame or with its space.
function sizeOnPaper({style}, text, width) {
  const wide = widthOf(text, WIDE_DIGIT);
  return style === 'box' ? (width * (1 - 2 * FRAME)) / wide : width / (wide + SPACE);
}

/** The size of the text of a block in its box. */
export function textSize(look, block, {width, height}) {
  const text = blockText(look, block);
  const most = look.style === 'chip' ? width / widthOf(text) : sizeOnPaper(look, text, width);
  return Math.min(look.font, height, most);
}

/** One block of a clue in its box. */
export function drawBlock(surface, look, block, {x, y, width, height}) {
  const at = LETTERS.indexOf(block.letter);
  if (look.style === 'box')
    drawBox(surface, look, at, {x, y, width, height});
  else if (look.style === 'chip')
    drawChip(surface, look, at, {x, y, width, height});
  const text = blockText(look, block);
  const size = textSize(look, block, {width, height});
  if (size >= look.least)
    surface.text(text, x + width / 2, y + height / 2, {
      size: look.isWhole ? Math.floor(size) : size,
      ink: look.style === 'chip' ? look.inks[at] : look.ink,
      family: look.family,
      weight: look.weight
    });
}

// The clue of a line without a block.
function drawNone(surface, look, x, y, isCrossed = false) {
  if (look.font < look.least) return;
  surface.text('0', x, y, {size: look.font, ink: look.faint, family: look.family});
  const arm = look.font / 2;
  if (isCrossed) surface.line(x - arm, y + arm, x + arm, y - arm, look.ink, 1);
}

const sumOf = (lengths) => lengths.reduce((sum, length) => sum + length, 0);

/**
 * How long the blocks of a clue are drawn along their line, and whether some have no room. Where
 * they want more than there is, each gives up the same share of what its text can spare.
 */
export function lengthsIn(look, axis, blocks, {near, far, gap, sizeOf}) {
  const wanted = blocks.map((block) => sizeOf(block)[axis === 'r' ? 'width' : 'height']);
  const room = near - far - gap * (blocks.length - 1);
  const all = sumOf(wanted);
  if (all <= room) return {lengths: wanted, isCut: false};
  const least = blocks.map(
      (block, at) => Math.min(
          wanted[at],
          Math.ceil(look.least * (axis === 'r' ? widthOf(blockText(look, block)) : 1)) + 1
      )
  );
  const lowest = sumOf(least);
  if (lowest > room) return {lengths: least, isCut: true};
  const share = (room - lowest) / (all - lowest);
  return {
    lengths: wanted.map((length, at) => Math.floor(least[at] + (length - least[at]) * share)),
    isCut: false
  };
}

/**
 * The blocks of a clue, from its cells outward. `place`: `near` and `far`, between which they lie;
 * `middle` of the line's band; the `gap` between blocks; `sizeOf` a block; which are `crossed` off.
 * Where not all have room, a mark says so, some `unit`s before the far end.
 */
export function drawClue(surface, look, axis, blocks, place, drawOne = drawBlock) {
  const {near, far, middle, gap, sizeOf, crossed = null} = place;
  const across = axis === 'r';
  const whole = (value) => (look.isWhole ? Math.floor(value) : value);
  if (!blocks.length)
    return drawNone(
        surface,
        look,
        ...(across ? [near - look.font / 2, middle] : [middle, near - look.font / 2]),
        crossed?.[0]
    );
  const {lengths} = lengthsIn(look, axis, blocks, place);
  let edge = near;
  for (let at = blocks.length - 1; at >= 0; at--) {
    const length = lengths[at];
    const size = sizeOf(blocks[at]);
    const [width, height] = across ? [length, size.height] : [size.width, length];
    if (edge - length < far) return drawCut(surface, look, across, place);
    const box = across ? {x: edge - width, y: whole(middle - height / 2), width, height} :
                         {x: whole(middle - width / 2), y: edge - height, width, height};
    if (crossed?.[at])
      drawCrossed(surface, look, blocks[at], box, drawOne);
    else
      drawOne(surface, look, blocks[at], box);
    edge -= length + gap;
  }
  return undefined;
}

function drawCut(surface, look, across, {far, middle, unit}) {
  if (across)
    surface.rect(far - 6 * unit + 1, middle - unit, 4 * unit, 2 * unit, look.ink);
  else
    surface.rect(middle - unit, far - 6 * unit + 1, 2 * unit, 4 * unit, look.ink);
}

// A block that the marks of a solver cross off: fainter, with a line through it.
function drawCrossed(surface, look, block, box, drawOne) {
  surface.faded(0.5, () => drawOne(surface, look, block, box));
  surface.line(box.x + 2, box.y + box.height - 2, box.x + box.width - 2, box.y + 2, look.ink, 1);
}

/**
 * The corners of the mark of a given cell, clockwise from the top: a white diamond with a dark
 * edge, seen on every colour, also in Play and on paper.
 */
export function givenCorners(x, y, side) {
  const [middleX, middleY, half] = [x + side * 0.24, y + side * 0.24, Math.max(1.5, side * 0.17)];
  return [
    [middleX, middleY - half],
    [middleX + half, middleY],
    [middleX, middleY + half],
    [middleX - half, middleY]
  ];
}
