// The cover of a book of puzzles, as a sheet: its title, its author, and a board with a cell for
// each puzzle, the darker the harder it is. Nothing here asks the document of the browser.

import {GRADES, gradeName, gradeRank} from '../base/names.js';
import {PAPER_FAMILY, PAPER_INK} from '../draw/papers.js';
import {SvgSurface} from '../draw/surface.js';
import {phrase} from '../texts/phrase.js';
import {linesOf, sizeOfSheet} from './sheets.js';

const FAINT = '#555';
const MOST_CELL = 28;                   // millimetres
const [LIGHTEST, DARKEST] = [228, 48];  // greys of the easiest and of the hardest puzzles

// The grey of a grade, or paper where it is not known.
function fillOf(grade) {
  const at = gradeRank(grade);
  if (at < 0) return '#fff';
  const grey = Math.round(LIGHTEST + ((DARKEST - LIGHTEST) * at) / (GRADES - 1));
  return `rgb(${grey},${grey},${grey})`;
}

// A board with a cell for each puzzle, in the middle of a room.
function drawGrades(surface, puzzles, {x, y, width, height}) {
  const columns = Math.ceil(Math.sqrt((puzzles.length * width) / height));
  const rows = Math.ceil(puzzles.length / columns);
  const cell = Math.min(MOST_CELL, width / columns, height / rows);
  const [left, top] = [x + (width - columns * cell) / 2, y + (height - rows * cell) / 2];
  for (const [at, {grade}] of puzzles.entries())
    surface.chip(left + (at % columns) * cell, top + Math.floor(at / columns) * cell, cell, cell, {
      fill: fillOf(grade),
      edge: PAPER_INK,
      weight: cell / 24
    });
}

/** How many puzzles there are, and of which grades. */
function factsOfBook(puzzles) {
  const places = puzzles.map(({grade}) => gradeRank(grade)).filter((at) => at >= 0);
  const count = phrase('import.puzzles', {puzzles: puzzles.length});
  if (!places.length) return count;
  const nameAt = (at) => gradeName(puzzles.find(({grade}) => gradeRank(grade) === at).grade);
  const [from, to] = [Math.min(...places), Math.max(...places)].map(nameAt);
  return `${count}, ${from === to ? from : phrase('export.gradesFromTo', {from, to})}`;
}

/** The cover of puzzles in the order of their book, as makersOf makes a sheet. */
export function coverSheet(puzzles, {title, author}, options) {
  const {width, height, margin} = sizeOfSheet(options);
  const surface = new SvgSurface();
  surface.rect(0, 0, width, height, '#fff');
  const size = Math.min(14, width / 14);
  const writeCentred = (text, y, more) =>
      surface.text(text, width / 2, y, {ink: PAPER_INK, family: PAPER_FAMILY, ...more});
  const lines = linesOf(title, {width: width - 2 * margin, size: size * 1.1});
  lines.forEach(
      (line, at) => writeCentred(line, margin + size * (1 + at * 1.3), {size, weight: 700})
  );
  const top = margin + size * (1 + lines.length * 1.3);
  const foot = size * 2;
  drawGrades(
      surface,
      puzzles,
      {x: margin, y: top, width: width - 2 * margin, height: height - margin - foot - top}
  );
  writeCentred(factsOfBook(puzzles), height - margin - size, {size: size * 0.4, ink: FAINT});
  if (author) writeCentred(author, height - margin - size * 0.3, {size: size * 0.4, weight: 600});
  const svg = surface.drawing(
      width, height, {family: PAPER_FAMILY, size: {width: `${width}mm`, height: `${height}mm`}}
  );
  return {svg, width, height, cell: null};
}
