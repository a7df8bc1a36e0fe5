// Sheets for print: puzzles laid out on paper, one or several a sheet, a large one over several,
// and their solutions at the end. Each sheet is one SVG drawing, as a text, in millimetres. Nothing
// here asks the document of the browser.

import {PAPER_FAMILY, PAPER_INK, drawPaper, sizeOfPaper} from '../draw/papers.js';
import {SvgSurface} from '../draw/surface.js';

/** Sizes of paper: width and height in millimetres. */
export const PAPERS = {
  a4: [210, 297],
  a5: [148, 210],
  letter: [215.9, 279.4],
  book: [152.4, 228.6]
};
/**
 * How many puzzles one sheet may have: columns and rows of them.
 * @type {Record<number, [number, number]>}
 */
export const GRIDS = {
  1: [1, 1],
  2: [1, 2],
  4: [2, 2],
  6: [2, 3]
};
/** From more rows or columns on a puzzle goes over several sheets. */
const MOST_LINES = 60;
/** How many sheets are printed, or saved, at once. */
export const MOST_SHEETS = 300;

const MOST_CELL = 12;  // millimetres
const ANSWER_CELL = 5;
const GAP = 8;       // between puzzles of a sheet
const FOOT = 6;      // for the number of a sheet
const DIGIT = 0.56;  // the mean width of a sign by its size
const FAINT = '#555';

// ---- texts

/** A text in lines of at most a width; what does not fit into the last one is left out. */
export function linesOf(text, {width, size, most = 3}) {
  const letters = Math.max(4, Math.floor(width / (size * DIGIT)));
  const lines = [''];
  for (const word of text.split(/\s+/).filter(Boolean)) {
    const longer = lines.at(-1) ? `${lines.at(-1)} ${word}` : word;
    if (longer.length <= letters)
      lines[lines.length - 1] = longer;
    else if (lines.at(-1))
      lines.push(word);
    else
      lines[lines.length - 1] = word;
  }
  const cut = (line) => (line.length > letters ? `${line.slice(0, letters - 1)}…` : line);
  return lines.length > most ? [...lines.slice(0, most - 1).map(cut), cut(`${lines[most - 1]} …`)] :
                               lines.filter(Boolean).map(cut);
}

// Writes lines one below the other; answers where the next one would stand.
function write(surface, lines, {x, y, size, ink = PAPER_INK, weight = 400}) {
  let at = y;
  for (const line of lines) {
    surface.text(
        line, x, at + size * 0.6, {size, ink, family: PAPER_FAMILY, weight, anchor: 'start'}
    );
    at += size * 1.3;
  }
  return at;
}

// ---- a puzzle in its box

// The names of colours below a puzzle: rows of items that fit. An item is {text, fill, sign}.
function legendRows(items, width, size) {
  const rows = [[]];
  let used = 0;
  for (const item of items) {
    const length = (item.text.length * DIGIT + (item.sign ? 4.1 : 3)) * size;
    if (used + length > width && rows.at(-1).length) {
      rows.push([]);
      used = 0;
    }
    rows.at(-1).push({...item, x: used});
    used += length;
  }
  return rows.filter((row) => row.length);
}

function drawLegend(surface, rows, {x, y, size}) {
  rows.forEach((row, at) => row.forEach((item) => {
    const top = y + at * size * 1.5;
    const left = x + item.x + (item.sign ? size * 1.1 : 0);
    if (item.sign)
      surface.text(
          item.sign,
          x + item.x + size * 0.45,
          top + size * 0.5,
          {size, ink: PAPER_INK, family: PAPER_FAMILY, weight: 600}
      );
    surface.chip(
        left, top, size * 0.9, size * 0.9, {fill: item.fill, edge: FAINT, weight: size * 0.05}
    );
    surface.text(
        item.text,
        left + size * 1.2,
        top + size * 0.5,
        {size, ink: PAPER_INK, family: PAPER_FAMILY, anchor: 'start'}
    );
  }));
}

// One puzzle, or its solution, in a box: title, facts, the puzzle as large as it may be, and the
// legend.
function drawEntry(surface, entry, box, {show, solution = false, scale = 1, most = MOST_CELL}) {
  const [big, small] = [5 * scale, 3.2 * scale];
  const head = linesOf(entry.head, {width: box.width, size: big * 1.05, most: 2});
  let top = write(surface, head, {x: box.x, y: box.y, size: big, weight: 700});
  if (!solution)
    top = write(
        surface,
        linesOf(entry.facts, {width: box.width, size: small}),
        {x: box.x, y: top, size: small, ink: FAINT}
    );
  const legend = solution ? [] : legendRows(entry.legend, box.width, small);
  const foot = legend.length * small * 1.5 + (legend.length ? 3 : 0);
  top += 2;
  const size = sizeOfPaper(entry, {hasClues: !solution});
  const cell =
      Math.min(most, box.width / size.width, (box.y + box.height - top - foot) / size.height);
  drawPaper(surface, entry, {x: box.x, y: top, cell, show, solution, hasClues: !solution});
  drawLegend(surface, legend, {x: box.x, y: top + size.height * cell + 2, size: small});
  return cell;
}

// ---- sheets

// The boxes of a sheet, one a puzzle.
function boxesOf({width, height, margin}, grid) {
  const [across, down] = grid;
  const wide = (width - 2 * margin - (across - 1) * GAP) / across;
  const high = (height - 2 * margin - FOOT - (down - 1) * GAP) / down;
  return Array.from({length: across * down}, (_, at) => ({
                                               x: margin + (at % across) * (wide + GAP),
                                               y: margin + Math.floor(at / across) * (high + GAP),
                                               width: wide,
                                               height: high
                                             }));
}

const groupsOf = (list, most) => Array.from(
    {length: Math.ceil(list.length / most)}, (_, at) => list.slice(at * most, (at + 1) * most)
);

/** Whether a puzzle goes over several sheets. */
export const isLarge = ({doc}) => doc.rows > MOST_LINES || doc.columns > MOST_LINES;

// Equal parts of some lines, each begun at a fifth one.
function cutsOf(count) {
  const length = Math.ceil(count / Math.ceil(count / MOST_LINES) / 5) * 5;
  return Array.from(
      {length: Math.ceil(count / length)},
      (_, at) => [at * length, Math.min(count, (at + 1) * length) - 1]
  );
}

/** The parts of a large puzzle, row by row. */
export const partsOf = ({rows, columns}) => cutsOf(rows
).flatMap(([top, bottom]) => cutsOf(columns).map(([left, right]) => ({top, bottom, left, right})));

// Where each part of a puzzle lies, small; the one of this sheet is filled.
function drawMap(surface, parts, at, {x, y, side}) {
  const last = parts.at(-1);
  const unit = side / Math.max(last.bottom + 1, last.right + 1);
  parts.forEach(({top, left, bottom, right}, one) => {
    const [wide, high] = [(right - left + 1) * unit, (bottom - top + 1) * unit];
    surface.chip(x + left * unit, y + top * unit, wide, high, {
      fill: one === at ? '#ccc' : '#fff',
      edge: PAPER_INK,
      weight: 0.25
    });
    surface.text(
        String(one + 1),
        x + left * unit + wide / 2,
        y + top * unit + high / 2,
        {size: Math.min(wide, high) * 0.5, ink: PAPER_INK, family: PAPER_FAMILY}
    );
  });
}

// The sheets of one large puzzle: all with cells of one size, and each with a map of the sheets.
function largeSheets(entry, page, {show, texts}) {
  const parts = partsOf(entry.doc);
  const [box] = boxesOf(page, [1, 1]);
  const [head, side, small] = [24, 20, 3.2];
  const layOut = () => {
    const legend = legendRows(entry.legend, box.width, small);
    const free = box.height - head - legend.length * small * 1.5 - 3;
    const sizes = parts.map((part) => sizeOfPaper(entry, {part, hasNumbers: true}));
    return {
      legend,
      sizes,
      cell: Math.min(
          MOST_CELL, ...sizes.map((size) => Math.min(box.width / size.width, free / size.height))
      )
    };
  };
  let laid = null;  // as soon as one is drawn
  return parts.map((part, at) => (surface) => {
    const {legend, sizes, cell} = (laid ??= layOut());
    const width = box.width - side - 4;
    let top = write(
        surface,
        linesOf(entry.head, {width, size: 5.2, most: 2}),
        {x: box.x, y: box.y, size: 5, weight: 700}
    );
    if (at === 0)
      top = write(
          surface,
          linesOf(entry.facts, {width, size: small, most: 1}),
          {x: box.x, y: top, size: small, ink: FAINT}
      );
    write(
        surface,
        linesOf(texts.part({at: at + 1, count: parts.length, ...part}), {width, size: small}),
        {x: box.x, y: top, size: small, ink: FAINT}
    );
    drawMap(surface, parts, at, {x: box.x + box.width - side, y: box.y, side});
    drawPaper(surface, entry, {x: box.x, y: box.y + head, cell, show, part, hasNumbers: true});
    if (at === 0)
      drawLegend(
          surface, legend, {x: box.x, y: box.y + head + sizes[at].height * cell + 2, size: small}
      );
    return cell;
  });
}

// A sheet of some puzzles, which has room for them.
function puzzleSheet(entries, page, {perSheet, show}) {
  const boxes = boxesOf(page, GRIDS[perSheet]);
  const scale = perSheet === 1 ? 1 : 0.8;
  return (surface) => Math.min(
             ...entries.map((entry, at) => drawEntry(surface, entry, boxes[at], {show, scale}))
         );
}

// All solutions, small, in the order of the puzzles.
function answerSheets(entries, page, {show, texts}) {
  const grid = entries.length === 1 ? GRIDS[1] : entries.length <= 4 ? GRIDS[4] : GRIDS[6];
  const boxes = boxesOf(page, grid);
  const titled = (entry) => ({...entry, head: texts.solution(entry)});
  const most = entries.length === 1 ? MOST_CELL : ANSWER_CELL;
  return groupsOf(entries, boxes.length).map((group) => (surface) => {
    group.forEach(
        (entry, at) =>
            drawEntry(surface, titled(entry), boxes[at], {show, solution: true, scale: 0.8, most})
    );
    return null;
  });
}

/** The size of a sheet, and its margin, in millimetres. */
export function sizeOfSheet({paper, isWide, margin}) {
  const [narrow, long] = PAPERS[paper];
  const [width, height] = isWide ? [long, narrow] : [narrow, long];
  return {width, height, margin};
}

/**
 * What makes the sheets of puzzles, a call for each: `{svg, width, height, cell}` in millimetres;
 * `cell` is its smallest cell, null for solutions. An entry is {doc, clues, title, number, head,
 * facts, legend}; until a sheet is made its `doc` is enough. `options`: `paper`, one of PAPERS;
 * `isWide` for landscape; `margin` in millimetres; `perSheet`, one of GRIDS; `show`, 'colours',
 * 'letters' or 'signs'; `answers`, whether solutions follow; `texts` makes the texts of `part` of a
 * large puzzle, of a `solution` and of the `foot` of a sheet.
 */
export function makersOf(entries, options) {
  const page = sizeOfSheet(options);
  const {width, height} = page;
  const groups = [];  // of what is on a sheet, or one large puzzle
  for (const entry of entries) {
    const last = groups.at(-1);
    if (last && last.length < options.perSheet && ![entry, last[0]].some(isLarge))
      last.push(entry);
    else
      groups.push([entry]);
  }
  const draws = groups.flatMap(
      (group) =>
          (isLarge(group[0]) ? largeSheets(group[0], page, options) :
                               puzzleSheet(group, page, options))
  );
  if (options.answers) draws.push(...answerSheets(entries, page, options));
  return draws.map((draw, at) => () => {
    const surface = new SvgSurface();
    surface.rect(0, 0, width, height, '#fff');
    const cell = draw(surface);
    if (draws.length > 1)
      surface.text(
          options.texts.foot(at + 1, draws.length),
          width / 2,
          height - page.margin - 1.5,
          {size: 3, ink: FAINT}
      );
    return {
      svg: surface.drawing(
          width, height, {family: PAPER_FAMILY, size: {width: `${width}mm`, height: `${height}mm`}}
      ),
      width,
      height,
      cell
    };
  });
}
