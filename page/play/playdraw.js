// What Play draws: the marks on the field, and the clues beside it with what is crossed off. The
// clues stay in view where they leave room enough.

import {$} from '../base/elements.js';
import {clamp} from '../base/words.js';
import {eightBits} from '../document/colours.js';
import {LETTERS} from '../document/limits.js';
import {coloursTooNear} from '../document/near.js';
import {
  coloursOf,
  drawClue,
  drawGiven,
  drawRules,
  edges,
  linesOn,
  wholeFrame
} from '../draw/board.js';
import {Sprites} from '../draw/sprites.js';
import {CanvasSurface} from '../draw/surface.js';
import {phrase} from '../texts/phrase.js';
import {inkName, wordOf} from '../view/dress.js';
import {crossedOff} from './crossing.js';
import {play, playColumn} from './play.js';
import {drawShown} from './shown.js';
import {isWalking} from './walking.js';


// The clues as they were drawn last: by axis how, and by line which blocks are crossed off.
/** @type {any} */
const strips = {
  sprites: new Sprites(),
  drawn: new Map(),
  r: null,
  c: null
};

const PLAY_SIDES = [8, 10, 12, 14, 16, 18, 20, 24, 28, 32, 40, 48, 56, 64];
const [LEAST_FIT, MOST_FIT] = [14, 64];  // a puzzle that fits by no such side is scrolled

const playFont = () => clamp(Math.round(play.side * 0.58), 8, 17);
const playChip = (block) =>
    Math.max(playFont() * 1.25, String(block.length).length * playFont() * 0.62 + 7);

// Sizes of the strips of clues, in the page's pixels.
function playStrips() {
  const {clues} = play.state;
  const wide = Math.max(
      24, ...clues.rows.map((blocks) => blocks.reduce((sum, block) => sum + playChip(block) + 2, 8))
  );
  const high = Math.max(20, ...clues.columns.map((blocks) => blocks.length * (playFont() + 5) + 8));
  return {wide: Math.ceil(wide), high: Math.ceil(high)};
}

/** Makes the puzzle as large as it has room, and draws it, if nobody else does. */
export function fitPlay(isDrawn = true) {
  const {offsetWidth, offsetHeight} = $('play-board');
  const {rows, columns} = play.state;
  const fits = (side) => {
    play.side = side;
    const {wide, high} = playStrips();
    return wide + side * columns + 2 <= offsetWidth && high + side * rows + 2 <= offsetHeight;
  };
  let side = Math.min(MOST_FIT, Math.floor(offsetWidth / columns), Math.floor(offsetHeight / rows));
  while (side >= LEAST_FIT && !fits(side)) side--;
  Object.assign(
      play, {side: side < LEAST_FIT ? 16 : side, room: [offsetWidth, offsetHeight], isZoomed: false}
  );
  if (isDrawn) drawPlay();
}

/**
 * Fits the puzzle again where its room is another one. A size that its user has chosen stays as
 * long as the width does.
 */
export function refitPlay(isDrawn = true) {
  const board = $('play-board');
  if (!board?.offsetWidth ||
      (board.offsetWidth === play.room[0] && (play.isZoomed || board.offsetHeight === play.room[1])
      ))
    return;
  fitPlay(isDrawn);
}

const boxOf = (id) => $(id).getBoundingClientRect();

// The middle of the board, in the window.
function middleOfBoard() {
  const {left, top, width, height} = boxOf('play-board');
  return [left + width / 2, top + height / 2];
}

/**
 * Takes the next larger or smaller cells. What lies at a point of the window stays there, as far
 * as the board can be moved.
 */
export function zoomPlay(way, [x, y] = middleOfBoard()) {
  const before = boxOf('play-field');
  const [col, row] = [(x - before.left) / play.side, (y - before.top) / play.side];
  const next = way > 0 ? PLAY_SIDES.find((side) => side > play.side) :
                         PLAY_SIDES.findLast((side) => side < play.side);
  Object.assign(play, {side: next ?? play.side, isZoomed: true});
  drawPlay();
  const after = boxOf('play-field');
  $('play-board').scrollBy(after.left + col * play.side - x, after.top + row * play.side - y);
}

// A canvas of a size in the page's pixels, sharp on the screen, as a surface.
function playSurface(id, wide, high) {
  const canvas = $(id);
  const scale = devicePixelRatio || 1;
  canvas.width = Math.round(wide * scale);
  canvas.height = Math.round(high * scale);
  canvas.style.width = `${wide}px`;
  canvas.style.height = `${high}px`;
  const pen = canvas.getContext('2d');
  pen.scale(scale, scale);
  return new CanvasSurface(pen);
}

const playFrame = () => wholeFrame(1, 1, play.side, play.state);
const fieldSize = () => [play.side * play.state.columns + 2, play.side * play.state.rows + 2];

/** @returns {any} */
function playLook() {
  const style = getComputedStyle($('play-room'));
  const blank =
      (style.backgroundColor.match(/[0-9.]+/g) ?? [255, 255, 255]).slice(0, 3).map(Number);
  const ink = (name) => style.getPropertyValue(`--${name}`).trim() || '#888';
  const wide = play.side > 10 ? 2 : 1;
  return {
    ...coloursOf(play.state),
    signs: null,
    family: style.fontFamily,
    thin: 1,
    wide,
    border: wide,
    isWhole: true,
    under: false,
    ...linesOn(blank),
    ink: style.color,
    faint: ink('faint'),
    style: 'chip',
    edge: 'rgb(128 128 128 / 60%)',
    hair: 1,
    radius: 3,
    font: playFont(),
    least: 6,
    weight: 600,
    blank,
    alarm: ink('alarm'),
    here: ink('accent'),
  };
}

export function drawPlay() {
  const {wide, high} = playStrips();
  const [across, down] = fieldSize();
  const board = $('play-board');
  board.style.gridTemplate = `${high}px ${down}px / ${wide}px ${across}px`;
  board.dataset.stays = wide < board.clientWidth * 0.5 && high < board.clientHeight * 0.5;
  playSurface('play-corner', wide, high);
  drawPlayField();
  const look = playLook();
  const {x, y, cell} = playFrame();
  const height = Math.min(playFont() + 4, cell - 1);
  const left = playSurface('play-left', wide, down);
  const top = playSurface('play-top', across, high);
  const rowSize = (block) => ({width: playChip(block), height});
  const columnSize = (block) =>
      ({width: Math.min(playChip(block), cell - 1), height: playFont() + 4});
  const scale = devicePixelRatio || 1;
  strips.sprites.keepFor([cell, scale, look.font, look.faint, ...look.fills].join());
  const common = {look, far: -Infinity, unit: 1, cell, drawOne: strips.sprites.drawer(scale)};
  strips.r = {
    ...common,
    surface: left,
    near: wide - 6,
    gap: 2,
    from: y,
    sizeOf: rowSize,
    band: (at) => [0, y + at * cell, wide, cell]
  };
  strips.c = {
    ...common,
    surface: top,
    near: high - 5,
    gap: 1,
    from: x,
    sizeOf: columnSize,
    band: (at) => [x + at * cell, 0, cell, high]
  };
  strips.drawn.clear();
  drawPlayClues();
}

// Draws the clues of lines whose crossings have changed since they were drawn.
function drawPlayClues() {
  const {clues} = play.state;
  clues.rows.forEach((blocks, row) => drawPlayClue('r', row, blocks, play.marks[row]));
  clues.columns.forEach((blocks, col) => drawPlayClue('c', col, blocks, playColumn(col)));
}

function drawPlayClue(axis, at, blocks, cells) {
  const crossed = crossedOff(blocks, cells);
  const [key, seen] = [`${axis}${at}`, crossed.join()];
  if (strips.drawn.get(key) === seen) return;
  strips.drawn.set(key, seen);
  const {surface, look, drawOne, from, cell, band, ...place} = strips[axis];
  surface.pen.clearRect(...band(at));
  drawClue(
      surface, look, axis, blocks, {...place, middle: from + (at + 0.5) * cell, crossed}, drawOne
  );
}

/** Draws what a stroke has changed. */
export function drawStroke() {
  drawPlayField();
  drawPlayClues();
}

function drawPlayField() {
  const {state, side} = play;
  const look = playLook();
  const surface = playSurface('play-field', ...fieldSize());
  const frame = playFrame();
  // what is solved is a picture: without signs of marks, and without the cursor of a pointer
  const isPlain = play.isSolved && !isWalking();
  surface.rect(0, 0, ...fieldSize(), `rgb(${look.blank.join(' ')})`);
  drawRules(surface, look, frame);
  play.marks.forEach((row, at) => {
    const [y, high] = edges(look, at, at + 1, frame.y, side, state.rows);
    if (play.heat) return;  // on empty cells
    row.forEach((mark, col) => {
      const [x, wide] = edges(look, col, col + 1, frame.x, side, state.columns);
      drawPlayCell(surface, look, {
        mark: isPlain && mark === '?' ? '.' : mark,
        isPlain,
        index: at * state.columns + col,
        x,
        y,
        wide,
        high
      });
    });
  });
  const {pen} = surface;
  drawShown(pen, look);
  if (isPlain && !pen.canvas.matches(':focus-visible')) return;
  pen.strokeStyle = look.here;
  pen.lineWidth = 2.5;
  pen.strokeRect(frame.x + play.at.col * side, frame.y + play.at.row * side, side, side);
}

// A mark in its colour; background is a cross. Unless `isPlain`, a colour that hardly differs from
// an empty cell has an edge.
function drawPlayMark(surface, look, {mark, isPlain, x, y, wide, high}) {
  const {colours, maxval} = play.state;
  const at = LETTERS.indexOf(mark);
  if (mark === '.' && !isPlain) return drawCross(surface, look, x + wide / 2, y + high / 2, high);
  surface.rect(x, y, wide, high, look.fills[at]);
  if (isPlain || !coloursTooNear(eightBits(colours[at], maxval), look.blank)) return undefined;
  return surface.chip(x, y, wide, high, {fill: look.fills[at], edge: look.heavy, weight: 1});
}

function drawCross(surface, look, x, y, side) {
  const arm = Math.max(1.5, side * 0.15);
  for (const way of [-1, 1])
    surface.line(
        x - arm, y - way * arm, x + arm, y + way * arm, look.faint, Math.max(1, side * 0.06)
    );
}

function drawPlayCell(surface, look, cell) {
  const {mark, isPlain, index, x, y, wide, high} = cell;
  if (mark !== '?') drawPlayMark(surface, look, cell);
  if (!isPlain && play.state.givens.has(index)) drawGiven(surface, x, y, high);
  if (!play.wrong.has(index)) return;
  for (const [ink, breadth] of [['#fff', 4], [look.alarm, 2]]) {
    surface.line(x + 3, y + 3, x + wide - 3, y + high - 3, ink, breadth);
    surface.line(x + wide - 3, y + 3, x + 3, y + high - 3, ink, breadth);
  }
}

const playClueText = (blocks) =>
    blocks.map((block) => `${block.length} ${inkName(play.state, block.letter)}`).join(', ') ||
    phrase('view.emptyClue');

/** Takes the cursor to a cell; `isSaid`: it is said to those who hear the page. */
export function movePlay(at, isSaid = false) {
  play.at = at;
  drawPlayField();
  if (!isSaid) return;
  const mark = play.marks[at.row][at.col];
  const {clues} = play.state;
  const place = phrase('view.rowColumn', {
    row: at.row + 1,
    col: at.col + 1,
    letterAt: mark === '?' ? phrase('play.noMark') : wordOf(mark)
  });
  $('play-cell').textContent = phrase('play.cellClues', {
    place,
    playClue: playClueText(clues.rows[at.row]),
    playClue2: playClueText(clues.columns[at.col])
  });
  const board = $('play-board').getBoundingClientRect();
  const field = $('play-field').getBoundingClientRect();
  const {wide, high} = playStrips();
  const [x, y] = [field.left + at.col * play.side, field.top + at.row * play.side];
  const [west, north] = $('play-board').dataset.stays === 'true' ?
      [board.left + wide, board.top + high] :
      [board.left, board.top];
  const over = (from, least, most) =>
      (from < least ? from - least : Math.max(0, from + play.side - most));
  $('play-board').scrollBy(over(x, west, board.right), over(y, north, board.bottom));
}
