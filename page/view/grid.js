// The cell that the keyboard is at: a grid of one cell for screen readers, arrows that move and
// draw, and the clues of the lines that are pointed at, whole, where the strips show them in part.

import {make} from '../base/elements.js';
import {on, tell} from '../base/events.js';
import {capital, clamp, lineName} from '../base/words.js';
import {MOST_CELLS} from '../document/limits.js';
import {sheet} from '../draw/sheet.js';
import {bench} from '../engine/bench.js';
import {phrase} from '../texts/phrase.js';
import {colourText, dress, wordOf} from './dress.js';
import {fillClue} from './panels.js';
import {space} from './pointer.js';
import {selection, setDown} from './select.js';
import {alongDrag, beginDrag, endDrag, tools} from './tools.js';

export const cursor = {
  row: 0,
  col: 0
};
const gridCells = [0, 1].map((at) => make('div', {
                               role: 'gridcell',
                               class: 'cell',
                               tabindex: at ? '-1' : '0',
                               'aria-describedby': 'row-clue column-clue'
                             }));
const grid = make(
    'div',
    {id: 'grid', role: 'grid', 'aria-label': phrase('view.picture')},
    ...gridCells.map((cell) => make('div', {role: 'row'}, cell))
);
const wholes = {
  r: make('div', {class: 'whole clue', hidden: true}),
  c: make('div', {class: 'whole clue', hidden: true}),
  at: null
};
const wholesBox = make('div', {id: 'wholes', 'aria-hidden': 'true'}, wholes.r, wholes.c);
export const gridCell = () => gridCells[0];

/** The clue of a line as chips behind a name. */
export function clueInto(element, name, blocks) {
  const chips = blocks.map((block) => {
    const chip = make(
        'span', {class: 'chip'}, `${block.length}${sheet.geometry.letters ? block.letter : ''}`
    );
    dress(chip, block.letter);
    return chip;
  });
  element.replaceChildren(make('b', {}, name), ...chips, ...(blocks.length ? [] : ['0']));
  element.setAttribute(
      'aria-label',
      `${name}: ${
          blocks.map((block) => `${block.length} ${wordOf(block.letter)}`).join(', ') ||
          phrase('view.emptyClue')}`
  );
}

/** What is known of a cell, in words. */
export function cellText(row, col) {
  const {state} = bench;
  const index = row * state.columns + col;
  const rival = sheet.rivalAt(row, col);
  return [
    phrase(
        'view.rowColumn',
        {row: row + 1, col: col + 1, letterAt: colourText(sheet.letterAt(row, col))}
    ),
    sheet.isOpen(row, col) ?
        (state.verdict.word === 'unique' ? phrase('view.needsGuessing') : phrase('view.open')) :
        phrase('view.settled'),
    ...(state.givens.has(index) ? [phrase('view.given')] : []),
    ...(state.locks.has(index) ? [phrase('view.locked')] : []),
    ...(rival ?
            [sheet.other ? phrase('view.yourPicture', {colour: colourText(rival)}) :
                           phrase('view.otherPicture', {colour: colourText(rival)})] :
            []),
  ].join('; ');
}

/**
 * Moves the cursor; with `focus` the keyboard's focus goes along, to the other of two cells, so
 * that each move is read out.
 */
export function moveCursor(row, col, focus = false) {
  const {state} = bench;
  Object.assign(
      cursor, {row: clamp(row, 0, state.rows - 1), col: clamp(col, 0, state.columns - 1)}
  );
  if (focus) {
    gridCells.reverse();
    sheet.reveal(cursor.row, cursor.col);
  }
  labelCursor();
  tell('cursor', {...cursor});
  if (!focus) return;
  gridCells[0].tabIndex = 0;
  gridCells[0].parentElement.hidden = false;
  gridCells[0].focus({preventScroll: true});
  gridCells[1].tabIndex = -1;
  gridCells[1].parentElement.hidden = true;
}

function labelCursor() {
  const {state} = bench;
  if (!state) return;
  const [cell, {row, col}] = [gridCells[0], cursor];
  grid.setAttribute('aria-rowcount', state.rows);
  grid.setAttribute('aria-colcount', state.columns);
  cell.setAttribute('aria-label', cellText(row, col));
  cell.setAttribute('aria-colindex', col + 1);
  cell.parentElement.setAttribute('aria-rowindex', row + 1);
  sheet.placeCursor();
}

// The clues of two lines stand whole beside them where the strips do not show them so.
function showWholes(at) {
  const {geometry} = sheet;
  if (at && (at.row >= geometry.rows || at.col >= geometry.columns)) at = null;
  wholes.at = at;
  wholesBox.classList.toggle('apart', geometry.isFolded);
  wholesBox.classList.toggle('high', at !== null && geometry.y(at.row) > geometry.height / 2);
  for (const [axis, line] of [['r', at?.row], ['c', at?.col]]) {
    const box = wholes[axis];
    box.hidden = at === null || !sheet.state || at.part === (axis === 'r' ? 'column' : 'row') ||
        !sheet.strips.isCut(sheet, axis, line);
    if (box.hidden) continue;
    fillClue(
        box,
        capital(lineName(axis === 'r', line)),
        sheet.clues[axis === 'r' ? 'rows' : 'columns'][line]
    );
    Object.assign(
        box.style,
        geometry.isFolded ? {transform: '', maxWidth: ''} : besideLine(axis, line, at.col)
    );
  }
}

// The place of a clue beside its line, the pointer being at a column. Folded, clues stand apart:
// below the picture or above it.
function besideLine(axis, line, col) {
  const {geometry} = sheet;
  const [x, y, width, height] =
      [geometry.x(axis === 'r' ? col : line), geometry.y(line), geometry.width, geometry.height]
          .map((length) => length / geometry.scale);
  const [left, top] =
      axis === 'r' ? [4, clamp(y - 6, 4, height - 40)] : [clamp(x - 40, 4, width - 260), 4];
  return {
    transform: `translate(${left}px, ${top}px)`,
    maxWidth: axis === 'r' ? `${Math.max(150, x - 30)}px` : '250px'
  };
}

const STEPS = {
  ArrowUp: [-1, 0],
  ArrowDown: [1, 0],
  ArrowLeft: [0, -1],
  ArrowRight: [0, 1],
  PageUp: [-10, 0],
  PageDown: [10, 0],
  Home: [0, -MOST_CELLS],
  End: [0, MOST_CELLS]
};
const DRAWING = new Set(['pencil', 'pin', 'lock', 'line', 'rectangle', 'box', 'select']);

function gridKey(event) {
  if (!bench.state || event.altKey || event.metaKey) return;
  const step = STEPS[event.key];
  if (step) {
    event.preventDefault();
    const far = event.ctrlKey ? MOST_CELLS : 1;
    const isCorner = event.ctrlKey && (event.key === 'Home' || event.key === 'End');
    if (event.shiftKey && DRAWING.has(tools.name) && !tools.drag) beginDrag({...cursor});
    moveCursor(cursor.row + (isCorner ? step[1] : step[0]) * far, cursor.col + step[1] * far, true);
    if (tools.drag) alongDrag({...cursor});
    return;
  }
  if (event.ctrlKey || (event.key !== ' ' && event.key !== 'Enter')) return;
  event.preventDefault();
  if (event.key === ' ') return;  // at its end: held down it pans
  event.stopPropagation();
  if (selection.rows && !tools.drag)
    setDown();
  else
    useAtCursor(event.shiftKey);
}

// The tool at the cursor: a dot, or the beginning or end of a shape.
function useAtCursor(adds = false) {
  if (tools.drag) return void endDrag();
  beginDrag({...cursor}, adds);
  if (tools.drag && ['pencil', 'pin', 'lock'].includes(tools.name)) endDrag();
}

function gridKeyUp(event) {
  if (event.key === 'Shift' && tools.drag) endDrag();
  if (event.key === ' ' && !space.pans && bench.state) useAtCursor();
}

/** Puts the grid over the sheet and hears its keys. */
export function makeGrid() {
  sheet.view.append(grid, wholesBox);
  gridCells[1].parentElement.hidden = true;
  sheet.placeCursor = () => sheet.place(gridCells[0], cursor.row, cursor.col);
  grid.addEventListener('keydown', gridKey);
  grid.addEventListener('keyup', gridKeyUp);
  on('shown', () => {
    moveCursor(cursor.row, cursor.col);
    if (wholes.at) showWholes(wholes.at);  // with the clues of now
  });
  on('judged', labelCursor);
  on('pointed', showWholes);
  on('moved', () => showWholes(tools.drag || sheet.dragged ? wholes.at : null));
}
