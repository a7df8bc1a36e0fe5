// Tools: what a drag over the cells does. While it is made its cells are shown; at its end it is
// sent as one stroke.

import {say} from '../base/elements.js';
import {tell} from '../base/events.js';
import {coverOf} from '../document/cover.js';
import {placeOf} from '../document/document.js';
import {LETTERS, MOST_CELLS, MOST_COLOURS} from '../document/limits.js';
import {boxCells, boxOf, bucketCells, lineCells} from '../document/shapes.js';
import {SYMMETRIES, cellsWith, isPossible} from '../document/symmetry.js';
import {sheet} from '../draw/sheet.js';
import {bench} from '../engine/bench.js';
import {phrase} from '../texts/phrase.js';
import {
  alongSelect,
  beginSelect,
  endSelect,
  isSelected,
  selectPlaces,
  selectedPlaces,
  selectionBoxes,
  setDown
} from './select.js';

export const TOOLS = {
  pencil: {name: phrase('view.pencil'), key: 'p', hint: phrase('view.dragPaintRightButton')},
  line: {name: phrase('view.line'), key: 'l', hint: phrase('view.dragFromEndEnd')},
  rectangle: {name: phrase('view.rectangle'), key: 'r', hint: phrase('view.outlineHint')},
  box: {name: phrase('view.filledRectangle'), key: 'f', hint: phrase('view.filledHint')},
  bucket: {name: phrase('view.bucket'), key: 'b', hint: phrase('view.fillsConnectedCellsOne')},
  recolour: {name: phrase('view.recolour'), key: 'e', hint: phrase('view.turnsAllCellsColour')},
  wand: {name: phrase('view.wand'), key: 'a', hint: phrase('view.selectsConnectedCellsOne')},
  select: {name: phrase('view.select'), key: 's', hint: phrase('view.dragSelectRectangleDrag')},
  pin: {name: phrase('view.giveCells'), key: 'g', hint: phrase('view.givenCellsPrintedPuzzle')},
  lock: {name: phrase('view.lockCells'), key: 'k', hint: phrase('view.noRepairChangesLocked')},
  why: {name: phrase('view.why'), key: 'w', hint: phrase('view.pointCellSeeWhy')},
};

export const tools = {
  name: 'pencil',
  colour: 'a',
  drag: null,
  symmetry: 'none',
  adds: false,  // whether the wand adds to what is selected
  last: null,   // the cell that was painted last, in which open document
  /** @type {(places: Set<number>, letter: string) => Promise<any> | null} */
  guard: () => null  // paints places in place of a stroke, where it does
};

/** Has the pens draw symmetric. */
export function useSymmetry(symmetry) {
  tools.symmetry = sheet.symmetry = symmetry;
  if (bench.state && !isPossible(symmetry, bench.state))
    say(phrase('view.quarterTurnsNeedPicture'), 'alarm');
  if (sheet.state) sheet.drawMarks();
  tell('symmetry', symmetry);
}

export const nextSymmetry = () =>
    useSymmetry(SYMMETRIES[(SYMMETRIES.indexOf(tools.symmetry) + 1) % SYMMETRIES.length]);

/**
 * Takes the wand, which adds to what is selected from now on, or no longer: for fingers, which
 * have no Shift.
 */
export function useAdding(adds) {
  tools.adds = adds;
  useTool('wand');
}

// Cells with those that a symmetric pen draws together with them.
const withImages = (cells) =>
    (tools.symmetry === 'none' ?
         cells :
         cells.flatMap((cell) => cellsWith(cell, sheet.doc, tools.symmetry)));

/** Chooses a tool. */
export function useTool(name) {
  dropDrag();
  if (tools.name === 'select' && name !== 'select') setDown();
  tools.name = name;
  if (name !== 'why') forgetReason();
  tell('tool', name);
}

/** Chooses a colour. */
export function useColour(letter) {
  if (!bench.state || LETTERS.indexOf(letter) < 0 ||
      LETTERS.indexOf(letter) >= bench.state.colours.length)
    return;
  tools.colour = letter;
  tell('colour', letter);
}

export function forgetReason() {
  if (!sheet.reason) return;
  sheet.reason = null;
  sheet.redrawAll();
  tell('reason', null);
}

const indexAt = ({row, col}) => row * bench.state.columns + col;

// The set of places that a tool marks or takes marks from.
const MARKS = {
  pin: 'givens',
  lock: 'locks'
};

// The cell from which a pen goes on in a straight line; null where there is none in this picture.
function lastPainted() {
  const {last} = tools;
  const {rows, columns} = sheet.doc;
  return last?.term === bench.term && last.row < rows && last.col < columns ? last : null;
}

/**
 * Begins a drag at a cell; `adds` has a selection grow, and the pencil draw a line from the cell
 * that was painted last.
 */
export function beginDrag(at, adds = false) {
  if (!bench.state) return;
  if (sheet.other) return say(phrase('view.otherPictureGoBack'), 'alarm');
  tell('begun', tools.name);
  if (tools.name === 'why') return tell('asked', {...at, letter: tools.colour});
  if (tools.name === 'select') return beginSelect(at);
  if (tools.name === 'wand') return wandAt(at, adds || tools.adds);
  if (tools.name === 'bucket')
    return paintCells(withImages([at]).flatMap((cell) => bucketCells(sheet.doc.picture, cell)));
  if (tools.name === 'recolour') return recolourAt(at);
  const marks = MARKS[tools.name];
  const isLine = adds && tools.name === 'pencil';
  tools.drag = {
    tool: tools.name,
    from: at,
    to: (isLine && lastPainted()) || at,
    letter: tools.colour,
    touched: new Set(),
    gives: marks !== undefined && !sheet.doc[marks].has(indexAt(at))
  };
  alongDrag(at);
}

/** Goes on to another cell. */
export function alongDrag(at) {
  const {drag} = tools;
  if (!drag) return;
  if (drag.tool === 'select') return alongSelect(at);
  if (drag.tool === 'pencil' || MARKS[drag.tool])
    for (const cell of withImages(lineCells(drag.to, at))) drag.touched.add(indexAt(cell));
  else
    drag.touched = new Set(withImages(cellsOfShape(drag.tool, drag.from, at)).map(indexAt));
  drag.to = at;
  if (MARKS[drag.tool]) {
    sheet.boxes = [...drag.touched].map((index) => {
      const [row, col] = [Math.floor(index / bench.state.columns), index % bench.state.columns];
      return {top: row, left: col, bottom: row, right: col};
    });
    sheet.drawMarks();
  } else
    sheet.preview(new Map([...drag.touched].map((index) => [index, drag.letter])));
}

const cellsOfShape = (tool, from, to) =>
    (tool === 'line' ? lineCells(from, to) : boxCells(boxOf(from, to), tool === 'rectangle'));

/** Ends a drag and sends its stroke. */
export function endDrag() {
  const {drag} = tools;
  if (!drag) return;
  if (drag.tool === 'select') return endSelect();
  tools.drag = null;
  if (MARKS[drag.tool]) return endMarks(drag);
  tools.last = {row: drag.to.row, col: drag.to.col, term: bench.term};
  const done = paintPlaces(drag.touched, drag.letter);
  sheet.overlay = new Map();
  sheet.update();
  sheet.redraw();
  return done;
}

// Gives or locks the cells of a drag, or takes that back.
function endMarks({tool, gives, touched}) {
  sheet.boxes = selectionBoxes();
  const places = [...touched].sort((a, b) => a - b);
  if (tool === 'pin')
    return sendStroke(
        (doc) => places.filter(
                           (place) => doc.givens.has(place) !== gives
        ).map((place) => `${gives ? 'pin' : 'unpin'} ${placeOf(doc, place)}`)
    );
  setDown();
  return heard(bench.become((doc) => ({
                              ...doc,
                              locks: new Set(
                                  gives ? [...doc.locks, ...places] :
                                          [...doc.locks].filter((place) => !touched.has(place))
                              )
                            })));
}

/** Drops what was begun. */
export function dropDrag() {
  if (!tools.drag) return;
  tools.drag = null;
  sheet.boxes = selectionBoxes();
  sheet.preview(null);
  sheet.drawMarks();
}

const paintCells = (cells, letter = tools.colour) =>
    paintPlaces(new Set(cells.map(indexAt)), letter);

/** Places in one colour, or those of them that a guard lets through. */
export const paintPlaces = (places, letter) =>
    tools.guard(places, letter) ?? sendPlaces(places, letter);

/** Places in one colour, shown until it is answered. */
export function sendPlaces(places, letter) {
  return sendStroke(
      (doc) => coverOf(places, doc.picture, letter),
      new Map([...places].map((place) => [place, letter]))
  );
}

// Selects the connected cells of one colour, beside what is selected where it `adds`.
function wandAt(at, adds) {
  const cells = bucketCells(sheet.doc.picture, at).map(indexAt);
  setDown();
  selectPlaces(new Set([...(adds ? selectedPlaces() ?? [] : []), ...cells]));
}

function recolourAt(at) {
  const letter = tools.colour;
  if (isSelected(at)) {
    setDown();
    const {picture, columns} = bench.seen();
    const source = picture[at.row][at.col];
    return paintPlaces(
        new Set([...selectedPlaces()].filter(
            (place) => picture[Math.floor(place / columns)][place % columns] === source
        )),
        letter
    );
  }
  const sourceIn = (picture) => picture[at.row]?.[at.col] ?? letter;
  return sendStroke(
      ({picture}) =>
          (sourceIn(picture) === letter ? [] : [`recolour ${sourceIn(picture)} ${letter}`])
  );
}

const MEANINGS = {
  Place: phrase('view.liesOutsidePicture'),
  Colour: phrase('view.paletteNoSuchColour'),
  TooLarge: phrase('view.thereLinesAlreadyMost', {most: MOST_CELLS}),
  LastLine: phrase('view.onlyLine'),
  PaletteFull: phrase('view.paletteColoursAlready', {most: MOST_COLOURS}),
  DuplicateColour: phrase('view.paletteColourAlready'),
  Background: phrase('view.backgroundKeepsColour'),
  SampleOver: phrase('view.colourTooBrightPicture'),
  UndoEmpty: phrase('view.thereNothingUndo'),
  RedoEmpty: phrase('view.thereNothingRedo'),
  Memory: phrase('view.memoryRanOut'),
  TwoColoursOnly: phrase('view.nonPuzzleOneColour'),
  LongLine: phrase('view.tooLong'),
  BadNumber: phrase('view.numberWrong'),
  BadColour: phrase('view.colourWrong'),
};

/** What a refusal says to the user. */
const meaningOf = (name) => MEANINGS[name] ?? phrase('view.refused');

/**
 * Sends a stroke, on what floated too; tells what was refused. `lines` and `cells` are as the bench
 * has them. A stroke that changes nothing is not sent and not told.
 */
export async function sendStroke(lines, cells = null) {
  forgetReason();
  setDown();
  return heard(bench.stroke(lines, cells));
}

/** Waits for answers; tells the first refusal but that nothing would change. */
export async function heard(promise) {
  try {
    const answers = await promise;
    const refused =
        answers.filter((answer) => answer.kind === 'refused' && answer.name !== 'NoChange');
    if (refused.length) say(phrase('view.notDone', {meaning: meaningOf(refused[0].name)}), 'alarm');
    return refused.length === 0;
  } catch (fault) {
    say(phrase('view.notDoneEngineFailed', {text: fault.text ?? fault.message}), 'alarm');
    return false;
  }
}

/** What is waited for; null, reported, where another picture than now is open by then. */
export async function whileOpen(promise) {
  const {term} = bench;
  const value = await promise;
  if (value === null || bench.term === term) return value;
  say(phrase('export.otherPictureOpened'), 'alarm');
  return null;
}

/**
 * Sets down what floats and waits for strokes that are not answered yet: what is seen is what goes
 * out. What it gives to `work`, the state and its name, stays together whatever opens later. Null
 * where another picture is open by then.
 */
export async function asSeen(work = (seen) => seen) {
  setDown();
  if (await whileOpen(bench.rest().then(() => true)) === null) return null;
  return work({state: bench.state, name: bench.name, term: bench.term});
}
