// What the menus Edit, Picture, View and Help have, with their keys.

import {fieldOf, make, say} from '../base/elements.js';
import {opening} from '../base/words.js';
import {LETTERS, MOST_CELLS, MOST_COLOURS} from '../document/limits.js';
import {outlineOf, placesOfBox, placesOfLetter, shadowOf} from '../document/regions.js';
import {boxInMargin, cutOut, resized, rowsOfText, shifted, turned} from '../document/shapes.js';
import {sheet} from '../draw/sheet.js';
import {MOST_STROKES, bench} from '../engine/bench.js';
import {phrase} from '../texts/phrase.js';
import {addAction} from './actions.js';
import {openDialog} from './dialogs.js';
import {cursor} from './grid.js';
import {goToNext} from './minimap.js';
import {LINE_TEXTS, showCell} from './panels.js';
import {zoomBy} from './pointer.js';
import {
  clearSelected,
  copyToClipboard,
  dropSelection,
  lift,
  moveFloat,
  pasteRows,
  selectPlaces,
  selectedPlaces,
  selection,
  setDown,
  showSelection,
  transform
} from './select.js';
import {
  dropDrag,
  forgetReason,
  heard,
  nextSymmetry,
  paintPlaces,
  sendStroke,
  tools,
  useAdding,
  useColour,
  useTool,
  whileOpen
} from './tools.js';

const FAR = 5;  // cells that a selection is moved by with Shift
const SHIFTS = [
  {key: 'ArrowUp', name: phrase('view.shiftUp'), down: -1},
  {key: 'ArrowDown', name: phrase('view.shiftDown'), down: 1},
  {key: 'ArrowLeft', name: phrase('view.shiftLeft'), across: -1},
  {key: 'ArrowRight', name: phrase('view.shiftRight'), across: 1}
];

async function undoStroke() {
  if (selection.rows) return void dropSelection();  // what floats is dropped by the first undo
  if (!(await whileOpen(heard(bench.undo())))) return;
  if (bench.isCut && !bench.past.length)
    say(phrase('view.undoEnds', {strokes: MOST_STROKES}));
  else if (bench.isTitled)
    say(phrase('view.undoneTitleStays'));
  bench.isTitled = false;
}

export function addEditActions() {
  addUndoActions();
  addSelectActions();
  addRegionActions();
  addAction({id: 'symmetry-next', name: phrase('view.nextSymmetry'), key: 'm', run: nextSymmetry});
  addAction({
    id: 'drop',
    name: phrase('view.cancel'),
    key: 'Escape',
    run: () => {
      dropDrag();
      if (!dropSelection()) forgetReason();
    }
  });
  addAction({
    id: 'set-down',
    name: phrase('view.place'),
    key: 'Enter',
    run: setDown,
    can: () => selection.rows !== null
  });
}

const hasBox = () => selection.box !== null;
const edit = (fields) => addAction({place: 'edit', ...fields});

function addUndoActions() {
  edit({
    id: 'undo',
    name: phrase('view.undo'),
    key: 'Ctrl+Z',
    run: undoStroke,
    can: () => bench.past.length > 0 || selection.rows !== null
  });
  edit({
    id: 'redo',
    name: phrase('view.redo'),
    key: 'Ctrl+Y Ctrl+Shift+Z',
    run: () => {
      setDown();
      heard(bench.redo());
    },
    can: () => bench.future.length > 0
  });
}

function addSelectActions() {
  edit({
    id: 'select-all',
    name: phrase('view.selectAll'),
    key: 'Ctrl+A',
    group: 'select',
    run: selectAll
  });
  edit({
    id: 'select-none',
    name: phrase('view.selectNothing'),
    group: 'select',
    run: () => {
      setDown();
      dropSelection();
    },
    can: hasBox
  });
  edit({
    id: 'copy',
    name: phrase('export.copy'),
    shown: 'Ctrl+C',
    group: 'select',
    run: () => copyToClipboard(false)
  });
  edit({
    id: 'cut',
    name: phrase('view.cut'),
    shown: 'Ctrl+X',
    group: 'select',
    run: () => copyToClipboard(true),
    can: hasBox
  });
  edit({id: 'paste', name: opening(phrase('view.pasteText')), group: 'select', run: pasteByDialog});
  edit({
    id: 'clear',
    name: phrase('view.clearSelection'),
    key: 'Delete Backspace',
    group: 'select',
    run: clearSelected,
    can: hasBox
  });
}

function addRegionActions() {
  edit({
    id: 'select-colour',
    name: phrase('view.selectAllCellsColour'),
    key: 'Shift+A A',
    group: 'region',
    run: selectColour
  });
  edit({
    id: 'wand-adds',
    name: phrase('view.wandAdds'),
    group: 'region',
    run: () => useAdding(!tools.adds),
    isOn: () => tools.adds
  });
  edit({
    id: 'fill-selection',
    name: phrase('view.fillSelection'),
    key: 'Shift+F F',
    group: 'region',
    run: () => onRegion((places) => places),
    can: hasBox
  });
  edit({
    id: 'outline',
    name: phrase('view.outlineColour'),
    group: 'region',
    run: () => onObject(outlineOf)
  });
  edit({
    id: 'shadow',
    name: phrase('view.shadowColour'),
    group: 'region',
    run: () => onObject(shadowOf)
  });
}

function selectColour() {
  setDown();
  selectPlaces(placesOfLetter(bench.seen().picture, tools.colour));
}

// Paints what a function makes of the places that are selected, in the chosen colour.
function onRegion(change) {
  setDown();
  return paintPlaces(
      change(
          selectedPlaces() ??
          placesOfBox(
              {top: 0, left: 0, bottom: bench.state.rows - 1, right: bench.state.columns - 1},
              bench.state.columns
          )
      ),
      tools.colour
  );
}

// Paints beside an object: the cells of a selected shape, or else those in the selection (in the
// picture) that are not background, and then on background alone.
function onObject(beside) {
  return onRegion((places) => {
    const doc = bench.seen();
    if (selection.shape) return beside(places, doc);
    const ground = placesOfLetter(doc.picture, '.');
    const object = new Set([...places].filter((place) => !ground.has(place)));
    return new Set([...beside(object, doc)].filter((place) => ground.has(place)));
  });
}

function selectAll() {
  useTool('select');
  setDown();
  Object.assign(selection, {
    box: {top: 0, left: 0, bottom: bench.state.rows - 1, right: bench.state.columns - 1},
    shape: null
  });
  showSelection();
}

async function pasteByDialog() {
  const field = make(
      'textarea',
      {rows: 8, cols: 40, 'aria-label': phrase('view.rowsLetters'), placeholder: '..aa..\n.abba.'}
  );
  const rows = () => rowsOfText(field.value, bench.state.colours.length);
  const done = await openDialog({
    title: phrase('view.pasteText'),
    content: make('div', {class: 'rows'}, make('p', {}, phrase('view.oneLineEachRow')), field),
    buttons: [{
      name: phrase('view.paste'),
      value: rows,
      main: true,
      test: () => (rows() ? '' : phrase('view.theseNotRowsLetters'))
    }],
  });
  if (done) pasteRows(done);
}

export function addPictureActions() {
  const add = (id, name, key, run, group, can = undefined) =>
      addAction({id, name, key, run, group, can, place: 'picture'});
  add('mirror-across',
      phrase('view.mirrorLeftRight'),
      'Ctrl+Alt+M',
      () => transform((doc) => turned(doc, 'across')),
      'turn');
  add('mirror-down',
      phrase('view.mirrorTopBottom'),
      'Ctrl+Alt+Shift+M',
      () => transform((doc) => turned(doc, 'down')),
      'turn');
  add('turn-right',
      phrase('view.turnRight'),
      'Ctrl+Alt+R',
      () => transform((doc) => turned(doc, 'right')),
      'turn');
  add('turn-left',
      phrase('view.turnLeft'),
      'Ctrl+Alt+Shift+R',
      () => transform((doc) => turned(doc, 'left')),
      'turn');
  for (const {key, name, down = 0, across = 0} of SHIFTS) {
    const id = `shift-${key.slice(5).toLowerCase()}`;
    add(id, name, `Alt+${key}`, () => shiftBy(down, across), 'shift');
    addAction({
      id: `${id}-far`,
      name: phrase('view.byCells', {action: name, cells: FAR}),
      key: `Alt+Shift+${key}`,
      run: () => shiftBy(down * FAR, across * FAR)
    });
  }
  add('resize', opening(phrase('view.resize')), 'Ctrl+Alt+S', resizeByDialog, 'size');
  add('trim',
      phrase('import.trimMargin'),
      null,
      trim,
      'size',
      () => boxInMargin(bench.state.picture) !== null);
  for (const word of ['row', 'column']) {
    const at = () => (word === 'row' ? cursor.row : cursor.col) + 1;
    const edit = (id, name, line) => add(`${id}-${word}`, name, null, () => {
      setDown();
      sendStroke([line()]);
    }, 'lines');
    edit('insert', LINE_TEXTS[word].before, () => `insert ${word} ${at()}`);
    edit('append', LINE_TEXTS[word].after, () => `insert ${word} ${at() + 1}`);
    edit('delete', LINE_TEXTS[word].gone, () => `delete ${word} ${at()}`);
  }
}

// What floats is moved; a selection begins to float; without one all cells move round.
function shiftBy(down, across) {
  if (!selection.box) return transform((doc) => shifted(doc, down, across));
  lift();
  moveFloat(down, across);
  return showSelection();
}

function trim() {
  setDown();
  heard(bench.become((doc) => {
    const box = boxInMargin(doc.picture);
    return box && cutOut(doc, box);
  }));
}

async function resizeByDialog() {
  setDown();
  const doc = bench.seen();
  const field = (value) => make('input', {type: 'number', min: 1, max: MOST_CELLS, value});
  const [columns, rows] = [field(doc.columns), field(doc.rows)];
  const [heights, sides] = [
    [phrase('view.atTop'), phrase('view.middle'), phrase('view.atBottom')],
    [phrase('view.atLeft'), phrase('view.middle'), phrase('view.atRight')]
  ];
  const places = heights.flatMap(
      (height, down) => sides.map(
          (side, across) =>
              ({name: height === side ? side : `${height} ${side}`, d: down / 2, a: across / 2})
      )
  );
  const anchor = make(
      'div',
      {class: 'anchor', role: 'radiogroup', 'aria-label': phrase('view.wherePictureStays')},
      ...places.map((place, at) => make('input', {
                      type: 'radio',
                      name: 'anchor',
                      value: at,
                      'aria-label': place.name,
                      checked: at === 0
                    }))
  );
  const isSize = (input) =>
      /^[0-9]+$/.test(input.value) && Number(input.value) >= 1 && Number(input.value) <= MOST_CELLS;
  const chosen = () => places[Number(anchor.querySelector(':checked').value)];
  const done = await whileOpen(openDialog({
    title: phrase('view.resize'),
    content: make(
        'div',
        {class: 'rows'},
        fieldOf(phrase('view.columns'), columns),
        fieldOf(phrase('view.rows'), rows),
        make('p', {}, phrase('view.keepPicture')),
        anchor
    ),
    buttons: [{
      name: phrase('view.resize'),
      main: true,
      value: () => ({columns: Number(columns.value), rows: Number(rows.value), ...chosen()}),
      test: () =>
          (isSize(columns) && isSize(rows) ? '' : phrase('view.bothSizes', {most: MOST_CELLS}))
    }],
  }));
  if (!done || (done.rows === doc.rows && done.columns === doc.columns)) return;
  heard(bench.become((now) => resized(now, done.rows, done.columns, {down: done.d, across: done.a}))
  );
}

export function addViewActions() {
  const view = (fields) => addAction({place: 'view', ...fields});
  view({id: 'zoom-in', name: phrase('view.larger'), key: '+ =', run: () => zoomBy(1)});
  view({id: 'zoom-out', name: phrase('view.smaller'), key: '-', run: () => zoomBy(-1)});
  view({id: 'fit', name: phrase('view.fit'), key: 'z', run: () => sheet.fit()});
  view({
    id: 'bare',
    name: phrase('view.pictureOnly'),
    key: 'Shift+P P',
    run: () => sheet.turnBare(),
    isOn: () => sheet.geometry.isBare
  });
  view({
    id: 'letters',
    name: phrase('view.lettersCellsClues'),
    key: 'Ctrl+L',
    group: 'show',
    run: () => {
      sheet.geometry.letters = !sheet.geometry.letters;
      sheet.resized();
      showCell();
    }
  });
  for (const scheme of ['light', 'dark', '']) {
    view({
      id: `scheme-${scheme || 'system'}`,
      name: {
        light: phrase('view.light'),
        dark: phrase('view.dark'),
        '': phrase('view.lightDarkLikeSystem')
      }[scheme],
      needs: false,
      group: 'scheme',
      isOn: () => (document.documentElement.dataset.scheme ?? '') === scheme,
      run: () => {
        document.documentElement.dataset.scheme = scheme;
        if (sheet.state) sheet.redrawAll();
      }
    });
  }
  view({
    id: 'next',
    name: phrase('view.nextDifferingOpenCell'),
    key: 'n',
    group: 'go',
    run: goToNextCell
  });
  view({
    id: 'next-open',
    name: phrase('view.nextOpenCell'),
    key: 'Shift+N N',
    group: 'go',
    run: () => goToNext((row, col) => bench.state.map[row][col] === '?', phrase('view.noCellOpen'))
  });
}

// A differing cell where there is another picture; else an open one.
function goToNextCell() {
  const {verdict, picture, map} = bench.state;
  if (verdict.other)
    return goToNext(
        (row, col) => verdict.other[row][col] !== picture[row][col], phrase('view.noCellDiffers')
    );
  return goToNext((row, col) => map[row][col] === '?', phrase('view.noCellOpen'));
}

/** The actions that choose a colour. The first ten have keys of their own. */
export function addColourActions() {
  for (let at = 0; at < MOST_COLOURS; at++) {
    addAction({
      id: `colour-${at}`,
      name: phrase('view.colour', {at}),
      key: at < 10 ? String(at) : null,
      run: () => useColour(LETTERS[at])
    });
  }
  addAction({id: 'colour-next', name: phrase('view.nextColour'), key: ']', run: () => stepColour(1)}
  );
  addAction({
    id: 'colour-before',
    name: phrase('view.previousColour'),
    key: '[',
    run: () => stepColour(-1)
  });
  addAction({
    id: 'take-colour',
    name: phrase('view.pickColour'),
    key: 'i',
    run: () => useColour(sheet.letterAt(cursor.row, cursor.col))
  });
}

function stepColour(by) {
  const count = bench.state.colours.length;
  useColour(LETTERS[(LETTERS.indexOf(tools.colour) + by + count) % count]);
}
