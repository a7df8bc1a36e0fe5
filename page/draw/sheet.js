// The sheet: cells, clues, marks over them, and what the pointer is at. Three canvases and one for
// marks stay as they are; what has changed is drawn there. Beside them stands a grid of one cell
// for the keyboard and for screen readers.

import {$, make} from '../base/elements.js';
import {on, tell} from '../base/events.js';
import {eightBits} from '../document/colours.js';
import {docOf} from '../document/document.js';
import {LETTERS} from '../document/limits.js';
import {bench} from '../engine/bench.js';
import {coloursOf, linesOn} from './board.js';
import {Cells, GIVEN, HATCHED, LOCKED, RIVAL} from './cells.js';
import {Geometry} from './geometry.js';
import {drawMarks} from './marks.js';
import {Strips} from './strips.js';

const NO_CHANGES = {
  rows: new Set(),
  columns: new Set()
};

class Sheet {
  cellCanvas;
  rowCanvas;
  columnCanvas;
  marks;
  placeCursor = () => {};  // the grid's, once it is there

  constructor(stage) {
    this.stage = stage;
    const canvas = (name) => make('canvas', {class: name, 'aria-hidden': 'true'});
    [this.cellCanvas, this.rowCanvas, this.columnCanvas, this.marks] =
        ['cells', 'row-clues', 'column-clues', 'marks'].map(canvas);
    this.view = make(
        'div', {class: 'view'}, this.cellCanvas, this.rowCanvas, this.columnCanvas, this.marks
    );
    stage.append(this.view);
    this.geometry = new Geometry();
    this.cells = new Cells(this.cellCanvas);
    this.strips = new Strips(this.rowCanvas, this.columnCanvas);
    this.state = null;         // as reported
    this.doc = null;           // as drawn: with the strokes that wait
    this.overlay = new Map();  // cells of a stroke that is being made: place to letter
    this.hatching = 'open';    // 'off', 'differing' or 'open'
    this.other = false;        // whether the other picture is shown
    this.reason = null;
    this.dragged = null;  // a line that is dragged: {axis, word, from, to}
    this.boxes = [];      // rectangles over the cells: {top, left, bottom, right, shape}
    this.places = [];     // where line solving stalls: groups of cells, by their places
    this.turns = [];      // what can turn: groups of cells, by their places
    this.framed = [];     // the places of cells that a proposal changes, while it is shown
    // Places where painting would cost something: to 'breaks' or 'undecided'.
    this.warned = new Map();
    this.symmetry = 'none';  // of the pens, as document/symmetry.js has it
    this.underlay = null;    // an image to trace
    this.frame = 0;
    this.wanted = {all: false, cells: false, marks: false};
    this.inks = {};
    this.look = null;  // how the board is drawn, once it is
    new ResizeObserver(() => this.resized()).observe(stage);
    matchMedia('(prefers-color-scheme: dark)').addEventListener('change', () => this.redrawAll());
  }

  // ---- what is shown

  /** Takes a new state; draws at once what has changed. */
  show(state) {
    const before = this.state;
    const isOther = !before || before.rows !== state.rows || before.columns !== state.columns ||
        before.colours.join(';') !== state.colours.join(';') || before.maxval !== state.maxval;
    const marked = this.state?.changed ?? NO_CHANGES;
    this.state = state;
    this.clues = state.clues;
    if (!state.verdict.other) this.other = false;
    this.update();
    Object.assign(this.geometry, {rows: state.rows, columns: state.columns});
    this.geometry.measure(state.clues, isOther ? null : state.changed);
    if (isOther) {
      this.places = [];
      this.geometry.refit(!before || this.geometry.isFitted || this.geometry.isFolded);
      return this.drawAll();
    }
    if (this.geometry.grow()) return this.drawAll();
    this.cells.drawChanged(this);
    this.strips.drawSome(
        this,
        new Set([...marked.rows, ...state.changed.rows]),
        new Set([...marked.columns, ...state.changed.columns])
    );
    this.drawMarks();
  }

  /** A verdict alone: cells are drawn again where they look otherwise. */
  judge(state) {
    this.state = state;
    if (!state.verdict.other) this.other = false;
    this.redraw();
  }

  // The document with the strokes that wait, where it has the size of the state.
  update() {
    const doc = bench.state ? bench.seen() : null;
    this.doc = doc && doc.rows === this.state.rows && doc.columns === this.state.columns ?
        doc :
        docOf(this.state);
    this.isAhead = this.doc.picture.some((row, at) => row !== this.state.picture[at]);
  }

  letterAt(row, col) {
    const {verdict} = this.state;
    if (this.other && verdict.other) return verdict.other[row][col];
    return this.overlay.get(row * this.state.columns + col) ?? this.doc.picture[row][col];
  }

  isOpen(row, col) {
    return this.state.map[row][col] === '?' &&
        this.letterAt(row, col) ===
        (this.other && this.state.verdict.other ? this.state.verdict.other : this.state.picture
        )[row][col];
  }

  /** The letter in the picture that is not shown, where it is another one. */
  rivalAt(row, col) {
    const {picture, verdict} = this.state;
    if (!verdict.other || this.isAhead || this.overlay.size ||
        verdict.other[row][col] === picture[row][col])
      return null;
    return this.other ? picture[row][col] : verdict.other[row][col];
  }

  /** How a cell looks, as a number. */
  lookOf(row, col) {
    let look = Math.max(0, LETTERS.indexOf(this.letterAt(row, col)));
    if (this.geometry.isBare) return look;
    if (this.hatching === 'open' && this.isOpen(row, col)) look |= HATCHED;
    if (this.hatching !== 'off' || this.other) {
      const rival = this.rivalAt(row, col);
      if (rival !== null) look |= RIVAL | (LETTERS.indexOf(rival) << 9);
    }
    const place = row * this.state.columns + col;
    if (this.doc.givens.has(place)) look |= GIVEN;
    return this.doc.locks.has(place) ? look | LOCKED : look;
  }

  isChanged(axis, at) {
    return this.state.changed[axis === 'r' ? 'rows' : 'columns'].has(at);
  }

  /** Marks a line that is dragged and the one that it is over; null takes that away. */
  markDragged(line) {
    const lines = {r: new Set(), c: new Set()};
    for (const one of [this.dragged, line])
      if (one)
        for (const at of [one.from, one.to]) lines[one.axis].add(at);
    this.dragged = line;
    this.strips.drawSome(this, lines.r, lines.c);
  }

  isMarked(axis, at) {
    const {dragged, reason} = this;
    return (dragged?.axis === axis && (dragged.from === at || dragged.to === at)) ||
        (reason?.word === 'by' && reason.axis === axis && reason.at === at + 1);
  }

  /** Shows letters in cells before a stroke is made; null takes them away. */
  preview(cells) {
    const places = new Set([...this.overlay.keys(), ...(cells?.keys() ?? [])]);
    const hadRivals = this.overlay.size === 0 && this.state.verdict.other;
    this.overlay = cells ?? new Map();
    if (hadRivals || (!this.overlay.size && this.state.verdict.other))
      this.cells.drawChanged(this);
    else
      this.cells.drawSome(this, places);
    this.underlay?.ask();
  }

  // ---- drawing

  resized() {
    const scale = devicePixelRatio || 1;
    const [width, height] = [this.stage.clientWidth, this.stage.clientHeight];
    if (!width || !height) return;
    this.geometry.resize(width, height, scale);
    for (const canvas of [this.cellCanvas, this.marks])
      [canvas.width, canvas.height] = [this.geometry.width, this.geometry.height];
    if (!this.state) return;
    this.geometry.refit();
    this.drawAll();
  }

  readInks() {
    const style = getComputedStyle(this.stage);
    for (const name of ['paper', 'rule', 'ink', 'faint', 'accent', 'alarm'])
      this.inks[name] = style.getPropertyValue(`--${name}`).trim() || '#888';
    this.family = style.fontFamily;
  }

  /** The part of the picture that is seen, as the renderer takes it. */
  boardFrame() {
    const {geometry: at} = this;
    return {
      x: at.x(0),
      y: at.y(0),
      cell: at.cell,
      rows: at.rows,
      columns: at.columns,
      ...at.seen()
    };
  }

  // How all is drawn at this size: where cells are small, no line hides them, and clues have no
  // digits.
  lookNow() {
    const {geometry: at, inks, doc} = this;
    const wide = at.isBare || at.cell < 2 ? 0 : at.cell < 14 * at.scale ? 1 : 2;
    const {ink, faint} = inks;
    return {
      ...coloursOf(doc),
      signs: at.letters && !at.isBare ? LETTERS : null,
      family: this.family,
      thin: at.isBare || at.cell < 6 * at.scale ? 0 : 1,
      wide,
      border: wide,
      isWhole: true,
      ...linesOn(eightBits(doc.colours[0], doc.maxval)),
      ink,
      faint,
      style: 'chip',
      edge: 'rgb(128 130 134 / 55%)',
      hair: 1,
      radius: 4 * at.scale,
      font: at.font,
      least: at.cell < 7 * at.scale ? Infinity : 6 * at.scale,
    };
  }

  redraw() {
    this.ask('cells');
  }

  redrawAll() {
    this.ask('all');
  }

  ask(what) {
    this.wanted[what] = true;
    if (this.frame || !this.state) return;
    this.frame = requestAnimationFrame(() => {
      this.frame = 0;
      if (this.wanted.all)
        this.drawAll();
      else {
        if (this.wanted.cells) this.cells.drawChanged(this);
        this.drawMarks();
      }
      this.wanted = {all: false, cells: false, marks: false};
    });
  }

  drawAll() {
    const {geometry: at} = this;
    if (!at.width || !this.state) return;
    this.readInks();
    const size = (canvas, width, height) => {
      if (canvas.width !== width || canvas.height !== height)
        [canvas.width, canvas.height] = [width, height];
      [canvas.style.width, canvas.style.height] =
          [`${width / at.scale}px`, `${height / at.scale}px`];
    };
    size(this.cellCanvas, at.width, at.height);
    size(this.marks, at.width, at.height);
    size(this.rowCanvas, at.originX, at.height);
    size(this.columnCanvas, at.width, at.originY);
    this.look = this.lookNow();
    this.cells.drawAll(this);
    this.strips.drawAll(this);
    this.drawMarks();
    tell('moved', at);
  }

  drawMarks() {
    const pen = this.marks.getContext('2d');
    pen.clearRect(0, 0, this.marks.width, this.marks.height);
    drawMarks(pen, this);
    this.underlay?.ask();
    this.placeCursor();
  }

  /** Places an element over a rectangle of cells, in pixels of the page. */
  place(element, top, left, bottom = top, right = left) {
    const {geometry: at} = this;
    element.style.transform = `translate(${at.x(left) / at.scale}px, ${at.y(top) / at.scale}px)`;
    element.style.width = `${((right - left + 1) * at.cell) / at.scale}px`;
    element.style.height = `${((bottom - top + 1) * at.cell) / at.scale}px`;
  }

  /** What lies under a pointer. */
  under(event) {
    const box = this.view.getBoundingClientRect();
    return this.geometry.at(
        (event.clientX - box.left) * this.geometry.scale,
        (event.clientY - box.top) * this.geometry.scale
    );
  }

  /**
   * Whether a pointer is outside the room of the cells: a drag that goes on there moves the
   * picture.
   */
  isBeyond(event) {
    const {geometry: at} = this;
    const box = this.view.getBoundingClientRect();
    const [x, y] = [(event.clientX - box.left) * at.scale, (event.clientY - box.top) * at.scale];
    return x < at.originX || y < at.originY || x > at.width || y > at.height;
  }

  /** Hides grid and clues, or shows them again. */
  turnBare() {
    this.geometry.isBare = !this.geometry.isBare;
    this.geometry.refit();
    this.redrawAll();
  }

  /** Shows the whole picture. */
  fit() {
    this.geometry.fit();
    this.redrawAll();
  }

  /** Scrolls until a cell is seen. */
  reveal(row, col) {
    if (this.geometry.reveal(row, col)) this.drawAll();
  }
}

/** The sheet of the page, once it is made. */
export let sheet = null;

/** Makes the sheet and draws what the bench tells. */
export function startSheet() {
  sheet = new Sheet($('stage'));
  on('opened', () => {
    $('work').hidden = false;
    Object.assign(sheet, {
      state: null,
      overlay: new Map(),
      boxes: [],
      places: [],
      reason: null,
      other: false,
      held: null
    });
    sheet.resized();
  });
  on('shown', (state) => {
    sheet.show(state);
    sheet.stage.dataset.drawn = Number(sheet.stage.dataset.drawn ?? 0) + 1;
  });
  on('judged', (state) => sheet.judge(state));
  on('stroke', () => {
    sheet.update();
    sheet.redraw();
  });
}
