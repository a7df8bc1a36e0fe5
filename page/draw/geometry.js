// Where cells and clues lie: the size of a cell, how far the picture is moved, and how much room
// clues take. All lengths are pixels of the screen (not of the page), so that lines fall on whole
// pixels. Where a picture does not fit beside its clues, Fit folds these to edges.

import {clamp} from '../base/words.js';

const SMALLEST = 3;  // a cell's side in the page's pixels
const LARGEST = 64;
const MARGIN = 16;  // the page's pixels at the right of a picture that is fitted
const TIGHT = 6;    // below it, and where its clues are folded
// blocks of a clue for which a picture that is fitted has room, however short its clues and lines
// are
const FEW = 4;
// the page's pixels around the blocks of a clue: some more than the strips leave free
const AROUND = 14;
const EDGES = {
  left: 23,
  top: 17
};  // the page's pixels of clues that are folded: room for the numbers of lines

export class Geometry {
  constructor() {
    this.scale = 1;  // pixels of the screen for one of the page
    this.width = this.height = 0;
    this.rows = this.columns = 1;
    this.cell = 16;
    this.left = this.top = 40;  // room for the clues
    this.panX = this.panY = 0;  // how far the picture is moved to the left and up
    this.slack = {x: 0, y: 0};  // free room at the left and above the clues
    this.isFitted = true;
    this.isFolded = false;  // whether clues are edges with numbers of lines alone
    this.isBare = false;    // whether the picture is shown without grid and clues
    this.letters = false;
    this.rowSizes = [];  // of each clue: {signs, blocks}, measured once it changes
    this.columnSizes = [];
  }

  measure(clues, changed = null) {
    const sizes = (blocks) => ({
      blocks: blocks.length,
      signs: blocks.reduce(
          (sum, block) => sum +
              (block.length > 99    ? 3 :
                   block.length > 9 ? 2 :
                                      1),
          0
      )
    });
    if (!changed) {
      this.rowSizes = clues.rows.map(sizes);
      this.columnSizes = clues.columns.map(sizes);
      return;
    }
    for (const row of changed.rows) this.rowSizes[row] = sizes(clues.rows[row]);
    for (const col of changed.columns) this.columnSizes[col] = sizes(clues.columns[col]);
  }

  // The text of clues for a cell of this size.
  fontFor(cell) {
    const side = cell / this.scale;
    return Math.round(clamp(Math.floor(side * 0.6), 7, 15) * this.scale);
  }

  pitchFor(cell) {
    const font = this.fontFor(cell);
    return Math.round(
        cell < 10 * this.scale ? Math.max(cell, font + 1) :
                                 font + (cell < 18 * this.scale ? 2 : 5) * this.scale
    );
  }

  chipWidth(signs, font) {
    return Math.round((signs + (this.letters ? 1 : 0)) * font * 0.62 + font / 2);
  }

  // How much room all clues want with a cell of this size, at most a part of what there is. `spare`
  // blocks more may come, and where they may, a quarter of what a line has cells: drawn narrower,
  // clues of twice as many blocks have room there.
  margins(cell, spare = 1) {
    if (this.isBare) return this.edges();
    const font = this.fontFor(cell);
    const isTiny = cell < 7 * this.scale;
    const tick = 4 * this.scale;
    const one = (size) =>
        (isTiny ? size.blocks * (tick + 2) :
                  size.signs * font * 0.62 +
                 size.blocks * ((this.letters ? 0.62 : 0) * font + font / 2 + 2.5)
        );  // a block's width is rounded
    const few = (length) =>
        (spare ? Math.max(Math.min(FEW, Math.ceil(length / 2)), Math.ceil(length / 4) + 1) : 0);
    const [block, across, down] = [one({blocks: 1, signs: 1}), few(this.columns), few(this.rows)];
    const most = Math.max(across * block, Math.max(0, ...this.rowSizes.map(one)) + spare * block);
    const tall =
        Math.max(down, Math.max(0, ...this.columnSizes.map((size) => size.blocks)) + spare) *
        ((isTiny ? tick : this.pitchFor(cell)) + 1);
    const bound = isTiny ? 0.2 : this.width < 600 * this.scale ? 0.28 : 0.34;
    return {
      left: Math.ceil(clamp(most + AROUND * this.scale, 26 * this.scale, this.width * bound)),
      top: Math.ceil(clamp(tall + AROUND * this.scale, 22 * this.scale, this.height * bound)),
    };
  }

  // The smallest cell beside whole strips of clues.
  get least() {
    return Math.round(SMALLEST * this.scale);
  }

  // How much room the edges take that clues are folded to.
  edges() {
    const margin = Math.round(MARGIN * this.scale);
    if (this.isBare) return {left: margin, top: margin};
    return {left: Math.round(EDGES.left * this.scale), top: Math.round(EDGES.top * this.scale)};
  }

  /**
   * The largest cell with which all is seen, and whether the clues are folded for it: only where
   * three pixels are too many else.
   */
  fitting() {
    const [margin, tight] = [MARGIN * this.scale, TIGHT * this.scale];
    for (let side = LARGEST; side >= SMALLEST; side--) {
      const cell = Math.round(side * this.scale);
      const {left, top} = this.margins(cell);
      if (left + this.columns * cell + margin <= this.width &&
          top + this.rows * cell + tight <= this.height)
        return {cell, isFolded: false};
    }
    const {left, top} = this.edges();
    const most = Math.min(
        (this.width - left - tight) / this.columns, (this.height - top - tight) / this.rows
    );
    return {cell: Math.floor(clamp(most, 1, this.least)), isFolded: true};
  }

  resize(width, height, scale) {
    [this.width, this.height, this.scale] =
        [Math.round(width * scale), Math.round(height * scale), scale];
  }

  get margin() {
    return Math.round((this.isFolded ? TIGHT : MARGIN) * this.scale);
  }

  /** Shows the whole picture. */
  fit() {
    this.isFitted = true;
    Object.assign(this, this.fitting());
    this.spread();
    this.panX = this.panY = 0;
    this.clamp();
  }

  /**
   * Keeps the cells as they are where the room or the clues are others; with `isFitted` the whole
   * picture is shown.
   */
  refit(isFitted = this.isFitted) {
    if (isFitted) return this.fit();
    this.spread();
    return this.clamp();
  }

  spread() {
    Object.assign(this, this.isFolded ? this.edges() : this.margins(this.cell));
    this.font = this.fontFor(this.cell);
    this.pitch = this.pitchFor(this.cell);
    // A picture smaller than its room stands in the middle with the clues that it has, somewhat
    // above it.
    const {margin} = this;
    const free = (room, length, edge) => Math.max(0, room - length - edge);
    const [across, down] = [
      free(this.width - this.left, this.columns * this.cell, margin),
      free(this.height - this.top, this.rows * this.cell, TIGHT * this.scale)
    ];
    const spare = this.isFolded ? 0 : this.left - this.margins(this.cell, 0).left;
    this.slack = {
      x: Math.floor(clamp((across + margin - spare) / 2, 0, across)),
      y: Math.floor(down / 3)
    };
  }

  /**
   * Makes room where clues have grown, beside cells that stay where they are: of the free room
   * first. Where a picture that is fitted has none, clues are drawn narrower. Answers whether
   * anything is drawn elsewhere.
   */
  grow() {
    if (this.isFolded) return false;
    const {left, top} = this.margins(this.cell, 0);
    let [more, higher] = [Math.max(0, left - this.left), Math.max(0, top - this.top)];
    if (!more && !higher) return false;
    if (this.isFitted) {
      [more, higher] = [Math.min(more, this.slack.x), Math.min(higher, this.slack.y)];
    }
    this.left += more;
    this.top += higher;
    this.panX += Math.max(0, more - this.slack.x);
    this.panY += Math.max(0, higher - this.slack.y);
    this.slack = {x: Math.max(0, this.slack.x - more), y: Math.max(0, this.slack.y - higher)};
    return more > 0 || higher > 0;
  }

  /** The size of a cell one step larger or smaller: by a share of it, at least by a pixel. */
  step(direction, share) {
    const next = this.cell + direction * Math.max(1, Math.round(this.cell / share));
    return next >= this.least ? next : direction > 0 ? this.least : 1;
  }

  /**
   * Zooms so that the place under a point of the view stays there; further out than that goes, to
   * Fit where it folds the clues.
   */
  zoom(cell, x = (this.width + this.left) / 2, y = (this.height + this.top) / 2) {
    const [before, was] = [this.cell, this.isFolded];
    const fit = cell < this.least ? this.fitting() : {isFolded: false};
    if (fit.isFolded && cell - fit.cell < this.least - cell) {
      this.fit();
      return !was;
    }
    const [across, down] = [(x - this.x(0)) / before, (y - this.y(0)) / before];
    this.cell = Math.round(clamp(cell, this.least, LARGEST * this.scale));
    this.isFitted = this.isFolded = false;
    this.spread();
    this.panX = this.panY = 0;
    this.panX = this.x(0) + across * this.cell - x;
    this.panY = this.y(0) + down * this.cell - y;
    this.clamp();
    return was || this.cell !== before;
  }

  pan(dx, dy) {
    this.panX += dx;
    this.panY += dy;
    this.clamp();
  }

  // Where the picture is smaller than its room it stays; else an edge comes no further than its
  // margin.
  clamp() {
    const over = (length, room) => Math.max(0, length - room);
    const [wide, high] =
        [this.columns * this.cell + this.margin, this.rows * this.cell + TIGHT * this.scale];
    this.panX = Math.round(clamp(this.panX, 0, over(wide, this.width - this.left)));
    this.panY = Math.round(clamp(this.panY, 0, over(high, this.height - this.top)));
  }

  // The edges of the room of the cells.
  get originX() {
    return this.left + this.slack.x;
  }

  get originY() {
    return this.top + this.slack.y;
  }

  x(col) {
    return this.originX - this.panX + col * this.cell;
  }

  y(row) {
    return this.originY - this.panY + row * this.cell;
  }

  /** The rows and columns that are seen, in part or whole. */
  seen() {
    return {
      top: clamp(Math.floor(this.panY / this.cell), 0, this.rows - 1),
      left: clamp(Math.floor(this.panX / this.cell), 0, this.columns - 1),
      bottom: clamp(Math.floor((this.height - this.y(0)) / this.cell), 0, this.rows - 1),
      right: clamp(Math.floor((this.width - this.x(0)) / this.cell), 0, this.columns - 1),
    };
  }

  /**
   * What lies at a point: a cell, the clue of a row or a column, or nothing; with the nearest
   * cell.
   */
  at(x, y) {
    const [down, across] =
        [Math.floor((y - this.y(0)) / this.cell), Math.floor((x - this.x(0)) / this.cell)];
    const [row, col] = [clamp(down, 0, this.rows - 1), clamp(across, 0, this.columns - 1)];
    const [overLeft, overTop] = [x < this.originX, y < this.originY];
    const [inRows, inColumns] = [down === row, across === col];
    const part = !overLeft && !overTop && inRows && inColumns ? 'cell' :
        overLeft && !overTop && inRows                        ? 'row' :
        overTop && !overLeft && inColumns                     ? 'column' :
                                                                'none';
    return {part, row, col};
  }

  /** Moves the picture until a cell is seen whole. */
  reveal(row, col) {
    const [x, y, side] = [this.x(col), this.y(row), this.cell];
    let [dx, dy] = [0, 0];
    if (x < this.originX + side)
      dx = x - this.originX - side;
    else if (x + 2 * side > this.width)
      dx = x + 2 * side - this.width;
    if (y < this.originY + side)
      dy = y - this.originY - side;
    else if (y + 2 * side > this.height)
      dy = y + 2 * side - this.height;
    const [beforeX, beforeY] = [this.panX, this.panY];
    this.pan(dx, dy);
    return this.panX !== beforeX || this.panY !== beforeY;
  }

  /** Brings a cell to the middle. */
  centre(row, col) {
    this.pan(
        this.x(col) - (this.width + this.left) / 2, this.y(row) - (this.height + this.top) / 2
    );
  }
}
