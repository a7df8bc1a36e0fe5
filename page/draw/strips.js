// The clues beside and above the cells. Blocks are drawn once for each length and colour and copied
// from there; a line is drawn again only when its clue, its mark or its place changes. Where Fit
// folds the clues, edges with the numbers of some lines stand there.

import {drawClue, lengthsIn, textSize} from './board.js';
import {Sprites} from './sprites.js';
import {CanvasSurface} from './surface.js';

const EDGE = 5;  // the page's pixels of the marks of lines where the clues are folded

export class Strips {
  constructor(rowCanvas, columnCanvas) {
    this.canvases = {r: rowCanvas, c: columnCanvas};
    this.pens = {
      r: rowCanvas.getContext('2d', {alpha: false}),
      c: columnCanvas.getContext('2d', {alpha: false})
    };
    this.surfaces = {r: new CanvasSurface(this.pens.r), c: new CanvasSurface(this.pens.c)};
    this.sprites = new Sprites();
    this.copy = this.sprites.drawer();
  }

  /** Draws all lines that are seen. */
  drawAll(sheet) {
    const {geometry: at} = sheet;
    const key =
        [at.cell, at.font, at.pitch, at.letters, at.scale, sheet.doc.maxval, ...sheet.doc.colours]
            .join();
    this.sprites.keepFor(key);
    this.key = key;
    for (const axis of ['r', 'c']) {
      const pen = this.pens[axis];
      pen.fillStyle = sheet.inks.paper;
      pen.fillRect(0, 0, this.canvases[axis].width, this.canvases[axis].height);
    }
    if (at.isBare) return;
    const {top, left, bottom, right} = at.seen();
    for (let row = top; row <= bottom; row++) this.line(sheet, 'r', row, false);
    for (let col = left; col <= right; col++) this.line(sheet, 'c', col, false);
    if (at.isFolded) this.numbers(sheet);
  }

  // The numbers of each tenth line, or where these would touch of each twentieth, beside the marks.
  numbers(sheet) {
    const {geometry: at} = sheet;
    const size = Math.round(8 * at.scale);
    const step = at.cell * 10 < 2 * size ? 20 : 10;
    const away = Math.round((EDGE + 4) * at.scale);
    for (const [axis, count] of [['r', at.rows], ['c', at.columns]]) {
      const pen = this.pens[axis];
      pen.font = `${size}px ${sheet.family}`;
      pen.fillStyle = sheet.inks.faint;
      pen.textAlign = axis === 'r' ? 'right' : 'center';
      pen.textBaseline = axis === 'r' ? 'middle' : 'bottom';
      for (let line = step; line <= count; line += step) {
        const middle = (line - 0.5) * at.cell;
        if (axis === 'r')
          pen.fillText(line, at.originX - away, at.y(0) + middle);
        else
          pen.fillText(line, at.x(0) + middle, at.originY - away + Math.round(2 * at.scale));
      }
    }
  }

  /** Draws some lines again. */
  drawSome(sheet, rows, columns) {
    if (!this.key || sheet.geometry.isBare) return;
    const {top, left, bottom, right} = sheet.geometry.seen();
    for (const row of rows)
      if (row >= top && row <= bottom) this.line(sheet, 'r', row, true);
    for (const col of columns)
      if (col >= left && col <= right) this.line(sheet, 'c', col, true);
  }

  // The band of a line: its ground, tinted where its clue has changed, it is dragged, or a reason
  // names it.
  band(sheet, axis, at, x, y, width, height, anew) {
    const pen = this.pens[axis];
    const isMarked = sheet.isMarked(axis, at);
    const isChanged = sheet.isChanged(axis, at);
    if (anew || isMarked || isChanged) {
      pen.fillStyle = isMarked || isChanged ? sheet.inks.rule : sheet.inks.paper;
      pen.fillRect(x, y, width, height);
    }
    const edge = Math.round(3 * sheet.geometry.scale);
    if (isMarked) {
      pen.fillStyle = sheet.inks.accent;
      pen.fillRect(x, y, axis === 'r' ? edge : width, axis === 'r' ? height : edge);
    }
    if (!isChanged) return;
    pen.fillStyle = sheet.inks.alarm;
    if (axis === 'r')
      pen.fillRect(x + width - edge, y + 1, edge, Math.max(1, height - 2));
    else
      pen.fillRect(x + 1, y + height - edge, Math.max(1, width - 2), edge);
  }

  // The band of a line where the clues are folded: its marks alone, beside the cells.
  edge(sheet, axis, line, anew) {
    const {geometry: at} = sheet;
    const [wide, gap] = [Math.round(EDGE * at.scale), Math.round(2 * at.scale)];
    if (axis === 'r')
      this.band(sheet, 'r', line, at.originX - gap - wide, at.y(line), wide, at.cell, anew);
    else
      this.band(sheet, 'c', line, at.x(line), at.originY - gap - wide, at.cell, wide, anew);
  }

  // A row or a column: its band and its clue.
  line(sheet, axis, line, anew) {
    const {geometry: at} = sheet;
    if (at.isFolded) return this.edge(sheet, axis, line, anew);
    const [x, y, gap, pen] = [at.x(line), at.y(line), Math.round(3 * at.scale), this.pens[axis]];
    pen.save();
    pen.beginPath();
    if (axis === 'r')
      pen.rect(0, Math.max(at.originY, y), at.originX, at.cell);
    else
      pen.rect(Math.max(at.originX, x), 0, at.cell, at.originY);
    pen.clip();
    if (axis === 'r')
      this.band(sheet, 'r', line, at.slack.x, y, at.left - gap / 2, at.cell, anew);
    else
      this.band(sheet, 'c', line, x, at.slack.y, at.cell, at.top - gap / 2, anew);
    drawClue(
        this.surfaces[axis],
        sheet.look,
        axis,
        sheet.clues[axis === 'r' ? 'rows' : 'columns'][line],
        this.placeOf(sheet, axis, line),
        this.copy
    );
    pen.restore();
  }

  // Where the clue of a line lies, as `drawClue` takes it.
  placeOf({geometry: at}, axis, line) {
    const [gap, around, unit] =
        [Math.round(3 * at.scale) + Math.round(4 * at.scale), 6 * at.scale, at.scale];
    if (axis === 'r') {
      const height = Math.min(at.cell - 1, at.font + Math.round(6 * at.scale));
      return {
        near: at.originX - gap,
        far: at.slack.x + around,
        middle: at.y(line) + at.cell / 2,
        gap: 2,
        unit,
        sizeOf: (block) => ({width: this.rowWidth(at, block), height})
      };
    }
    const isTiny = at.cell < 7 * at.scale;
    const height = isTiny ? Math.round(4 * at.scale) : at.pitch;
    const widthOf = (block) =>
        (isTiny ? at.cell - 1 : Math.min(at.cell - 1, this.rowWidth(at, block)));
    return {
      near: at.originY - gap,
      far: at.slack.y + around,
      middle: at.x(line) + at.cell / 2,
      gap: 1,
      unit,
      sizeOf: (block) => ({width: widthOf(block), height})
    };
  }

  rowWidth(at, block) {
    return at.cell < 7 * at.scale ? Math.round(4 * at.scale) :
                                    at.chipWidth(String(block.length).length, at.font);
  }

  /** Whether cells are large enough for the numbers of all clues. */
  hasNumbers({geometry: at, clues, look}) {
    const fits = (block) =>
        textSize(look, block, {width: at.cell - 1, height: at.pitch}) >= look.least;
    return !at.isFolded && clues.columns.every((blocks) => blocks.every(fits));
  }

  /** Whether a clue is drawn in part only, or without its numbers. */
  isCut(sheet, axis, at) {
    const {isBare, cell, scale} = sheet.geometry;
    return !isBare && (cell < 10 * scale || this.isBeyond(sheet, axis, at));
  }

  /** Of how many clues not all blocks have room. */
  countCut(sheet) {
    const {rows, columns} = sheet.clues;
    const cut = (axis, clues) => clues.filter((_, at) => this.isBeyond(sheet, axis, at)).length;
    return cut('r', rows) + cut('c', columns);
  }

  isBeyond(sheet, axis, at) {
    return lengthsIn(
               sheet.look,
               axis,
               sheet.clues[axis === 'r' ? 'rows' : 'columns'][at],
               this.placeOf(sheet, axis, at)
    ).isCut;
  }
}
