// The cells on their canvas: only those are drawn whose look has changed. A cell's look is a
// number: its letter, whether it is hatched, the other picture's letter, whether it is given or
// locked. The lines between cells lie beside them and stay.

import {drawGiven, drawRules, drawSign, edges} from './board.js';
import {CanvasSurface} from './surface.js';

export const RIVAL = 1 << 8;
export const HATCHED = 1 << 4;
export const GIVEN = 1 << 16;
export const LOCKED = 1 << 17;

export class Cells {
  constructor(canvas) {
    this.canvas = canvas;
    this.pen = canvas.getContext('2d', {alpha: false});
    this.surface = new CanvasSurface(this.pen);
    this.drawn = new Int32Array(0);
    this.tile = null;
  }

  /** Draws all that is seen anew. */
  drawAll(sheet) {
    const {pen} = this;
    const {geometry: at} = sheet;
    pen.fillStyle = sheet.inks.paper;
    pen.fillRect(0, 0, at.width, at.height);
    this.drawn = new Int32Array(at.rows * at.columns).fill(-1);
    this.prepare(sheet);
    this.clip(sheet);
    drawRules(this.surface, this.look, sheet.boardFrame());
    this.drawChanged(sheet, true);
    pen.restore();
  }

  // Draws the cells of a row whose look is another one, some that look alike at once.
  #drawRow(sheet, row, left, right) {
    const first = row * sheet.geometry.columns;
    for (let col = left, end; col <= right; col = end) {
      end = col + 1;
      const look = sheet.lookOf(row, col);
      if (look === this.drawn[first + col]) continue;
      if (look < HATCHED || this.isSmall)
        while (end <= right && sheet.lookOf(row, end) === look) end++;
      this.span(sheet, row, col, end, look);
      this.drawn.fill(look, first + col, first + end);
    }
  }

  /** Draws the cells whose look is another one; `clipped` where that area is set already. */
  drawChanged(sheet, clipped = false) {
    if (!this.look) return;
    const {top, left, bottom, right} = sheet.geometry.seen();
    if (!clipped) this.clip(sheet);
    for (let row = top; row <= bottom; row++) this.#drawRow(sheet, row, left, right);
    if (!clipped) this.pen.restore();
  }

  /** Draws some cells, given by their places. */
  drawSome(sheet, places) {
    if (!this.look) return;
    const {top, left, bottom, right} = sheet.geometry.seen();
    const {columns} = sheet.geometry;
    this.clip(sheet);
    for (const index of places) {
      const [row, col] = [Math.floor(index / columns), index % columns];
      if (row < top || row > bottom || col < left || col > right) continue;
      const look = sheet.lookOf(row, col);
      if (look === this.drawn[index]) continue;
      this.span(sheet, row, col, col + 1, look);
      this.drawn[index] = look;
    }
    this.pen.restore();
  }

  clip(sheet) {
    const {geometry: at} = sheet;
    this.pen.save();
    this.pen.beginPath();
    this.pen.rect(at.originX - 1, at.originY - 1, at.width, at.height);
    this.pen.clip();
  }

  // What holds for all cells of one size.
  prepare(sheet) {
    const {geometry: at, look} = sheet;
    this.look = look;
    this.isSmall = !look.thin;
    this.hasLetters = look.signs && at.cell >= 10 * at.scale;
    this.hatching = this.pen.createPattern(this.tileFor(at.scale), 'repeat');
    this.hatching.setTransform(new DOMMatrix().translate(at.x(0), at.y(0)));
  }

  // Dark and light strokes side by side, so that the hatching is seen on any colour.
  tileFor(scale) {
    const side = Math.round(6 * scale);
    if (this.tile?.width === side) return this.tile;
    this.tile = new OffscreenCanvas(side, side);
    const pen = this.tile.getContext('2d');
    pen.scale(side / 6, side / 6);
    for (const {
           ink,
           shift
         } of [{ink: 'rgb(255 255 255 / 75%)', shift: 1.4}, {ink: 'rgb(0 0 0 / 60%)', shift: 0}]) {
      pen.strokeStyle = ink;
      pen.lineWidth = 1.1;
      pen.beginPath();
      for (const from of [-6, 0, 6]) {
        pen.moveTo(from + shift - 1, 7);
        pen.lineTo(from + shift + 7, -1);
      }
      pen.stroke();
    }
    return this.tile;
  }

  span(sheet, row, col, end, look) {
    const {geometry: at} = sheet;
    const [y, high] = edges(this.look, row, row + 1, at.y(0), at.cell, at.rows);
    // A run of one look is filled at once where no lines stand between; else cell by cell.
    const step = this.isSmall ? 5 - (col % 5) : 1;
    for (let from = col, next = Math.min(end, col + step); from < end;
         from = next, next = Math.min(end, next + (this.isSmall ? 5 : 1))) {
      const [x, wide] = edges(this.look, from, next, at.x(0), at.cell, at.columns);
      this.pen.fillStyle = this.look.fills[look & 15] ?? '#888';
      this.pen.fillRect(x, y, wide, high);
      if (look < HATCHED && !this.hasLetters) continue;
      if (look & HATCHED) {
        this.pen.fillStyle = this.hatching;
        this.pen.fillRect(x, y, wide, high);
      }
      for (let one = from; one < next; one++)
        this.more(
            sheet, look, [edges(this.look, one, one + 1, at.x(0), at.cell, at.columns), [y, high]]
        );
    }
  }

  more(sheet, look, [[x, wide], [y, high]]) {
    const rival = look & RIVAL ? (look >> 9) & 15 : -1;
    if (rival >= 0) this.rival(sheet, rival, x, y, wide, high);
    if (this.hasLetters) this.letter(sheet, look & 15, rival, x, y, wide, high);
    if (look & GIVEN) drawGiven(this.surface, x, y, Math.min(wide, high));
    if (look & LOCKED) this.locked(x, y, Math.min(wide, high));
  }

  // The other picture's colour in the lower corner, and a frame.
  rival(sheet, letter, x, y, wide, high) {
    const {pen} = this;
    const {scale} = sheet.geometry;
    pen.beginPath();
    pen.moveTo(x + wide, y + high * 0.12);
    pen.lineTo(x + wide, y + high);
    pen.lineTo(x + wide * 0.12, y + high);
    pen.closePath();
    pen.fillStyle = this.look.fills[letter];
    pen.fill();
    const line = (wide < 16 * scale ? 1.4 : 2.4) * scale;
    pen.strokeStyle = sheet.inks.alarm;
    pen.lineWidth = line;
    pen.strokeRect(x + line / 2, y + line / 2, wide - line, high - line);
  }

  letter(sheet, at, rival, x, y, wide, high) {
    const {geometry} = sheet;
    const size =
        Math.min(14 * geometry.scale, Math.floor(geometry.cell * (rival >= 0 ? 0.42 : 0.62)));
    if (rival < 0) {
      if (at > 0) drawSign(this.surface, this.look, at, {x: x + wide / 2, y: y + high / 2, size});
      return;
    }
    drawSign(this.surface, this.look, at, {x: x + wide * 0.3, y: y + high * 0.33, size});
    drawSign(this.surface, this.look, rival, {x: x + wide * 0.7, y: y + high * 0.68, size});
  }

  // A lock: a small square with a bow, at the lower left.
  locked(x, y, high) {
    const {pen} = this;
    const side = Math.max(2, high * 0.26);
    const [left, top] = [x + high * 0.08, y + high * 0.92 - side * 0.7];
    pen.lineWidth = Math.max(1, side * 0.16);
    for (const {ink, grow} of [{ink: '#fff', grow: 1}, {ink: '#1a1a1a', grow: 0}]) {
      pen.strokeStyle = pen.fillStyle = ink;
      pen.beginPath();
      pen.arc(left + side / 2, top, side * 0.28 + grow * 0.5, Math.PI, 0);
      pen.stroke();
      pen.fillRect(left - grow, top - grow, side + 2 * grow, side * 0.7 + 2 * grow);
    }
  }
}
