// An image to trace: it lies under what is painted, shown through the cells of the background. It
// is no part of the picture, and is kept nowhere.

import {make} from '../base/elements.js';
import {penWith} from './small.js';

export class Underlay {
  /** `canvas` has the image. It is laid over the picture, as large as it fits there. */
  constructor(sheet, canvas) {
    this.sheet = sheet;
    this.image = canvas;
    this.element = make('canvas', {class: 'underlay', 'aria-hidden': 'true'});
    sheet.cellCanvas.after(this.element);
    this.opacity = 0.5;
    this.frame = 0;
    const {rows, columns} = sheet.state;
    this.wide = Math.min(columns, (rows * canvas.width) / canvas.height);  // all in cells
    this.left = (columns - this.wide) / 2;
    this.top = (rows - this.high) / 2;
    this.ask();
  }

  get high() {
    return (this.wide * this.image.height) / this.image.width;
  }

  /** Moves the image by cells. */
  move(down, across) {
    this.top += down;
    this.left += across;
    this.ask();
  }

  /** Makes the image so many cells wide; its middle stays. */
  size(wide) {
    const [middle, centre] = [this.top + this.high / 2, this.left + this.wide / 2];
    this.wide = wide;
    this.top = middle - this.high / 2;
    this.left = centre - wide / 2;
    this.ask();
  }

  remove() {
    cancelAnimationFrame(this.frame);
    this.frame = -1;
    this.element.remove();
  }

  /** Has it drawn in the browser's next frame. */
  ask() {
    this.frame ||= requestAnimationFrame(() => {
      this.frame = 0;
      if (this.sheet.state) this.draw();
    });
  }

  // One pixel for each cell, where it is background.
  ground() {
    const {sheet} = this;
    const {rows, columns} = sheet.state;
    const data = new Uint8ClampedArray(columns * rows * 4);
    for (let row = 0, at = 3; row < rows; row++)
      for (let col = 0; col < columns; col++, at += 4)
        data[at] = sheet.letterAt(row, col) === '.' ? 255 : 0;
    return penWith({width: columns, height: rows, data}).canvas;
  }

  draw() {
    const {element} = this;
    const {geometry: at} = this.sheet;
    Object.assign(element, {width: at.width, height: at.height});
    [element.style.width, element.style.height] =
        [`${at.width / at.scale}px`, `${at.height / at.scale}px`];
    const pen = element.getContext('2d');
    pen.beginPath();
    pen.rect(at.originX, at.originY, at.width, at.height);
    pen.clip();
    pen.globalAlpha = this.opacity;
    pen.imageSmoothingQuality = 'high';
    pen.drawImage(
        this.image, at.x(this.left), at.y(this.top), this.wide * at.cell, this.high * at.cell
    );
    Object.assign(
        pen,
        {globalAlpha: 1, globalCompositeOperation: 'destination-in', imageSmoothingEnabled: false}
    );
    pen.drawImage(this.ground(), at.x(0), at.y(0), at.columns * at.cell, at.rows * at.cell);
  }
}
