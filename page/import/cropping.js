// The image in the dialog for pictures: the part of it that is taken, dragged by mouse, finger or
// pen, and colours that are picked by a click, or by arrow keys and Enter.

import {make, withoutGestures} from '../base/elements.js';
import {clamp} from '../base/words.js';
import {drawTwice} from '../draw/marks.js';
import {penOf} from '../draw/small.js';
import {phrase} from '../texts/phrase.js';

const LEAST = 2;   // pixels a side of a part
const STILL = 4;   // pixels of the screen that a pointer moves at most in a click
const STEPS = 40;  // of a key along the longer side

export class Source {
  width;
  height;
  middle;
  most;
  take;
  pick;

  /**
   * `take` gets a part `{x, y, width, height}` in pixels of the image, and `pick` the place of one.
   * `middle` is a canvas with the image, made smaller.
   */
  constructor({width, height}, middle, most, {take, pick}) {
    Object.assign(this, {width, height, middle, most, take, pick, small: null, crop: null});
    this.place = [width >> 1, height >> 1];  // that the keys move
    this.canvas = make('canvas', {
      id: 'import-source',
      'aria-label': phrase('import.imageDragSelectPart'),
      role: 'img',
      tabindex: '0'
    });
    this.hear();
  }

  hear() {
    const {canvas} = this;
    withoutGestures(canvas);
    let from = null;
    let isPart = false;
    const at = (event) => {
      const box = canvas.getBoundingClientRect();
      return [
        clamp((event.clientX - box.left) / box.width, 0, 1) * this.width,
        clamp((event.clientY - box.top) / box.height, 0, 1) * this.height
      ];
    };
    canvas.addEventListener('pointerdown', (event) => {
      event.preventDefault();
      canvas.setPointerCapture(event.pointerId);
      from = at(event);
      isPart = false;
    });
    canvas.addEventListener('pointermove', (event) => {
      if (!from) return;
      const to = at(event);
      const [x, y] = [0, 1].map((axis) => Math.floor(Math.min(from[axis], to[axis])));
      const [right, bottom] = [0, 1].map((axis) => Math.ceil(Math.max(from[axis], to[axis])));
      isPart ||= Math.hypot(...[0, 1].map((axis) => to[axis] - from[axis])) *
              (canvas.getBoundingClientRect().width / this.width) >
          STILL;
      if (isPart && right - x > LEAST && bottom - y > LEAST)
        this.take({x, y, width: right - x, height: bottom - y});
    });
    canvas.addEventListener('pointerup', () => {
      if (from && !isPart) this.pick(from.map(Math.floor));
      from = null;
    });
    canvas.addEventListener('pointercancel', () => {
      from = null;
    });
    canvas.addEventListener('keydown', (event) => this.key(event));
    for (const change of ['focus', 'blur'])
      canvas.addEventListener(change, () => this.draw(this.crop));
  }

  // Arrow keys move the place, by single pixels with Shift; Enter or Space picks its colour.
  key(event) {
    const ways = {ArrowLeft: [-1, 0], ArrowRight: [1, 0], ArrowUp: [0, -1], ArrowDown: [0, 1]};
    const way = ways[event.key];
    if (!way && event.key !== 'Enter' && event.key !== ' ') return;
    event.preventDefault();
    if (!way) return this.pick(this.place);
    const step =
        event.shiftKey ? 1 : Math.max(1, Math.round(Math.max(this.width, this.height) / STEPS));
    this.place = this.place.map(
        (at, axis) => clamp(at + way[axis] * step, 0, [this.width, this.height][axis] - 1)
    );
    this.draw(this.crop);
  }

  // The image as it is shown, without the part.
  shown() {
    if (this.small) return this.small;
    const scale = this.most / Math.max(this.width, this.height);
    const side = scale < 1 ? scale : Math.floor(scale);
    const pen = penOf(
        Math.max(1, Math.round(this.width * side)), Math.max(1, Math.round(this.height * side))
    );
    Object.assign(pen, {imageSmoothingEnabled: scale < 1, imageSmoothingQuality: 'high'});
    pen.drawImage(this.middle, 0, 0, pen.canvas.width, pen.canvas.height);
    this.small = pen.canvas;
    return this.small;
  }

  /** Draws the image, darker outside of the part. */
  draw(crop) {
    this.crop = crop;
    const {width, height} = this.shown();
    Object.assign(this.canvas, {width, height});
    const pen = this.canvas.getContext('2d');
    const by = width / this.width;
    pen.drawImage(this.small, 0, 0);
    pen.fillStyle = 'rgb(0 0 0 / 45%)';
    pen.beginPath();
    pen.rect(0, 0, width, height);
    pen.rect(crop.x * by, crop.y * by, crop.width * by, crop.height * by);
    pen.fill('evenodd');
    pen.strokeStyle = '#fff';
    pen.strokeRect(crop.x * by + 0.5, crop.y * by + 0.5, crop.width * by - 1, crop.height * by - 1);
    if (document.activeElement === this.canvas && this.canvas.matches(':focus-visible'))
      this.drawPlace(pen, by);
  }

  // A ring around the place of the keys, black in white, so that it is seen on every colour.
  drawPlace(pen, by) {
    const [x, y] = this.place.map((at) => (at + 0.5) * by);
    pen.beginPath();
    pen.arc(x, y, 7, 0, 7);
    drawTwice(pen, 1, [5, 2], {ink: '#000'}, () => pen.stroke());
  }
}
