// Blocks of clues that were drawn once, and are copied from there: one for each length, colour and
// size.

import {drawBlock} from './board.js';
import {CanvasSurface} from './surface.js';

const MOST = 600;

export class Sprites {
  constructor() {
    this.key = '';
    this.images = new Map();
  }

  /** Forgets all where blocks look otherwise now: `key` tells looks apart. */
  keepFor(key) {
    if (key !== this.key || this.images.size > MOST) this.images.clear();
    this.key = key;
  }

  /**
   * Draws a block as `drawBlock` does; `scale` is how many points of the canvas one of its units
   * has.
   */
  drawer(scale = 1) {
    return (surface, look, block, {x, y, width, height}) => {
      const key = `${block.length}${block.letter} ${width} ${height}`;
      let image = this.images.get(key);
      if (!image) {
        image = new OffscreenCanvas(
            Math.max(1, Math.ceil(width * scale)), Math.max(1, Math.ceil(height * scale))
        );
        const pen = image.getContext('2d');
        pen.scale(scale, scale);
        drawBlock(new CanvasSurface(pen), look, block, {x: 0, y: 0, width, height});
        this.images.set(key, image);
      }
      surface.pen.drawImage(image, x, y, image.width / scale, image.height / scale);
    };
  }
}
