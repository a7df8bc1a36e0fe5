// From a part of an image to a document: scaled to cells and to what they are made of, toned, and
// quantised. What was scaled last is kept, since most changes leave it as it is.

import {MOST_COLOURS} from '../document/limits.js';
import {scaledTo} from './images.js';
import {countFlat} from './flat.js';
import {docOfCells} from './quantise.js';
import {toned} from './tone.js';

export const MOST_POINTS = 100;  // pixels a side that colours are found in
const SKETCH_POINTS = 40;        // of a sketch
const MANY_CELLS = 5000;         // with more of them each is made of fewer pixels
const LINE_PIXELS = 480;         // a side, of line art

export class Maker {
  constructor() {
    this.scaled = new Map();
  }

  // `what` of a part at a size: the one of before where it is the same.
  made(what, {image, box}, [columns, rows], sharp) {
    const key = JSON.stringify([box, columns, rows, sharp]);
    const kept = this.scaled.get(what);
    if (kept?.key === key && kept.from === image) return kept.image;
    const scaled = scaledTo(image, box, columns, rows, sharp);
    this.scaled.set(what, {key, from: image, image: scaled});
    return scaled;
  }

  /** Single pixels of a part, for its colours: as many whatever the size in cells is. */
  points(part, options) {
    const {box} = part;
    return toned(
        this.made(
            'points',
            part,
            [Math.min(MOST_POINTS, box.width), Math.min(MOST_POINTS, box.height)],
            true
        ),
        options
    );
  }

  /** The part as one pixel a cell. */
  cells(part, size, options) {
    return toned(this.made('cells', part, size, options.sharp), options);
  }

  // What cells are made of, or null where they are single pixels.
  fine(part, [columns, rows], options) {
    if (options.sharp || (options.threshold && !options.area)) return null;
    const times = options.area ?
        Math.max(2, Math.min(8, Math.floor(LINE_PIXELS / Math.max(columns, rows)))) :
        columns * rows > MANY_CELLS ? 2 :
                                      3;
    // Of a drawing in flat colours single pixels are taken: means across its edges would be colours
    // of their own.
    const flat = options.threshold ? 0 : countFlat(this.points(part, options));
    const isSharp = flat > 0 && flat <= MOST_COLOURS;
    return toned(this.made('fine', part, [columns * times, rows * times], isSharp), options);
  }

  /**
   * The document of a part, `{image, box}`, at a size in columns and rows. `options` are those of
   * docOfCells, `sharp`, and those of toned.
   */
  doc(part, size, options) {
    const fine = this.fine(part, size, options);
    if (!fine)
      return docOfCells(
          this.cells(part, size, options), options, {points: this.points(part, options)}
      );
    const cells = scaledTo(fine, {x: 0, y: 0, width: fine.width, height: fine.height}, ...size);
    return docOfCells(cells, options, {fine, points: this.points(part, options)});
  }

  /** A document of single pixels, soon made. */
  sketch(part, size, options) {
    const {box} = part;
    const pick = (columns, rows) => toned(scaledTo(part.image, box, columns, rows, true), options);
    const points = pick(Math.min(SKETCH_POINTS, box.width), Math.min(SKETCH_POINTS, box.height));
    return docOfCells(pick(...size), {...options, area: 0}, {points});
  }
}
