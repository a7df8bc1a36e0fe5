// Canvases of pixels, and documents drawn small on them.

import {make} from '../base/elements.js';
import {eightBitDoc} from '../document/document.js';
import {LETTERS} from '../document/limits.js';

/** The pen (2D context) of a new canvas whose pixels are read back. */
export const penOf = (width, height) =>
    Object.assign(
              document.createElement('canvas'), {width, height}
    ).getContext('2d', {willReadFrequently: true});

/** The pen of a new canvas with an image on it. */
export function penWith({width, height, data}) {
  const pen = penOf(width, height);
  pen.putImageData(new ImageData(data, width, height), 0, 0);
  return pen;
}

/** Draws a document small on a canvas, some pixels a cell; cells with '?' are left out. */
export function drawSmall(canvas, doc, most) {
  const side = Math.max(1, Math.floor(most / Math.max(doc.rows, doc.columns)));
  const {colours} = eightBitDoc(doc);
  const data = Uint8ClampedArray.from([...doc.picture.join('')].flatMap(
      (letter) => (letter === '?' ? [0, 0, 0, 0] : [...colours[LETTERS.indexOf(letter)], 255])
  ));
  const small = penWith({width: doc.columns, height: doc.rows, data});
  canvas.width = doc.columns * side;
  canvas.height = doc.rows * side;
  const pen = canvas.getContext('2d');
  pen.imageSmoothingEnabled = false;
  pen.drawImage(small.canvas, 0, 0, canvas.width, canvas.height);
}

export function smallPicture(doc, most = 56) {
  const canvas = make('canvas', {class: 'small', 'aria-hidden': 'true'});
  drawSmall(canvas, doc, most);
  return canvas;
}
