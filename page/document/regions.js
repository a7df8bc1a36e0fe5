// Regions of a picture: sets of places (row * columns + column) that are selected, with a box
// around them, what is beside them, and their shadow. A shape is rows of signs as large as its box,
// with a blank for each cell that is not in the region.

import {stamped} from './shapes.js';

export const HOLE = ' ';

/** The places in a box. */
export function placesOfBox({top, left, bottom, right}, columns) {
  const places = new Set();
  for (let row = top; row <= bottom; row++)
    for (let col = left; col <= right; col++) places.add(row * columns + col);
  return places;
}

/** The places of a shape in its box; of a box alone, all of it. */
export function placesOfShape(box, shape, columns) {
  if (!shape) return placesOfBox(box, columns);
  const isIn = (place) =>
      shape[Math.floor(place / columns) - box.top][(place % columns) - box.left] !== HOLE;
  return new Set([...placesOfBox(box, columns)].filter(isIn));
}

/** The box around places. */
export function boxAround(places, columns) {
  const rows = [...places].map((place) => Math.floor(place / columns));
  const cols = [...places].map((place) => place % columns);
  const least = (list) => list.reduce((one, other) => Math.min(one, other));
  const most = (list) => list.reduce((one, other) => Math.max(one, other));
  return {top: least(rows), left: least(cols), bottom: most(rows), right: most(cols)};
}

/** The letters of a picture at places, as rows with holes in the box around them. */
export function shapeOf(places, {top, left, bottom, right}, picture) {
  const columns = picture[0].length;
  return Array.from(
      {length: bottom - top + 1},
      (_, row) => Array
                      .from(
                          {length: right - left + 1},
                          (_one, col) =>
                              (places.has((top + row) * columns + left + col) ?
                                   picture[top + row][left + col] :
                                   HOLE)
                      )
                      .join('')
  );
}

/** All places of a letter. */
export function placesOfLetter(picture, letter) {
  const columns = picture[0].length;
  return new Set(picture.flatMap(
      (row, at) => [...row].flatMap((one, col) => (one === letter ? [at * columns + col] : []))
  ));
}

// Places moved by rows and columns, as far as they are in the picture.
function moved(places, {rows, columns}, down, across) {
  return [...places]
      .map((place) => [Math.floor(place / columns) + down, (place % columns) + across])
      .filter(([row, col]) => row >= 0 && col >= 0 && row < rows && col < columns)
      .map(([row, col]) => row * columns + col);
}

const beyond = (all, places) => new Set(all.filter((place) => !places.has(place)));

/** The cells beside a region, by their sides. */
export const outlineOf = (places, size) => beyond(
    [[-1, 0], [1, 0], [0, -1], [0, 1]].flatMap(([down,
                                                 across]) => moved(places, size, down, across)),
    places
);

/** The cells that a region's shadow falls on: one row below and one column on the right. */
export const shadowOf = (places, size) => beyond(moved(places, size, 1, 1), places);

/** A picture whose region, given by rows with holes, is background. */
export const without = (picture, rows, box) =>
    stamped(picture, rows.map((row) => row.replace(/[^ ]/g, '.')), box.top, box.left);
