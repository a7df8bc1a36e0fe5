// Light and dark of an image: brightness and contrast, and what is dark enough for a picture in two
// colours.

import {lightness} from '../document/colours.js';
import {isTransparent} from './images.js';
import {once, spotsOf} from './spots.js';

/** An image with other brightness and contrast, each from -100 to 100; itself where both are 0. */
export function toned(image, {brightness = 0, contrast = 0} = {}) {
  if (!brightness && !contrast) return image;
  return once(image, `tone ${brightness} ${contrast}`, () => {
    const slope = Math.tan(((Math.min(99, contrast) + 100) * Math.PI) / 400);
    const sample = Uint8ClampedArray.from(
        {length: 256}, (_, at) => (at - 127.5) * slope + 127.5 + brightness * 1.28
    );
    const data = new Uint8ClampedArray(image.data);
    for (let at = 0; at < data.length; at++)
      if (at % 4 !== 3) data[at] = sample[data[at]];
    return {...image, data};
  });
}

/** The lightness at which an image falls best into dark and light (Otsu, 1979), from 1 to 255. */
export function thresholdFor(image) {
  const counts = Array(256).fill(0);
  for (const {triple, weight} of spotsOf(image))
    counts[Math.min(255, Math.floor(lightness(triple)))] += weight;
  const all = counts.reduce((sum, count) => sum + count, 0);
  const total = counts.reduce((sum, count, at) => sum + at * count, 0);
  let [best, most, below, sum] = [128, -1, 0, 0];
  for (let at = 1; at < 256; at++) {
    below += counts[at - 1];
    sum += (at - 1) * counts[at - 1];
    if (!below || below === all) continue;
    const between = below * (all - below) * (sum / below - (total - sum) / (all - below)) ** 2;
    if (between > most) [best, most] = [at, between];
  }
  return best;
}

/**
 * For each cell whether it is drawn, in two colours: 0 or 1. A cell is drawn where it is dark, or
 * light where `inverted`. `area` is for line art: a cell is drawn where so many percent of the
 * `fine` image's pixels in it are.
 */
export function drawnCells(image, {threshold, inverted = false, area = 0}, fine = null) {
  const isDrawn = ({data}, at) =>
      !isTransparent(data, at) && (lightness(data.subarray(at, at + 3)) < threshold) !== inverted;
  const {width: columns, height: rows} = image;
  if (!area || !fine)
    return Int8Array.from(
        {length: columns * rows}, (_, index) => Number(isDrawn(image, index * 4))
    );
  const counts = new Uint16Array(columns * rows);
  const [across, down] = [fine.width / columns, fine.height / rows];
  for (let row = 0, at = 0; row < fine.height; row++) {
    for (let col = 0; col < fine.width; col++, at += 4)
      if (isDrawn(fine, at)) counts[Math.floor(row / down) * columns + Math.floor(col / across)]++;
  }
  return Int8Array.from(counts, (count) => Number(count * 100 >= area * across * down));
}
