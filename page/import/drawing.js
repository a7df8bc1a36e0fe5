// SVG drawings made ready to be drawn: of bounded size, and with a size in pixels. Those that move,
// or have documents in them, are refused.

import {MOST_DRAWN, drawnOf, unescaped} from './drawn.js';

const USUAL = 512;  // pixels of the longer side: a drawing is as sharp at any size
const MOVES = 'import.drawingMoves';
const UNITS = { '': 1, px: 1, pt: 4 / 3, pc: 16, in: 96, cm: 96 / 2.54, mm: 9.6 / 2.54, q: 2.4 / 2.54 };

// A length in pixels; null for one in other units, or none.
function lengthOf(text) {
  const [, value, unit] = /^\+?([\d.]+(?:e[+-]?\d+)?)\s*([a-z]*)$/i.exec((text ?? '').trim()) ?? [];
  const length = Number(value) * UNITS[(unit ?? '').toLowerCase()];
  return length > 0 && length < Infinity ? length : null;
}

/**
 * Width and height that a drawing tells by its attributes `width`, `height` and `viewBox`; where
 * it tells none, a square.
 */
export function sizeOfSvg({width, height, viewBox}) {
  const [, , wide, high] = (viewBox ?? '').trim().split(/[\s,]+/).map(Number);
  const ratio = wide > 0 && high > 0 ? wide / high : null;
  const [own, tall] = [lengthOf(width), lengthOf(height)];
  if (own && tall) return [own, tall];
  if (own) return [own, own / (ratio ?? 1)];
  if (tall) return [tall * (ratio ?? 1), tall];
  return ratio ? [wide, high] : [USUAL, USUAL];
}

/**
 * Whether a `data:` address within a drawing is of anything but pixels or a font: another drawing,
 * or a style sheet.
 */
export const hasDocument = (text) =>
    /d(?<!\w\s*d)\s*a\s*t\s*a\s*:(?!\s*(image\/(png|jpe?g|gif|webp|bmp|avif)|(font\/|application\/(x-)?font-)[\w-]+)\s*[;,])/i
        .test(unescaped(text.replace(/&#\w+;/g, ' ')));

/**
 * A drawing as { text, width, height }, with `most` a side at most: its own size where that is no
 * smaller than usual. Null where it is none, and the name of a phrase where it is refused.
 */
export function readyDrawing(text, most) {
  const root = new DOMParser().parseFromString(text, 'image/svg+xml').documentElement;
  if (root.localName !== 'svg') return null;
  if (root.querySelector('set, animate, foreignObject'))
    return MOVES;  // other addresses of an element; HTML
  if (drawnOf(root) > MOST_DRAWN) return 'formats.thereTooManyElements';
  const attributes = {
    width: root.getAttribute('width'),
    height: root.getAttribute('height'),
    viewBox: root.getAttribute('viewBox')
  };
  const size = sizeOfSvg(attributes);
  const longer = Math.max(...size);
  const [width, height] = size.map(
      (length) =>
          Math.max(1, Math.round((length * Math.min(most, Math.max(USUAL, longer))) / longer))
  );
  if (!attributes.viewBox) root.setAttribute('viewBox', `0 0 ${size.join(' ')}`);
  root.setAttribute('width', String(width));
  root.setAttribute('height', String(height));
  const written = new XMLSerializer().serializeToString(root);
  return hasDocument(written) ? MOVES : {text: written, width, height};
}
