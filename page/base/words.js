// Numbers and file names as texts, and a bound for numbers.

import {number, phrase} from '../texts/phrase.js';

export {number};
export const clamp = (value, least, most) => Math.max(least, Math.min(most, value));

/** A text as the first of a line, and the title of a dialog as the name of what opens it. */
export const capital = (text) => text.charAt(0).toUpperCase() + text.slice(1);
export const opening = (title) => `${title} …`;

/** The size of a document in words. */
export const sizeText = ({columns, rows}) => phrase('base.by', {columns, rows});

/** The name of a line, counted from 0, inside a sentence. */
export const lineName = (isRow, at) =>
    (isRow ? phrase('view.rowLine', {line: at + 1}) : phrase('view.columnLine', {line: at + 1}));

/** Lines by their places from 1, in words, as in “columns 2–4, 7”; '' for none. */
export function linesText(isRow, places) {
  const spans = [];
  for (const at of [...places].sort((one, other) => one - other)) {
    if (spans.length && spans.at(-1)[1] === at - 1)
      spans.at(-1)[1] = at;
    else
      spans.push([at, at]);
  }
  if (!spans.length) return '';
  const found = {
    count: places.length,
    spans: spans.map(([from, to]) => (from === to ? from : `${from}–${to}`)).join(', ')
  };
  return isRow ? phrase('view.inRows', found) : phrase('view.inColumns', found);
}

/**
 * A text without the white space of ASCII at its ends, which alone nonobench-audit leaves out,
 * too.
 */
export const withoutSpace = (text) => /^[ \t\n\v\f\r]*([^]*[^ \t\n\v\f\r])?/.exec(text)?.[1] ?? '';

/** A name without what no file name may have, and without signs that turn the order of others. */
export const cleanName = (name) =>
    (name ?? '')
        .trim()
        .slice(0, 80)
        .replace(/[\p{Cc}\p{Cs}\u2028-\u202e\u2066-\u2069\\/:*?"<>|]/gu, ' ')
        .trim()
        .replace(/[\s.]+$/, '') ||
    'picture';

/** A file's name without its ending and without what no file name may have. */
export const bareName = (name) => cleanName((name ?? '').replace(/\.[A-Za-z0-9]{1,5}$/, ''));

/**
 * A name, or that with a number behind it, that `taken` does not have; it has it from now on, with
 * the number to try next. Capitals make no other name, nor does how accents are written.
 */
export function freeName(name, taken) {
  const alike = (text) => text.normalize().toLowerCase();
  for (let count = taken.get(alike(name)) ?? 1;; count++) {
    const tried = count === 1 ? name : `${name} ${count}`;
    if (taken.has(alike(tried))) continue;
    taken.set(alike(tried), 1).set(alike(name), count + 1);
    return tried;
  }
}

/**
 * A text in a table of comma-separated values. What spreadsheets take for a formula, perhaps
 * behind a semicolon, begins with an apostrophe.
 */
export function valueText(text) {
  const parts = text.split(';').map(
      (part) =>
          (/^[=+\-@]/.test(part.replaceAll('"', ' ').trimStart().normalize('NFKC')) ? `'${part}` :
                                                                                      part)
  );
  return `"${parts.join(';').replaceAll('"', '""')}"`;
}
