// The image of a solution in Web Paint-by-Number's XML: rows of signs between bars.

import {FileFault, MOST_CELLS} from '../document/limits.js';
import {phrase} from '../texts/phrase.js';

/**
 * Rows of signs; a backslash takes the next sign as it stands, and `[..]` is a cell that may have
 * several.
 */
export function readWebpbnImage(text) {
  const rows = [];
  let row = null;
  const signs = [...text];
  for (let at = 0; at < signs.length; at++) {
    let sign = signs[at];
    if (sign === '|') {
      if (row) rows.push(row);
      row = row ? null : [];
      continue;
    }
    if (!row) {
      if (!' \t\r\n'.includes(sign)) throw new FileFault(phrase('formats.rowSolutionDoesNot'));
      continue;
    }
    if (sign === '\\')
      sign = signs[++at] ?? '';
    else if (sign === '[') {
      const end = signs.indexOf(']', at);
      if (end < 0) throw new FileFault(phrase('formats.cellSolutionNoEnd'));
      sign = end === at + 2 ? signs[at + 1] : '?';
      at = end;
    }
    row.push(sign);
    if (row.length > MOST_CELLS || rows.length > MOST_CELLS)
      throw new FileFault(phrase('formats.solutionLarger', {most: MOST_CELLS}));
  }
  if (row || !rows.length || !rows[0].length)
    throw new FileFault(phrase('formats.solutionNoPicture'));
  return rows;
}
