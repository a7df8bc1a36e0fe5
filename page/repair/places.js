// The places where line solving stalls: groups of open cells, none of which settles a cell of
// another group. Each is mended by itself.

import {Narrowing} from './narrowing.js';

const MOST_TRIED = 60;  // cells that are given, one after the other, to find what they settle

/**
 * The groups of a board's open cells, each by rising index; all in one where there are many, or
 * `goesOn` says that enough was done.
 */
export function placesOf(board, goesOn = () => true) {
  const settled = new Narrowing(board).settle();
  const open = settled.openCells();
  const unseen = new Set(open);
  let groups = [];
  for (let tried = 0; unseen.size > 0; tried++) {
    if (tried === MOST_TRIED || !goesOn()) return [open];
    const [index] = unseen;
    const still = new Set(settled.given(index).openCells());
    let group = open.filter((one) => !still.has(one));
    for (const one of group) unseen.delete(one);
    const isApart = (other) => !other.some((one) => group.includes(one));
    group = [...new Set([group, ...groups.filter((other) => !isApart(other))].flat()
             )].sort((one, other) => one - other);
    groups = [...groups.filter(isApart), group];
  }
  return groups.sort(([one], [other]) => one - other);
}

/** For each place the open cells of the others: given, they leave that place alone to be mended. */
export const elsewhere = (places) =>
    places.map((place) => places.filter((other) => other !== place).flat());
