// One line of a nonogram: which colours a cell has in some filling of it. For searches alone: what
// they find, the session judges.
//
// Candidates are a mask for each cell: bit 0 is the background, bit k colour k.

export const MOST_CELLS = 120;  // of a line; it has no more blocks
const STRIDE = MOST_CELLS + 1;

// Room that each call writes anew. `ends` and `begins` have a row for each number of blocks and a
// column for each place.
const least = new Int32Array(MOST_CELLS + 1);
const gaps = new Uint8Array(MOST_CELLS + 1);
const ends = new Uint8Array((MOST_CELLS + 1) * STRIDE);
const begins = new Uint8Array((MOST_CELLS + 1) * STRIDE);
const free = new Int32Array(16 * STRIDE);

/** The clue of a line of colour numbers: its blocks' lengths and colours, in order. */
export function clueOf(cells) {
  const [lengths, colours] = [[], []];
  for (let at = 0; at < cells.length;) {
    const from = at;
    while (at < cells.length && cells[at] === cells[from]) at++;
    if (cells[from] === 0) continue;
    lengths.push(at - from);
    colours.push(cells[from]);
  }
  return {lengths, colours};
}

// For each colour of the clue and each place: where a run of that colour that ends there may begin
// at the earliest.
function findFree(masks, size, {colours}) {
  let seen = 0;
  for (const colour of colours) {
    if (seen & (1 << colour)) continue;
    seen |= 1 << colour;
    const row = colour * STRIDE;
    free[row] = 0;
    for (let at = 0; at < size; at++)
      free[row + at + 1] = (masks[at] >> colour) & 1 ? free[row + at] : at + 1;
  }
}

// Fills `least`: how many cells the first so many blocks need, with the gaps between them; and
// `gaps`: 1 where a block has the colour of the one before it, else 0.
function fillLeast({lengths, colours}) {
  least[0] = 0;
  for (let block = 0; block < lengths.length; block++) {
    gaps[block] = block > 0 && colours[block] === colours[block - 1] ? 1 : 0;
    least[block + 1] = least[block] + gaps[block] + lengths[block];
  }
}

// `ends`: whether the first blocks fit into the cells before a place. Answers whether all fit into
// the line.
function fitFromTheFront(masks, slack, {lengths, colours}) {
  ends[0] = 1;
  for (let at = 1; at <= slack; at++) ends[at] = ends[at - 1] & masks[at - 1];
  let some = 1;
  for (let block = 0; block < lengths.length && some; block++) {
    const [length, gap, row, before] =
        [lengths[block], gaps[block], (block + 1) * STRIDE, block * STRIDE];
    const colour = colours[block] * STRIDE;
    some = 0;
    for (let at = least[block + 1], last = at + slack, fits = 0; at <= last; at++) {
      if (fits) fits = masks[at - 1] & 1;
      if (!fits && free[colour + at] <= at - length) {
        const from = at - length - gap;
        fits = ends[before + from] & (gap ? masks[from] : 1);
      }
      ends[row + at] = fits;
      some |= fits;
    }
  }
  return some && ends[lengths.length * STRIDE + least[lengths.length] + slack];
}

// `begins`: whether the blocks from one on fit into the cells from a place on, where the block
// before it ends there.
function fitFromTheBack(masks, slack, {lengths, colours}) {
  const count = lengths.length;
  for (let block = count; block >= 0; block--) {
    const [first, row] = [least[block], block * STRIDE];
    for (let at = first + slack, fits = block === count ? 1 : 0; at >= first; at--) {
      if (at < first + slack) fits &= masks[at] & 1;
      if (!fits && block < count) {
        const to = at + gaps[block] + lengths[block];
        const isFree = free[colours[block] * STRIDE + to] <= to - lengths[block] &&
            (!gaps[block] || masks[at] & 1);
        fits = isFree ? begins[row + STRIDE + to] : 0;
      }
      begins[row + at] = fits;
    }
  }
}

// Adds to `out` the background that some filling has between blocks, or outside of all.
function gatherBetween(masks, slack, {lengths}, out) {
  for (let block = 0; block <= lengths.length; block++) {
    const row = block * STRIDE;
    for (let at = least[block], last = at + slack; at < last; at++)
      out[at] |= ends[row + at] & begins[row + at + 1] & masks[at] & 1;
  }
}

// Adds to `out` the blocks that some filling has, each with the gap before it.
function gatherBlocks(masks, slack, {lengths, colours}, out) {
  for (let block = 0; block < lengths.length; block++) {
    const [length, gap, row, colour] =
        [lengths[block], gaps[block], block * STRIDE, colours[block]];
    for (let at = least[block], last = at + slack, filled = 0; at <= last; at++) {
      const from = at + gap;
      const isPossible = ends[row + at] && begins[row + STRIDE + from + length] &&
          free[colour * STRIDE + from + length] <= from && (!gap || masks[at] & 1);
      if (!isPossible) continue;
      if (gap) out[at] |= 1;
      for (let cell = Math.max(from, filled); cell < from + length; cell++)
        out[cell] |= 1 << colour;
      filled = from + length;
    }
  }
}

/**
 * Puts into `out` the candidates of `masks` that some filling of a line with this clue has. Answers
 * false, and no candidates at all, where none fits. `size` cells, at most 120.
 */
export function narrow(masks, size, clue, out) {
  out.fill(0, 0, size);
  fillLeast(clue);
  const slack = size - least[clue.lengths.length];
  if (slack < 0) return false;
  findFree(masks, size, clue);
  if (!fitFromTheFront(masks, slack, clue)) return false;
  fitFromTheBack(masks, slack, clue);
  gatherBetween(masks, slack, clue, out);
  gatherBlocks(masks, slack, clue, out);
  return true;
}
