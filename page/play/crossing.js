// What a solver has of a puzzle: marks in cells, the blocks that they cross off, and whether all
// clues are met.

const NONE = '?';  // a cell without a mark

// The runs of one colour in a line; background and cells without a mark part them.
function runsOf(cells) {
  const runs = [];
  for (let at = 0; at < cells.length;) {
    let end = at + 1;
    while (end < cells.length && cells[end] === cells[at]) end++;
    if (cells[at] !== '.' && cells[at] !== NONE) runs.push({length: end - at, letter: cells[at]});
    at = end;
  }
  return runs;
}

/**
 * Whether the colours of a line are those of its clue, cells without a mark taken as background.
 */
export function isMet(blocks, cells) {
  const runs = runsOf(cells);
  return runs.length === blocks.length &&
      runs.every((run, at) => run.length === blocks[at].length && run.letter === blocks[at].letter);
}

// How many blocks are whole from the front, where no cell before or inside them is without a mark.
function wholeFromFront(blocks, cells) {
  let at = 0;
  let whole = 0;
  while (whole < blocks.length) {
    while (cells[at] === '.') at++;
    const {length, letter} = blocks[whole];
    let end = at;
    while (end < cells.length && cells[end] === letter) end++;
    if (end - at !== length) return whole;
    whole++;
    at = end;
  }
  return whole;
}

/**
 * Of each block of a clue, whether the marks in its line cross it off: all where the clue is met,
 * else those from both ends. The 0 of a clue without a block is crossed off once all cells are
 * marked.
 */
export function crossedOff(blocks, cells) {
  if (!blocks.length) return cells.every((cell) => cell === '.') ? [true] : [];
  if (isMet(blocks, cells)) return blocks.map(() => true);
  const front = wholeFromFront(blocks, cells);
  const back = wholeFromFront([...blocks].reverse(), [...cells].reverse());
  return blocks.map((_, at) => at < front || at >= blocks.length - back);
}

/** The marks that a puzzle begins with: its givens, and no other. */
export function marksOf({picture, columns, givens}) {
  return picture.map(
      (row, at) => [...row].map((letter, col) => (givens.has(at * columns + col) ? letter : NONE))
  );
}
