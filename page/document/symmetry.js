// Symmetric pens: which cells are drawn together with one.

/**
 * The kinds: none, left and right, top and bottom, both of them, and quarter turns about the
 * middle.
 */
export const SYMMETRIES = ['none', 'across', 'down', 'both', 'quarter'];

/**
 * Whether a kind has cells for cells: quarter turns have none where the middle is that of a side
 * in one way alone.
 */
export const isPossible = (symmetry, {rows, columns}) =>
    symmetry !== 'quarter' || (rows - columns) % 2 === 0;

const TURNS = {
  none: () => [],
  across: ({row, col}, {columns}) => [{row, col: columns - 1 - col}],
  down: ({row, col}, {rows}) => [{row: rows - 1 - row, col}],
  both: (cell, size) => [...TURNS.across(cell, size), ...TURNS.down(cell, size), {
    row: size.rows - 1 - cell.row,
    col: size.columns - 1 - cell.col
  }],
  // (row, col) turns about the middle of the picture: what is as far to the right of it comes as
  // far below it, and so on.
  quarter({row, col}, {rows, columns}) {
    const [over, beside] = [(2 * row - rows + 1) / 2, (2 * col - columns + 1) / 2];
    return [[beside, -over], [-over, -beside], [-beside, over]].map(
        ([down, across]) => ({row: down + (rows - 1) / 2, col: across + (columns - 1) / 2})
    );
  },
};

/** The cells that go with a cell, itself first: those in the picture. */
export function cellsWith(cell, size, symmetry) {
  if (!isPossible(symmetry, size)) return [cell];
  return [cell, ...TURNS[symmetry](cell, size)].filter(
      ({row, col}) => row >= 0 && col >= 0 && row < size.rows && col < size.columns
  );
}
