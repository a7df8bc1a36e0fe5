// The clues of rows of letters, worked out cell by cell for tests alone: no part of the page that
// is built, whose clues are the engine's.

function clueOf(line) {
  const blocks = [];
  line.forEach((letter, at) => {
    if (letter === '.') return;
    if (letter === line[at - 1])
      blocks.at(-1).length++;
    else
      blocks.push({length: 1, letter});
  });
  return blocks;
}

/** The clues of a picture, as the engine tells them. */
export const cluesOf = (picture) => ({
  rows: picture.map((row) => clueOf([...row])),
  columns: [...picture[0]].map((_, col) => clueOf(picture.map((row) => row[col])))
});
