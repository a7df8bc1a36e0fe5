// The limits of a document, as the crates have them, and the letters of its colours. The build puts
// LIMITS in (web/limits.mjs).

export const MOST_CELLS = LIMITS.side;       // rows or columns
export const MOST_COLOURS = LIMITS.colours;  // with the background
export const MOST_NAME = 200;                // signs of a colour's name that a file has
export const HISTORY = LIMITS.history;       // commands that a bench can take back
export const LETTERS = '.abcdefghijklmno'.slice(0, MOST_COLOURS);

/** A file that is not read; the message is for the user. */
export class FileFault extends Error {}
