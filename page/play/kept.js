// The marks of solvers that the browser keeps: of the puzzles played last, by their clues, until
// they are solved or have no mark.

import {LETTERS} from '../document/limits.js';
import {crcOf} from '../formats/zip.js';
import {keepChoice, keptChoice} from '../texts/language.js';
import {marksOf} from './crossing.js';

const KEPT = 'nonobench-marks';
const MOST_PUZZLES = 16;

const names = new WeakMap();  // of puzzles, by their clues: a stroke asks for one again

// The name of a puzzle: its size and the checksum of its clues.
function nameOf({rows, columns, clues}) {
  if (!names.has(clues))
    names.set(
        clues,
        `${columns} ${rows} ${
            crcOf(new TextEncoder().encode(JSON.stringify([clues.rows, clues.columns])))}`
    );
  return names.get(clues);
}

// Pairs of a puzzle's name and its marks, the newest first.
function keptPairs() {
  try {
    return JSON.parse(
                   keptChoice(KEPT) ?? '[]'
    ).filter(([name, marks]) => typeof name === 'string' && typeof marks === 'string');
  } catch {
    return [];
  }
}

/** Keeps the marks of a puzzle. */
export function keepMarks(state, marks, isSolved) {
  const [name, text] = [nameOf(state), marks.flat().join('')];
  const others = keptPairs().filter(([other]) => other !== name);
  const isOver = isSolved || text === marksOf(state).flat().join('');
  keepChoice(
      KEPT, JSON.stringify((isOver ? others : [[name, text], ...others]).slice(0, MOST_PUZZLES))
  );
}

/** The marks that are kept of a puzzle, with its givens; null where there are none. */
export function keptMarks(state) {
  const text = keptPairs().find(([name]) => name === nameOf(state))?.[1] ?? '';
  const letters = `${LETTERS.slice(0, state.colours.length)}?`;
  if (text.length !== state.rows * state.columns ||
      [...text].some((letter) => !letters.includes(letter)))
    return null;
  return marksOf(state).map(
      (row, at) => row.map((given, col) => (given === '?' ? text[at * state.columns + col] : given))
  );
}
