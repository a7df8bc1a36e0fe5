// Which step a hint tells. It follows from what the player sees: the marks, the givens, background
// that a met clue leaves, and background that a hint named before. The engine says what follows.

import {isMet} from './crossing.js';
import {blocksOf, cellsOf, linesOf, narrowedBefore} from './lines.js';

/**
 * The letters of all cells that the player knows ('?': not known): the marks, as background the
 * other cells of lines whose clue is met, and the places that hints named as background.
 */
export function knownBy(state, marks, hinted = new Set()) {
  const known = [...marks];
  const isKnown = linesOf(state
  ).map((line) => isMet(blocksOf(state, line), cellsOf(state, line).map((index) => marks[index])));
  for (const line of linesOf(state).filter((one) => isKnown[one]))
    for (const index of cellsOf(state, line))
      if (known[index] === '?') known[index] = '.';
  for (const index of hinted)
    if (known[index] === '?') known[index] = '.';
  return known;
}

const hasColour = ({falls}) => falls.some(({letter}) => letter !== '.');

/** Whether a step settles background alone. */
export const isBackground = (step) => !hasColour(step);

// Whether a look needs known cells alone.
const isSeen = (state, known, look) =>
    look.needs.every(({index, letters}) => letters === known[index]) &&
    !narrowedBefore(state, look).length;

/**
 * The step to tell of looks that the engine takes from the known cells: the first that settles a
 * colour and needs these alone, else background by these alone, else a colour, else any cell; null
 * where no look settles a cell.
 */
export function stepOf(state, known, looks) {
  const steps = looks.filter(({falls}) => falls.length);
  const seen = steps.filter((look) => isSeen(state, known, look));
  return seen.find(hasColour) ?? seen[0] ?? steps.find(hasColour) ?? steps[0] ?? null;
}

/**
 * The step to tell. `ask` answers lines on the puzzle without the player's marks; null where no
 * line settles a cell.
 */
export async function nextStep(state, known, ask) {
  const pins = [...known.keys()].filter(
                                    (index) => known[index] !== '?' && !state.givens.has(index)
  ).map((index) => `pin ${Math.floor(index / state.columns) + 1} ${(index % state.columns) + 1}`);
  const answers = await ask([...pins, 'path']);
  return stepOf(state, known, answers.at(-1).looks);
}
