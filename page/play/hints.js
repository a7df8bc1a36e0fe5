// Hints: which line first, then which of its cells, then why. They follow from the player's own
// marks (hinting.js).

import {phrase} from '../texts/phrase.js';
import {searches} from '../view/verdict.js';
import {isBackground, knownBy, nextStep} from './hinting.js';
import {checkText, play} from './play.js';
import {markText, settledText, stepText} from './telling.js';

const MOST_SECONDS = 30;
const HOWS = ['line', 'cells', 'why'];

/** The places of marks that are not as in the picture. */
export const wrongMarks = () => new Set(play.marks.flatMap(
    (row, at) => row.flatMap(
        (mark, col) =>
            (mark === '?' || mark === play.state.picture[at][col] ? [] :
                                                                    [at * play.state.columns + col])
    )
));

// The step from these marks, without those cells that are known already; null where none
// does, undefined where the engine does not answer or there are other marks by then.
async function stepNow() {
  const {state, hinted} = play;
  const marks = play.marks.flat();
  const step = await searches.job('', MOST_SECONDS, async (copy) => {
    copy.changes();
    return {
      found: await nextStep(state, knownBy(state, marks, hinted), (lines) => copy.say(...lines))
    };
  });
  const isSame = play.state === state && play.marks.flat().join('') === marks.join('');
  return isSame ? step?.found : undefined;
}

// Whether a hint is given to its end: who does not mark background goes on from there.
const isThrough = ({step, level}) => step && isBackground(step) && level === HOWS.length - 1;

// Keeps the hint for these marks; answers whether there is one.
async function hintNow(isNext) {
  const key = play.marks.flat().join('');
  const {hint} = play;
  if (hint?.key === key && !(isNext && isThrough(hint))) return true;
  const step = await stepNow();
  if (step === undefined) return false;
  play.hint = {key, level: -1, step};
  return true;
}

const knownNow = () => knownBy(play.state, play.marks.flat(), play.hinted);
const leftText = () =>
    (knownNow().includes('?') ? phrase('play.noLineSettlesCell') : phrase('play.nothingLeft'));

const wrongText = () => {
  const wrong = wrongMarks().size;
  return wrong ? `${checkText(wrong)} ${phrase('play.checkShowsWhich')}` : '';
};

/**
 * The next part of a hint: its text, and what of it is shown; null where there are other marks by
 * then. The same marks get more each time, and background that it named counts as known.
 */
export async function nextHint() {
  if (wrongText()) return {text: wrongText(), shown: null};
  if (!(await hintNow(true))) return null;
  const {hint} = play;
  const {step} = hint;
  if (!step) return {text: leftText(), shown: null};
  hint.level = Math.min(hint.level + 1, HOWS.length - 1);
  const how = HOWS[hint.level];
  const cells = step.falls.map(({index}) => index);
  if (how !== 'line' && isBackground(step)) cells.forEach((index) => play.hinted.add(index));
  return {
    text: `${stepText(play.state, step, how)}${how === 'line' ? '' : markText(step)}`,
    shown: {
      line: step.line,
      cells: how === 'line' ? [] : cells,
      premises: how === 'why' ? step.needs.map(({index}) => index) : []
    }
  };
}

/**
 * The cells that the hint settles, with its text; without cells where there is nothing to
 * do, and null where there are other marks by then.
 */
export async function hintedCells() {
  if (wrongText()) return {text: wrongText(), cells: []};
  if (!(await hintNow(false))) return null;
  const {step} = play.hint;
  return step ? {text: `${settledText(play.state, step)}.`, cells: step.falls} :
                {text: leftText(), cells: []};
}
