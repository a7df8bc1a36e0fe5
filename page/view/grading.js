// What the engine says beside the verdict: the grade, and whether the puzzle is fit to be
// published. The second worker is asked once the user rests, never on the way of a stroke.

import {$, write} from '../base/elements.js';
import {on, tell} from '../base/events.js';
import {gradeName, gradeRank} from '../base/names.js';
import {gradeIn} from '../engine/assessing.js';
import {bench} from '../engine/bench.js';
import {LINE_WORDS} from '../repair/aiming.js';
import {phrase} from '../texts/phrase.js';
import {addAction} from './actions.js';
import {fitText} from './dress.js';
import {canDelay, openFix, openLater} from './fixing.js';
import {searches, secondsChosen, showVerdictButtons} from './verdict.js';

const REST = 1000;  // milliseconds without a stroke or a search
const MOST_SECONDS = 5;

const grading = {
  shown: null,
  of: null,
  said: null,
  waits: 0
};

const isSame = (one, other) => one !== null && one.picture === other.picture &&
    one.givens === other.givens && one.colours === other.colours;

// What was said of the open picture, or null.
const presentAnswer = () =>
    (bench.state && grading.of && isSame(grading.of, bench.state) ? grading.said : null);

/** The grade of the open picture, or null where there is none yet. */
export const presentGrade = () => (presentAnswer() ? gradeIn(presentAnswer()) : null);

// The figures in words.
function figuresText({open, grade: {rounds, evaluations, wait, splits, depth}}) {
  const lines = phrase('view.roundsLinesLookedLongest', {rounds, lines: evaluations, wait});
  return open ? phrase('view.cellsGuessSplitsDepth', {open, splits, depth, lines}) : lines;
}

// Whether it is fit to be published: an ambiguous puzzle is not, before anything else is known of
// it.
function publishText(said) {
  if (said) return fitText(bench.state, said);
  return bench.state?.verdict.word === 'ambiguous' ?
      phrase(
          'view.publishNoAs', {flaws: phrase('view.flawOthers', {fix: phrase('view.fixTitle')})}
      ) :
      '–';
}

// The last grade stays, greyed, while that of the open picture is worked out; what is not unique
// has none.
function showGrade() {
  const [said, grade] = [presentAnswer(), presentGrade()];
  if (bench.state?.verdict.word !== 'ambiguous')
    grading.shown = grade ?? grading.shown;
  else
    grading.shown = null;
  const {shown} = grading;
  $('audit').classList.toggle('old', shown !== null && grade === null);
  write($('grade-word'), shown ? gradeName(shown.word) : '');
  $('grade-dots').hidden = !shown;
  const place = shown ? gradeRank(shown.word) : -1;
  [...$('grade-dots').children].forEach((dot, at) => dot.classList.toggle('full', at <= place));
  if (said || !shown) {
    write($('grade'), grade ? `${gradeName(grade.word)} (${figuresText(said)})` : '–');
    write($('publish'), publishText(said));
  }
}

// Waits for rest. Any other search comes first.
function schedule() {
  clearTimeout(grading.waits);
  if (bench.state?.verdict.word === 'unique' && !(grading.of && isSame(grading.of, bench.state)))
    grading.waits = setTimeout(work, REST);
}

async function work() {
  const {state} = bench;
  if (!state) return;
  if (searches.running || bench.running) return schedule();
  const said = await searches.assess(Math.min(MOST_SECONDS, secondsChosen()));
  if (bench.state && isSame(bench.state, state) && (said || !searches.running)) {
    Object.assign(grading, {of: state, said});
    showGrade();
    showVerdictButtons();
    tell('graded', presentGrade());
  } else
    schedule();
}

// The grade that is a step easier (-1) or harder (1) than that of the open picture, among those
// that line logic solves; undefined where there is none.
function nextWord(step) {
  if (bench.state?.verdict.word !== 'unique' || bench.state.open) return undefined;
  const at = LINE_WORDS.indexOf(presentGrade()?.word);
  return at < 0 ? undefined : LINE_WORDS[at + step];
}

/** Whether the open picture may be made easier. */
export const canEase = () => bench.state !== null &&
    (bench.state.open > 0 || bench.state.verdict.word !== 'unique' || nextWord(-1) !== undefined);

/** Looks for what makes it easier, or needs no guess, in some places only. */
export const easeAt = (places) => openFix(nextWord(-1) ?? null, places);

/** Hears verdicts, and adds what looks for another grade. */
export function startGrading() {
  for (const [id, name, step] of [
           ['easier', phrase('view.easier'), -1],
           ['harder', phrase('view.harder'), 1]])
    addAction({
      place: 'check',
      id,
      name,
      run: () => openFix(nextWord(step)),
      can: () => nextWord(step) !== undefined
    });
  addAction({
    place: 'check',
    id: 'later',
    name: phrase('view.knownLater'),
    hint: phrase('view.knownLaterHint'),
    run: openLater,
    can: canDelay
  });
  on('opened', () => {
    grading.shown = null;
  });
  on('stroke', () => clearTimeout(grading.waits));
  for (const name of ['shown', 'judged']) {
    on(name, () => {
      showGrade();
      schedule();
    });
  }
}
