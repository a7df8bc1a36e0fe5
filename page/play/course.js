// The solving path of the open picture, in the panel: what a solver has after shares of it, with
// a slider, when the selection is half known, and the difficulty curve. While its fold is open, the
// second worker walks the path behind strokes.

import {$, buttonOf, make, svgPart} from '../base/elements.js';
import {behindFrame, on} from '../base/events.js';
import {clamp} from '../base/words.js';
import {sameBenchPart} from '../document/document.js';
import {sheet} from '../draw/sheet.js';
import {drawSmall} from '../draw/small.js';
import {bench} from '../engine/bench.js';
import {shareOf, stepHalfKnown} from '../repair/later.js';
import {phrase} from '../texts/phrase.js';
import {addAction} from '../view/actions.js';
import {canEase, easeAt} from '../view/grading.js';
import {selectedPlaces} from '../view/select.js';
import {searches, secondsChosen} from '../view/verdict.js';
import {cellsLeft, cliffsOf, drawCurve, stepAcross} from './curve.js';
import {SHARES, stepAt} from './film.js';
import {cellsOf} from './lines.js';
import {pathOf} from './path.js';
import {stepText} from './telling.js';

const REST = 600;  // milliseconds without a stroke or a search
const SOON = 250;  // where the fold opens: a search for the verdict has begun by then
const MOST_SECONDS = 5;
const [THUMB, LARGE] = [48, 160];  // pixels
const NEAR = 0.05;                 // of the curve's width: a press so near a cliff means it

// The path that is shown, at which step, and of which picture; it stays, greyed, until the next.
const course = {
  walk: null,
  of: null,
  at: 0,
  left: [],
  cliffs: [],
  cliff: null,
  waits: 0
};
// Whether the path of a state is that of another one: it ends otherwise where the verdict is
// another one.
const hasSamePath = (one, other) => one !== null && other !== null && sameBenchPart(one, other) &&
    one.verdict.word === other.verdict.word;
const isOfThis = () => hasSamePath(course.of, bench.state);
const isOpen = () => $('course')?.open === true;

// ---- what is shown

const thumb = (share) => buttonOf(
    `course-${share}`,
    phrase('play.share', {share}),
    () => goTo(share),
    {'data-share': share, 'aria-label': phrase('play.afterShare', {share}), disabled: true}
);

// The fold, which is filled when it is opened.
function makeCourse() {
  const fold = make(
      'details',
      {id: 'course', ontoggle: () => schedule(SOON)},
      make('summary', {}, phrase('play.path'))
  );
  fold.addEventListener('toggle', () => fillCourse(fold), {once: true});
  $('details-do').after(fold);
}

function fillCourse(fold) {
  fold.append(
      make('div', {id: 'film'}, ...SHARES.map(thumb)),
      make('div', {id: 'film-now'}, make('canvas', {class: 'small', 'aria-hidden': 'true'})),
      make('input', {
        type: 'range',
        id: 'film-at',
        min: 0,
        max: 0,
        value: 0,
        disabled: true,
        'aria-label': phrase('play.step'),
        oninput: (event) => showStep(Number(event.target.value))
      }),
      make('p', {id: 'film-said', role: 'status'}),
      make('p', {id: 'film-half', class: 'faint'}),
      make('h3', {}, phrase('play.curve')),
      svgPart('svg', {id: 'curve', 'aria-hidden': 'true'}),
      make(
          'div', {id: 'cliffs', class: 'group', role: 'group', 'aria-label': phrase('play.cliffs')}
      ),
      buttonOf('cliff-ease', phrase('play.softenHere'), () => easeAt(placesOf(course.cliff)), {
        disabled: true,
        title: phrase('play.softenHint')
      }),
      make('p', {id: 'cliff-said', role: 'status'})
  );
  $('curve').addEventListener('click', pressCurve);
  for (const button of $('film').children)
    button.prepend(make('canvas', {class: 'small', 'aria-hidden': 'true'}));
}

// The picture as a solver has it after so many steps, on a canvas.
function drawKnown(canvas, at, most) {
  const {walk, of} = course;
  const letters = walk.letters(at).join('');
  const picture =
      of.picture.map((_, row) => letters.slice(row * of.columns, (row + 1) * of.columns));
  drawSmall(canvas, {...of, picture}, most);
}

const goTo = (share) => showStep(stepAt(course.walk, share));

function showStep(at, cliff = null) {
  const {walk, of} = course;
  course.at = clamp(at, 0, walk.steps.length);
  showCliff(cliff);
  drawCurve($('curve'), course.left, course.cliffs, course.at);
  $('film-at').value = course.at;
  drawKnown($('film-now').firstChild, course.at, LARGE);
  const known = walk.letters(course.at).filter((letter) => letter !== '?').length;
  $('film-said').textContent = phrase('play.filmSaid', {
    at: course.at,
    count: walk.steps.length,
    share: shareOf(walk.steps, course.at),
    known,
    cells: of.rows * of.columns
  });
}

// ---- cliffs

// The places of a cliff's step: the cells of its line, or of the row and the column of a guess.
function placesOf({at}) {
  const {walk, of} = course;
  const {line, falls: [{index}]} = walk.steps[at - 1];
  const lines =
      line === null ? [Math.floor(index / of.columns), of.rows + (index % of.columns)] : [line];
  return new Set(lines.flatMap((one) => cellsOf(of, one)));
}

// Shows the step of a cliff: in words, and by frames around the cells that it settles.
function showCliff(cliff) {
  const had = course.cliff !== null;
  course.cliff = cliff;
  for (const button of $('cliffs').children)
    button.setAttribute('aria-pressed', Number(button.dataset.at) === cliff?.at);
  $('cliff-ease').disabled = !cliff || !canEase();
  $('cliff-said').textContent = cliff ?
      phrase(
          'play.cliffSays',
          {at: cliff.at, why: cliff.why, step: stepText(course.of, course.walk.steps[cliff.at - 1])}
      ) :
      '';
  if (!cliff && !had) return;
  const falls = cliff && isOfThis() ? course.walk.steps[cliff.at - 1].falls : [];
  sheet.framed = falls.map(({index}) => index);
  sheet.redraw();
}

function makeCliffs() {
  $('cliffs').replaceChildren(...course.cliffs.map(
      (cliff) =>
          buttonOf('', phrase('play.cliffAt', {at: cliff.at}), () => showStep(cliff.at, cliff), {
            'data-at': cliff.at,
            title: cliff.why
          })
  ));
}

// A press on the curve shows the cliff there, or else the step.
function pressCurve(event) {
  if (!course.walk) return;
  const {left, width} = $('curve').getBoundingClientRect();
  const count = course.walk.steps.length;
  const at = stepAcross((event.clientX - left) / width, count);
  const far = (cliff) => Math.abs(cliff.at - 1 - at);
  const [near] = [...course.cliffs].sort((one, other) => far(one) - far(other));
  if (near && far(near) <= Math.max(1, NEAR * count))
    showStep(near.at, near);
  else
    showStep(at);
}

// When the selection is half known.
function showHalf() {
  if (!isOpen() || !course.walk || !bench.state) return;
  const places = isOfThis() ? selectedPlaces() : null;
  const {walk, of} = course;
  const at = places?.size ? stepHalfKnown(walk.steps, places, of.givens) : null;
  $('film-half').textContent = at === null ? phrase('play.selectPart') :
      at === Infinity                      ? phrase('play.halfOpen') :
                        phrase('play.halfKnown', {share: shareOf(walk.steps, at)});
}

function showCourse(share) {
  const {walk} = course;
  Object.assign(course, {left: cellsLeft(walk), cliffs: cliffsOf(walk)});
  makeCliffs();
  $('film-at').max = walk.steps.length;
  $('film-at').disabled = false;
  for (const button of $('film').children) {
    button.disabled = false;
    drawKnown(button.firstChild, stepAt(walk, Number(button.dataset.share)), THUMB);
  }
  goTo(share);
  showHalf();
  $('course').classList.remove('old');
}

// ---- when it is walked

// Waits for rest. Any other search comes first.
function schedule(rest = REST) {
  clearTimeout(course.waits);
  if (course.cliff && !(isOpen() && isOfThis())) showCliff(null);
  if (!isOpen() || !bench.state) return;
  $('course').classList.toggle('old', !isOfThis());
  if (!isOfThis())
    course.waits = setTimeout(walk, rest);
  else
    showHalf();
}

async function walk() {
  const {state} = bench;
  if (!state || searches.running || bench.running) return schedule();
  const seconds = Math.min(MOST_SECONDS, secondsChosen());
  const found = await pathOf(state, null, {name: '', seconds});
  if (!hasSamePath(state, bench.state) || (!found && searches.running)) return schedule();
  if (!found) return;  // the engine failed: another stroke tries again
  const share = course.walk ? shareOf(course.walk.steps, course.at) : 100;
  Object.assign(course, {walk: found, of: state});
  showCourse(share);
}

/** Adds the solving path to the panel, and to the menu Check. */
export function startCourse() {
  addAction({
    place: 'check',
    id: 'course',
    name: phrase('play.path'),
    run: () => {
      if (!$('details').checkVisibility()) $('verdict-open').click();
      $('course').open = true;
      $('course').scrollIntoView({block: 'nearest'});
      $('course').firstChild.focus({preventScroll: true});
    }
  });
  on('opened', () => {
    course.of = null;
  });
  on('stroke', () => clearTimeout(course.waits));
  for (const name of ['shown', 'judged']) on(name, () => schedule());
  on('selected', behindFrame(showHalf));
}

/** Fills the panel. */
export const showCoursePanel = () => makeCourse();
