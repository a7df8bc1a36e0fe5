// The safe brush: dots near the pointer where the chosen colour would cost a puzzle its one
// solution, or that lines solve it; and strokes that paint only what costs neither. The second
// worker is asked once the user rests, never on the way of a stroke.

import {say} from '../base/elements.js';
import {behindFrame, on} from '../base/events.js';
import {sheet} from '../draw/sheet.js';
import {bench} from '../engine/bench.js';
import {askMarks, goalOf, safePlaces} from '../engine/safety.js';
import {phrase} from '../texts/phrase.js';
import {addAction} from './actions.js';
import {sendPlaces, tools} from './tools.js';
import {searches} from './verdict.js';

const NEAR = 6;        // cells around the pointer that are marked
const MOST_ALL = 900;  // cells of a picture of which all are asked about
const REST = 120;      // milliseconds without a stroke
const MOST_SECONDS = 5;
const MOST_TRIES = 5;  // of a stroke, which other strokes end

const safe = {
  shows: false,   // dots
  only: false,    // whether strokes paint only what is safe
  isHeld: false,  // or do so now, by a key
  at: null,       // where the pointer or the cursor is
  of: null,       // what is known of it, by the present colour
  letter: '',
  known: new Map(),  // places to what was said of them
  timer: 0
};

const isOfThis = ({of, letter}) => of !== null && letter === tools.colour &&
    ['picture', 'givens', 'colours'].every((part) => of[part] === bench.state[part]);

// The places around the pointer, the nearest first; then the others of a picture that is small.
function placesToAsk({rows, columns}) {
  const {row, col} = safe.at;
  const far = (place) =>
      Math.max(Math.abs(Math.floor(place / columns) - row), Math.abs((place % columns) - col));
  const all = [...Array(rows * columns).keys()];
  return all.filter(
                (place) => far(place) <= NEAR || all.length <= MOST_ALL
  ).sort((one, other) => far(one) - far(other));
}

// Shows what is known near the pointer.
function show() {
  const {state} = bench;
  const isMarked = (place) => Math.max(
                                  Math.abs(Math.floor(place / state.columns) - safe.at.row),
                                  Math.abs((place % state.columns) - safe.at.col)
                              ) <= NEAR;
  const marked = safe.shows && state && safe.at && isOfThis(safe) ?
      [...safe.known].filter(([place, mark]) => mark !== 'safe' && isMarked(place)) :
      [];
  if (!marked.length && !sheet.warned.size) return;
  sheet.warned = new Map(marked);
  sheet.drawMarks();
}

const showLater = behindFrame(show);

function schedule() {
  clearTimeout(safe.timer);
  if (safe.shows && bench.state && safe.at && goalOf(bench.state))
    safe.timer = setTimeout(ask, REST);
}

// Asks for what is not known yet. Any other search comes first.
async function ask() {
  const {state} = bench;
  const goal = state && goalOf(state);
  if (!goal || tools.drag) return undefined;
  if (searches.running || bench.running) return schedule();
  if (!isOfThis(safe)) Object.assign(safe, {of: state, letter: tools.colour, known: new Map()});
  const {known, letter} = safe;
  const places = placesToAsk(state).filter((place) => !known.has(place));
  if (!places.length) return undefined;
  const take = (marks) => {
    for (const [place, mark] of marks) known.set(place, mark);
    showLater();
  };
  const done = await searches.job('', MOST_SECONDS, async (copy) => {
    await askMarks(copy, state, {places, letter, goal}, take);
    return true;
  });
  return done ? undefined : schedule();
}

// ---- strokes

const isSafely = () => safe.only || safe.isHeld;

// Paints of some places, in their order, those that are safe after the ones before them.
async function paintSafely(places, letter) {
  const {term} = bench;
  for (let tries = 0; tries < MOST_TRIES; tries++) {
    await bench.rest();
    if (bench.term !== term) return false;
    const {state} = bench;
    const goal = goalOf(state);
    if (!goal) break;
    const found = await searches.job('', MOST_SECONDS, (copy) => {
      copy.changes();
      return safePlaces(copy, state, {places: [...places], letter, goal});
    });
    if (!found || bench.state !== state) continue;  // a stroke came
    const wanted = [...places].filter(
        (place) =>
            state.picture[Math.floor(place / state.columns)][place % state.columns] !== letter
    );
    const left = wanted.length - found.length;
    if (left) say(phrase('view.safeLeft', {cells: left}));
    return !found.length || sendPlaces(new Set(found), letter);
  }
  say(phrase('view.safeNeedsOne'), 'alarm');
  return false;
}

function turn(what) {
  safe[what] = !safe[what];
  show();
  schedule();
}

/** Adds the safe brush to the menus, and hears what it needs to know. */
export function startSafe() {
  addAction({
    id: 'safe-dots',
    name: phrase('view.safeDots'),
    key: 'd',
    place: 'view',
    group: 'show',
    hint: phrase('view.safeDotsHint'),
    run: () => turn('shows'),
    isOn: () => safe.shows
  });
  addAction({
    id: 'safe-only',
    name: phrase('view.safeOnly'),
    key: 'Shift+D D',
    place: 'edit',
    group: 'safe',
    hint: phrase('view.safeOnlyHint'),
    run: () => turn('only'),
    isOn: () => safe.only
  });
  tools.guard = (places, letter) => (isSafely() ? paintSafely(places, letter) : null);
  const hold = (/** @type {any} */ {type, ctrlKey, metaKey}) => {
    safe.isHeld = type !== 'keydown' && (ctrlKey || metaKey);
  };
  for (const name of ['pointerdown', 'pointerup', 'keydown']) addEventListener(name, hold, true);
  const move = (at) => {
    if (at === null || (at.part ?? 'cell') !== 'cell') return;
    safe.at = {row: at.row, col: at.col};
    if (!safe.shows) return;
    showLater();
    schedule();
  };
  on('pointed', move);
  on('cursor', move);
  on('opened', () => Object.assign(safe, {of: null, at: {row: 0, col: 0}}));
  on('stroke', () => clearTimeout(safe.timer));
  for (const name of ['shown', 'judged', 'colour'])
    on(name, () => {
      show();
      schedule();
    });
}
