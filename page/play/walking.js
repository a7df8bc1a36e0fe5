// Walk through: the solving path on the field, step by step, with a slider, the hardest step, and
// the heat map.

import {$, buttonOf, make} from '../base/elements.js';
import {clamp} from '../base/words.js';
import {withIcon} from '../draw/icons.js';
import {phrase} from '../texts/phrase.js';
import {runAction} from '../view/actions.js';
import {confirmDialog} from '../view/dialogs.js';
import {Walk, pathOf} from './path.js';
import {play, playSays, showSolved} from './play.js';
import {drawPlay, refitPlay} from './playdraw.js';
import {heatOf} from './shown.js';
import {stepText} from './telling.js';

const PACE = 900;  // milliseconds a step
const KEY_TINTS = 8;

const walking = {
  walk: null,
  at: 0,
  text: '',
  isKnown: false,
  timer: 0,
  marks: null,
  mayShow: null
};

/** Whether the path is shown in place of the player's marks. */
export const isWalking = () => walking.walk !== null;

const iconButton = (id, icon, name, run) => withIcon(buttonOf(id, '', run), icon, name);

/** The bar of the path, which is hidden until it is walked. */
export function walkBar() {
  return make(
      'div',
      {id: 'walk-bar', class: 'group', hidden: true},
      iconButton('walk-back', 'earlier', phrase('play.stepBack'), () => goTo(walking.at - 1)),
      make('input', {
        type: 'range',
        id: 'walk-at',
        min: 0,
        value: 0,
        'aria-label': phrase('play.step'),
        oninput: (event) => goTo(Number(event.target.value))
      }),
      iconButton('walk-on', 'later', phrase('play.stepOn'), () => goTo(walking.at + 1)),
      iconButton('walk-play', 'play', phrase('play.playSteps'), turnPlaying),
      buttonOf('walk-hardest', phrase('play.hardestStep'), () => goTo(walking.walk.hardest)),
      make(
          'label',
          {},
          make('input', {type: 'checkbox', id: 'walk-heat', onchange: showHeat}),
          phrase('play.heatMap')
      ),
      buttonOf('walk-save', 'GIF', () => runAction('export-path'), {
        title: phrase('export.pathGif'),
        'aria-label': phrase('export.pathGif')
      }),
      buttonOf('walk-end', phrase('play.solveYourself'), endWalk)
  );
}

// Whether a puzzle's solution may be shown: who has it from others is asked once for each.
async function mayShow(state) {
  if (!document.body.classList.contains('player') || walking.mayShow === state) return true;
  if (!(await confirmDialog(
          phrase('play.walkThrough'), phrase('play.showsSolution'), phrase('play.walkThrough')
      )))
    return false;
  walking.mayShow = state;
  return play.state === state;
}

/** Begins the path from the empty puzzle; the player's marks come back at its end. */
export async function startWalk() {
  if (!(await mayShow(play.state)) || !$('walk-bar')) return;
  walking.marks ??= play.marks;
  $('walk-bar').hidden = false;
  refitPlay(false);
  const {state} = play;
  const isShown = () => $('walk-bar') !== null && !$('walk-bar').hidden && play.state === state;
  Object.assign(walking, {walk: new Walk(state), isKnown: false});
  showSolved();
  goTo(0);
  $('walk-at').focus();
  const show = (found) => {
    if (!isShown()) return;
    Object.assign(walking, found);
    goTo(walking.at);
  };
  await pathOf(state, (walk) => show({walk}));
  show({isKnown: true});
}

// ---- steps

function goTo(at) {
  const {walk} = walking;
  if (!walk) return;
  walking.at = clamp(at, 0, walk.steps.length);
  const letters = walk.letters(walking.at);
  const {columns, rows} = play.state;
  play.marks =
      Array.from({length: rows}, (_, row) => letters.slice(row * columns, (row + 1) * columns));
  const step = walking.at > 0 ? walk.steps[walking.at - 1] : null;
  const places = (cells) => cells.map(({index}) => index);
  play.shown = step && {line: step.line, cells: places(step.falls), premises: places(step.needs)};
  walking.text = step ? `: ${stepText(play.state, step)}` : phrase('play.emptyPuzzle');
  showLength();
  if (walking.isKnown && walking.at === walk.steps.length) stopPlaying();
  drawPlay();
}

// Where the path stands, and how long it is as far as it is known.
function showLength() {
  const {walk, at, text} = walking;
  $('walk-at').max = walk.steps.length;
  $('walk-at').value = at;
  $('walk-back').disabled = at === 0;
  $('walk-on').disabled = at === walk.steps.length;
  $('walk-hardest').disabled = !walking.isKnown;
  playSays(phrase('play.stepOf', {
    at,
    count: walk.steps.length,
    isWhole: walking.isKnown ? '' : phrase('play.soFar'),
    told: text
  }));
}

function turnPlaying() {
  if (walking.timer) return stopPlaying();
  if (walking.at === walking.walk?.steps.length) goTo(0);
  withIcon($('walk-play'), 'pause', phrase('play.pause'));
  walking.timer = setInterval(() => goTo(walking.at + 1), PACE);
}

function stopPlaying() {
  clearInterval(walking.timer);
  walking.timer = 0;
  if ($('walk-play')) withIcon($('walk-play'), 'play', phrase('play.playSteps'));
}

// The tints of the heat map, from the first round to the last, and that of what needs a guess.
function heatKey(rounds) {
  const most = Math.max(1, ...rounds);
  const few = Math.min(most, KEY_TINTS);
  const tints = Array.from({length: few}, (_, at) => Math.ceil((at + 1) * most / few));
  const swatch = (round) => {
    const one = make('span', {class: 'swatch'});
    one.style.background = heatOf(round, most);
    return one;
  };
  return make(
      'span',
      {id: 'heat-key', 'aria-hidden': 'true'},
      ...(rounds.some((round) => round > 0) ? ['1 ', ...tints.map(swatch), `${most}`] : []),
      ...(rounds.includes(-1) ? [' ? ', swatch(-1)] : [])
  );
}

function showHeat() {
  play.heat = $('walk-heat').checked ? walking.walk.rounds : null;
  drawPlay();
  if (!play.heat) return goTo(walking.at);
  playSays(phrase('play.numberCellRoundFalls'));
  return $('play-said').append(' ', heatKey(play.heat));
}

/** Ends the path: the player's marks stand again. */
export function endWalk() {
  stopPlaying();
  if (walking.marks) play.marks = walking.marks;
  Object.assign(walking, {walk: null, marks: null, at: 0});
  Object.assign(play, {shown: null, heat: null});
  if (!$('walk-bar')) return;
  $('walk-bar').hidden = true;
  refitPlay(false);
  $('walk-heat').checked = false;
  playSays('');
  showSolved();
  drawPlay();
  $('play-field').focus({preventScroll: true});
}

const KEYS = {
  ArrowLeft: -1,
  ArrowRight: 1,
  PageUp: -10,
  PageDown: 10
};

/** Takes a key of the path; answers whether it was one. */
export function walkKey(event) {
  if (!isWalking()) return false;
  if (event.key in KEYS)
    goTo(walking.at + KEYS[event.key]);
  else if (event.target === $('walk-at'))
    return false;
  else if (event.key === 'Home')
    goTo(0);
  else if (event.key === 'End')
    goTo(walking.walk.steps.length);
  else if (event.key === ' ' && event.target === $('play-field'))
    turnPlaying();
  else if (event.key === 'h' && walking.isKnown)
    goTo(walking.walk.hardest);
  else
    return false;
  return true;
}
