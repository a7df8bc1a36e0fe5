// Play: the empty puzzle as a solver gets it. Marks are the player's own and change nothing of the
// picture.

import {$, buttonOf, make, spanOf, withoutGestures} from '../base/elements.js';
import {on, tell} from '../base/events.js';
import {gradeName} from '../base/names.js';
import {markRadio} from '../base/radios.js';
import {clamp, sizeText} from '../base/words.js';
import {sameDoc} from '../document/document.js';
import {LETTERS, MOST_CELLS} from '../document/limits.js';
import {lineCells} from '../document/shapes.js';
import {usedLetters} from '../document/used.js';
import {iconOf, withIcon} from '../draw/icons.js';
import {drawSmall} from '../draw/small.js';
import {bench} from '../engine/bench.js';
import {phrase} from '../texts/phrase.js';
import {addAction, makeMenu, runAction} from '../view/actions.js';
import {openDialog} from '../view/dialogs.js';
import {dress, inkName} from '../view/dress.js';
import {presentGrade} from '../view/grading.js';
import {selection} from '../view/select.js';
import {asSeen} from '../view/tools.js';
import {searches} from '../view/verdict.js';
import {isMet, marksOf} from './crossing.js';
import {hintedCells, nextHint, wrongMarks} from './hints.js';
import {keepMarks, keptMarks} from './kept.js';
import {drawPlay, drawStroke, fitPlay, movePlay, refitPlay, zoomPlay} from './playdraw.js';
import {endWalk, isWalking, startWalk, walkBar, walkKey} from './walking.js';

const SOLVED_SIDE = 1200;  // pixels of the picture that was solved

export const play = {
  state: null,
  marks: [],
  letter: 'a',
  past: [],
  future: [],
  wrong: new Set(),
  at: {row: 0, col: 0},
  side: 24,
  room: [],
  isZoomed: false,
  drag: null,
  isSolved: false,
  shown: null,
  heat: null,
  hint: null,
  hinted: new Set()
};

// Whether the marks of the last time are those of this puzzle: what was marked before the room was
// left stands there again.
const goesOn = ({picture, givens, colours}) => play.past.length > 0 &&
    play.state.picture === picture && play.state.givens === givens &&
    play.state.colours === colours;

// Gets the marks of the last time where it is the same puzzle, else new ones. Answers whether some
// were kept.
function preparePlay(state) {
  const isGoing = goesOn(state);
  const kept = isGoing ? play.marks : keptMarks(state);
  if (!isGoing)
    Object.assign(play, {
      marks: kept ?? marksOf(state),
      letter: usedLetters(state)[0] ?? '.',
      past: [],
      future: [],
      at: {row: 0, col: 0},
      isSolved: false,
      hinted: new Set()
    });
  Object.assign(play, {state, wrong: new Set(), drag: null, shown: null, heat: null, hint: null});
  return Boolean(kept);
}

function playDialog({about}) {
  const dialog = make(
      'dialog',
      {id: 'play-room', 'aria-label': phrase('play.play')},
      playBar(),
      walkBar(),
      playLine(),
      playBoard(),
      solvedPart(),
      make(
          'div', {id: 'play-palette', role: 'radiogroup', 'aria-label': phrase('view.colourLabel')}
      ),
      make('p', {id: 'play-credit', class: 'faint', hidden: !(about.title || about.author)})
  );
  dialog.addEventListener('close', () => {
    endWalk();
    dialog.remove();
  });
  dialog.addEventListener('keydown', playKey);
  return dialog;
}

// What a player hears first: whether there are marks, how many solutions, and what is given.
function greeting({verdict: {word}, givens}, hasMarks) {
  const solutions = word === 'unique' ? phrase('play.oneSolutionGoodLuck') :
      word === 'ambiguous'            ? phrase('play.puzzleMoreOneSolution') :
                                        phrase('play.notKnownWhetherPuzzle');
  return `${hasMarks ? phrase('play.yourMarksYouLeft') : ''}${solutions}${
      givens.size ? phrase('play.cellsDiamondGiven') : ''}`;
}

/**
 * Shows the puzzle to be solved. Where it stands alone, there is no way to the picture but the one
 * that the player paints.
 */
export async function openPlay({isAlone = false} = {}) {
  if ((selection.rows || bench.queue.length) && !(await asSeen())) return;
  $('play-room')?.remove();
  const {state} = bench;
  const hasMarks = preparePlay(state);
  searches.stop();
  const dialog = playDialog(state);
  if (isAlone) keepOpen(dialog);
  $('dialogs').append(dialog);
  dialog.showModal();
  playPalette();
  fitPlay();
  afterPlay();
  new ResizeObserver(() => refitPlay()).observe(dialog);
  $('play-field').focus({preventScroll: true});
  $('play-board').scrollTo(0, 0);
  playSays(greeting(state, hasMarks));
}

// Where the player stands alone nothing closes it: neither Escape nor a phone's way back.
function keepOpen(dialog) {
  dialog.addEventListener('keydown', (event) => {
    if (event.key === 'Escape') event.preventDefault();
  });
  dialog.addEventListener('close', () => {
    if (document.body.classList.contains('player')) openPlay({isAlone: true});
  });
}

/** Says something above the board; what is a hint can be done by a button behind it. */
export const playSays = (text, isHint = false) => {
  $('play-said').textContent = text;
  $('play-do').hidden = !isHint;
};

function playLine() {
  const title = phrase('play.marksWhatHint');
  return make(
      'div',
      {id: 'play-line'},
      make('p', {id: 'play-said', role: 'status'}),
      buttonOf('play-do', phrase('play.doIt'), doHint, {title, hidden: true})
  );
}

// The header: the way back, what the puzzle is, and three icons; the last opens a menu of the rest.
function playBar() {
  const {state} = play;
  const grade = presentGrade();
  const icon = (id, name, run, as) => withIcon(buttonOf(id, '', run), as, name);
  const list = make('div', {
    id: 'play-menu',
    class: 'menu',
    role: 'menu',
    popover: 'auto',
    'aria-label': phrase('view.more')
  });
  const item = (id, name, run, as, title = null) => {
    const button = buttonOf(id, iconOf(as), run, {role: 'menuitem', tabindex: '-1', title});
    button.append(make('span', {}, name));
    button.addEventListener('click', () => list.hidePopover());
    return button;
  };
  const items = [
    item('play-redo', phrase('view.redo'), () => playTurn('future', 'past'), 'redo'),
    item('play-check', phrase('view.check'), checkPlay, 'check', phrase('play.marksCellsNotYour')),
    item('play-clear', phrase('play.startOver'), clearPlay, 'again'),
    item('play-walk', phrase('play.walkThrough'), startWalk, 'walk'),
    item('play-larger', phrase('view.larger'), () => zoomPlay(1), 'plus'),
    item('play-smaller', phrase('view.smaller'), () => zoomPlay(-1), 'minus'),
    item('play-help', phrase('view.help'), helpPlay, 'help')
  ];
  list.append(...items);
  const hint = icon('play-hint', phrase('play.hint'), hintPlay, 'hint');
  hint.title = phrase('play.lineTellsMoreAgain');
  const more = withIcon(buttonOf('play-more', '', () => {}), 'more', phrase('view.more'));
  makeMenu(more, list, () => items);
  return make(
      'div',
      {id: 'play-bar'},
      icon('play-close', phrase('play.backPicture'), () => $('play-room').close(), 'back'),
      make('h2', {}, sizeText(state)),
      make('span', {id: 'play-grade', class: 'faint'}, grade ? gradeName(grade.word) : ''),
      icon('play-undo', phrase('view.undo'), () => playTurn('past', 'future'), 'undo'),
      hint,
      more,
      list
  );
}

// What comes when it is solved: the picture, as large as there is room, whose it is, and where to
// go on.
function solvedPart() {
  return make(
      'section',
      {id: 'play-solved', hidden: true, 'aria-label': phrase('play.solved')},
      make('canvas', {id: 'solved-picture', role: 'img', 'aria-label': phrase('main.picture')}),
      make('h2', {id: 'solved-title'}),
      make('p', {id: 'solved-author', class: 'faint'}),
      make(
          'div',
          {class: 'group'},
          buttonOf('solved-walk', phrase('play.walkThrough'), startWalk, {class: 'main'}),
          buttonOf('solved-share', phrase('export.shareLink'), () => runAction('share'))
      )
  );
}

/** Shows what comes when it is solved, or takes it away. */
export function showSolved() {
  const isShown = play.isSolved && !isWalking();
  if ($('play-solved').hidden === !isShown) return;
  $('play-solved').hidden = !isShown;
  $('play-room').classList.toggle('solved', isShown);
  if (!isShown) return;
  const picture = play.marks.map((row) => row.map((mark) => (mark === '?' ? '.' : mark)).join(''));
  drawSmall($('solved-picture'), {...play.state, picture}, SOLVED_SIDE);
  const {title, author} = play.state.about;
  $('solved-title').textContent = title || phrase('play.solved');
  $('solved-author').textContent = author ? phrase('export.by', {author}) : '';
}

function helpPlay() {
  const list =
      make('ul', {}, ...phrase('play.howTo').split('\n').map((line) => make('li', {}, line)));
  openDialog({
    title: phrase('view.help'),
    content: make('div', {class: 'help'}, list),
    buttons: [{name: phrase('view.close'), value: null, main: true}]
  });
}

function playBoard() {
  const field = make('canvas', {
    id: 'play-field',
    tabindex: '0',
    role: 'application',
    'aria-roledescription': phrase('play.puzzle'),
    'aria-label': phrase('play.puzzle'),
    'aria-describedby': 'play-cell'
  });
  withoutGestures(field);
  field.addEventListener('contextmenu', (event) => event.preventDefault());
  for (const [type, hear] of Object.entries(playPointer)) field.addEventListener(type, hear);
  return make(
      'div',
      {id: 'play-board'},
      make('canvas', {id: 'play-corner', 'aria-hidden': 'true'}),
      make('canvas', {id: 'play-top', 'aria-hidden': 'true'}),
      make('canvas', {id: 'play-left', 'aria-hidden': 'true'}),
      field,
      make('p', {id: 'play-cell', class: 'unseen', 'aria-live': 'polite'})
  );
}

// Colours, the mark of a background cell, and the wipe.
function playPalette() {
  const choices = [...usedLetters(play.state), '.', '?'];
  $('play-palette').replaceChildren(...choices.map((letter) => {
    const name = letter === '.' ? phrase('view.background') :
        letter === '?'          ? phrase('play.wipe') :
                                  inkName(play.state, letter);
    const icon = {'.': 'close', '?': 'wipe'}[letter];
    const button = buttonOf(
        null,
        icon ? iconOf(icon) : letter,
        () => choosePlay(letter),
        {role: 'radio', 'data-letter': letter, 'aria-label': name, title: name}
    );
    if (!icon) dress(button, letter, play.state);
    return button;
  }));
  choosePlay(play.letter);
}

function choosePlay(letter) {
  if (!['.', '?', ...usedLetters(play.state)].includes(letter)) return;
  play.letter = letter;
  markRadio($('play-palette'), ({dataset}) => dataset.letter === letter);
}

// ---- marks

const playPlace = (index) => [Math.floor(index / play.state.columns), index % play.state.columns];

// A stroke of marks: cells with what stood there before. On the solving path nothing is marked.
function markPlay(cells, mark) {
  const stroke = [];
  if (isWalking()) return stroke;
  play.shown = null;
  for (const index of cells) {
    const [row, col] = playPlace(index);
    if (play.state.givens.has(index) || play.marks[row][col] === mark) continue;
    stroke.push({index, before: play.marks[row][col], after: mark});
    play.marks[row][col] = mark;
    play.wrong.delete(index);
  }
  return stroke;
}

function keepPlay(stroke) {
  if (!stroke.length) return;
  play.past.push(stroke);
  play.future = [];
  afterPlay();
}

function playTurn(from, to) {
  const stroke = isWalking() ? null : play[from].pop();
  if (!stroke) return;
  for (const {index, before, after} of stroke) {
    const [row, col] = playPlace(index);
    play.marks[row][col] = from === 'past' ? before : after;
    play.wrong.delete(index);
  }
  play[to].push(stroke);
  afterPlay();
}

export const playColumn = (col) => play.marks.map((row) => row[col]);

function afterPlay() {
  const {clues} = play.state;
  const solved = clues.rows.every((blocks, row) => isMet(blocks, play.marks[row])) &&
      clues.columns.every((blocks, col) => isMet(blocks, playColumn(col)));
  if (solved && !play.isSolved) {
    const other = play.marks.some(
        (row, at) =>
            row.some((mark, col) => (mark === '?' ? '.' : mark) !== play.state.picture[at][col])
    );
    playSays(other ? phrase('play.solvedButPictureOther') : phrase('play.solved'));
    tell('solved', null);
  } else if (!solved)
    playSays('');
  play.isSolved = solved;
  showSolved();
  keepMarks(play.state, play.marks, solved);
  const {title, author} = play.state.about;
  $('play-credit').textContent =
      [solved && title, author && phrase('export.by', {author})].filter(Boolean).join(', '
      );  // a title may tell what it is
  $('play-undo').disabled = !play.past.length;
  $('play-redo').disabled = !play.future.length;
  drawStroke();
}

// A cell that another solution has is not wrong: only where the picture is known to be the one
// solution is it told so.
export function checkText(count) {
  if (play.state.verdict.word === 'unique')
    return count ? phrase('play.cellsWrong', {cells: count}) : phrase('play.nothingWrongSoFar');
  return count ? phrase('play.cellsDiffer', {cells: count}) : phrase('play.nothingDiffersFromYour');
}

function checkPlay() {
  play.wrong = wrongMarks();
  playSays(checkText(play.wrong.size));
  drawPlay();
}

async function hintPlay() {
  const hint = await nextHint();
  if (!hint || !$('play-field')) return;
  play.shown = hint.shown;
  drawPlay();
  playSays(hint.text, hint.shown !== null);
}

// Marks what the hint at hand tells, as one stroke.
async function doHint() {
  const hint = await hintedCells();
  if (!hint || !$('play-field')) return;
  keepPlay(hint.cells.flatMap(({index, letter}) => markPlay([index], letter)));
  if (!play.isSolved) playSays(hint.text, hint.cells.length > 0);
}

function clearPlay() {
  Object.assign(play, {wrong: new Set(), hinted: new Set()});
  const stroke = markPlay(
      play.marks.flatMap((row, at) => row.map((_, col) => at * play.state.columns + col)), '?'
  );
  keepPlay(stroke);
  if (stroke.length) playSays(phrase('play.startedOver'));
}

// ---- pointer and keys

function playCellAt(event) {
  const box = $('play-field').getBoundingClientRect();
  const [row, col] = [
    Math.floor((event.clientY - box.top) / play.side),
    Math.floor((event.clientX - box.left) / play.side)
  ];
  return row >= 0 && col >= 0 && row < play.state.rows && col < play.state.columns ? {row, col} :
                                                                                     null;
}

// Where the first cell has the mark already, the stroke wipes.
function beginPlay(at, letter) {
  const mark = play.marks[at.row][at.col] === letter ? '?' : letter;
  play.drag = {mark, from: at, to: at, way: null, stroke: []};
  alongPlay(at);
}

// A stroke stays in the row or the column of its first cell: the one along which it first goes
// further than across.
function inLine(drag, {row, col}) {
  const {from, to} = drag;
  const [down, across] = [Math.abs(row - from.row), Math.abs(col - from.col)];
  if (!drag.way && down !== across) drag.way = down < across ? 'row' : 'col';
  return drag.way ? {row, col, [drag.way]: from[drag.way]} : to;
}

function alongPlay(cell) {
  const {drag} = play;
  const at = inLine(drag, cell);
  drag.stroke.push(...markPlay(
      lineCells(drag.to, at).map(({row, col}) => row * play.state.columns + col), drag.mark
  ));
  drag.to = at;
  movePlay(at);
}

function endPlay() {
  const {drag} = play;
  play.drag = null;
  if (drag) keepPlay(drag.stroke);
}

const playFingers = new Map();
let pinched = 0;  // pixels between two fingers at the last step of the zoom

// Two fingers that go apart, or together, zoom a step each time that their distance is another one.
function pinchPlay() {
  const {x, y, far} = spanOf(playFingers);
  if (pinched === 0 || far === 0) pinched = far;
  const way = far > pinched * 1.2 ? 1 : far < pinched / 1.2 ? -1 : 0;
  if (way === 0) return;
  pinched = far;
  zoomPlay(way, [x, y]);
}

function endFinger(event) {
  playFingers.delete(event.pointerId);
  pinched = 0;
  endPlay();
}

const playPointer = {
  pointerdown(event) {
    event.preventDefault();
    $('play-field').setPointerCapture(event.pointerId);
    $('play-field').focus({preventScroll: true});
    playFingers.set(event.pointerId, event);
    if (playFingers.size > 1) {
      const {drag} = play;
      endPlay();
      if (drag?.stroke.length) playTurn('past', 'future');
      return;
    }
    const at = playCellAt(event);
    if (at) beginPlay(at, event.button === 2 ? '.' : play.letter);
  },
  pointermove(event) {
    const before = playFingers.get(event.pointerId);
    if (before && playFingers.size > 1) {
      pinchPlay();
      $('play-board')
          .scrollBy(
              (before.clientX - event.clientX) / playFingers.size,
              (before.clientY - event.clientY) / playFingers.size
          );
      playFingers.set(event.pointerId, event);
      return;
    }
    const at = playCellAt(event);
    if (at && play.drag) alongPlay(at);
  },
  pointerup: endFinger,
  pointercancel: endFinger,
};

const PLAY_STEPS = {
  ArrowUp: [-1, 0],
  ArrowDown: [1, 0],
  ArrowLeft: [0, -1],
  ArrowRight: [0, 1],
  PageUp: [-10, 0],
  PageDown: [10, 0],
  Home: [0, -MOST_CELLS],
  End: [0, MOST_CELLS]
};
function playKey(event) {
  if (!event.ctrlKey && !event.metaKey && !event.altKey && walkKey(event))
    return event.preventDefault();
  const step = event.target === $('play-field') ? PLAY_STEPS[event.key] : null;
  const way = event.ctrlKey || event.metaKey ?
      {z: event.shiftKey ? 'redo' : 'undo', y: 'redo'}[event.key.toLowerCase()] :
      null;
  if (!way && (event.ctrlKey || event.metaKey || event.altKey)) return undefined;
  if (way)
    playTurn(...(way === 'undo' ? ['past', 'future'] : ['future', 'past']));
  else if (step)
    movePlay(
        {
          row: clamp(play.at.row + step[0], 0, play.state.rows - 1),
          col: clamp(play.at.col + step[1], 0, play.state.columns - 1)
        },
        true
    );
  else if (event.target === $('play-field') && (event.key === ' ' || event.key === 'Enter')) {
    beginPlay(play.at, play.letter);
    endPlay();
  } else if (event.key === 'Backspace' || event.key === 'Delete')
    keepPlay(markPlay([play.at.row * play.state.columns + play.at.col], '?'));
  else if (event.key === 'x') {
    beginPlay(play.at, '.');
    endPlay();
  } else if (event.key.length === 1 && LETTERS.includes(event.key))
    choosePlay(event.key);
  else if (/^[0-9]$/.test(event.key))
    choosePlay(['.', ...usedLetters(play.state)][Number(event.key)]);
  else
    return undefined;
  return event.preventDefault();
}

/** Adds Play and the solving path to the menu Check. */
export function startPlay() {
  addAction({id: 'play', name: phrase('play.play'), place: 'check', run: openPlay});
  addAction({
    id: 'walk',
    name: phrase('play.walkThrough'),
    place: 'check',
    run: () => openPlay().then(startWalk)
  });
  on('shown', (state) => {  // hints and the path are of the picture that is open: the player of
                            // another one is closed
    if (!$('play-room') || sameDoc(play.state, state)) return;
    endWalk();
    $('play-room').close();
  });
}
