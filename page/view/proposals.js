// Proposals as they are shown: the part of the picture that changes, as it will be, large enough to
// be seen; what takes or keeps one; their list.

import {make} from '../base/elements.js';
import {gradeName} from '../base/names.js';
import {cssOf} from '../document/colours.js';
import {painted} from '../document/cover.js';
import {LETTERS} from '../document/limits.js';
import {boxAround} from '../document/regions.js';
import {cutOut} from '../document/shapes.js';
import {givenCorners} from '../draw/board.js';
import {drawTwice} from '../draw/marks.js';
import {sheet} from '../draw/sheet.js';
import {smallPicture} from '../draw/small.js';
import {LINE_WORDS} from '../repair/aiming.js';
import {phrase} from '../texts/phrase.js';
import {inkName} from './dress.js';

const MOST_NAMED = 3;  // cells that are named one by one
const SIDE = 96;       // pixels of a picture
const AROUND = 3;      // cells that are shown around those that change
const LEAST = 9;       // cells of a picture's side
const APART = 8;  // rows or columns from which on two changes are seen in pictures of their own
const MOST_PARTS = 4;  // such pictures, in the room of one
const AIMED = 250;     // milliseconds for which a press is still meant for what was there before

const letterAt = ({picture, columns}, index) =>
    picture[Math.floor(index / columns)][index % columns];

// From and to along one side of a picture: what changes with some cells around it, as far as the
// picture goes.
function span(from, to, length) {
  const wanted = Math.min(length, Math.max(LEAST, to - from + 1 + 2 * AROUND));
  const first = Math.max(0, Math.min(length - wanted, Math.floor((from + to + 1 - wanted) / 2)));
  return [first, first + wanted - 1];
}

function windowOf({rows, columns}, places) {
  const box = boxAround(new Set(places), columns);
  const [top, bottom] = span(box.top, box.bottom, rows);
  const [left, right] = span(box.left, box.right, columns);
  return {top, left, bottom, right};
}

// Each cell that changes is framed, with its colour of now in a corner; a given cell has its mark.
function drawChanges(canvas, {state, cells = [], given = []}, box) {
  const side = canvas.width / (box.right - box.left + 1);
  const pen = canvas.getContext('2d');
  const at = (index) =>
      [(index % state.columns - box.left) * side,
       (Math.floor(index / state.columns) - box.top) * side];
  const shape = (corners, fill) => {
    pen.fillStyle = fill;
    pen.beginPath();
    for (const corner of corners) pen.lineTo(...corner);
    pen.closePath();
    pen.fill();
  };
  for (const {index} of cells) {
    const [x, y] = at(index);
    const colour = state.colours[LETTERS.indexOf(letterAt(state, index))];
    shape(
        [[x + side, y + side * 0.4], [x + side, y + side], [x + side * 0.4, y + side]],
        cssOf(colour, state.maxval)
    );
    drawTwice(
        pen,
        1,
        [3.5, 2],
        {ink: sheet.inks.alarm},
        () => pen.strokeRect(x - 0.5, y - 0.5, side + 1, side + 1)
    );
  }
  for (const index of given) {
    shape(givenCorners(...at(index), side * 2), '#1a1a1a');
    shape(givenCorners(...at(index).map((one) => one + side * 0.12), side * 1.5), '#fff');
  }
}

// Places in groups: one is in the group of each that is fewer than APART rows and columns from it.
function groupsOf({columns}, places) {
  let groups = [];
  const isNear = (one, other) =>
      Math.abs(Math.floor(one / columns) - Math.floor(other / columns)) < APART &&
      Math.abs((one % columns) - (other % columns)) < APART;
  for (const place of places) {
    const near = groups.filter((group) => group.some((one) => isNear(one, place)));
    groups = [...groups.filter((group) => !near.includes(group)), [...near.flat(), place]];
  }
  return groups;
}

// The parts of a picture that a proposal changes, as they will be: one, or the first of several
// side by side.
function picturesOf(one) {
  const {state, cells = [], given = []} = one;
  const after = {...state, picture: painted(state.picture, cells)};
  const groups = groupsOf(state, [...cells.map(({index}) => index), ...given]).slice(0, MOST_PARTS);
  return groups.map((places) => {
    const box = windowOf(state, places);
    const canvas = smallPicture(cutOut(after, box), groups.length > 1 ? SIDE / 2 : SIDE);
    const isIn = (index) => places.includes(index);
    drawChanges(
        canvas,
        {state, cells: cells.filter(({index}) => isIn(index)), given: given.filter(isIn)},
        box
    );
    return canvas;
  });
}

/** A cell by its row and column, in words. */
export const placeText = ({columns}, index) => phrase(
    'view.placeOfCell', {value: Math.floor(index / columns) + 1, columns: (index % columns) + 1}
);

const namedOf = (state, places) =>
    `${places.slice(0, MOST_NAMED).map((index) => placeText(state, index)).join('; ')}${
        places.length > MOST_NAMED ? '; …' : ''}`;

// What a repaint leaves, where that is not all: how far it is from the goal, or what is to be
// guessed then.
function leftOf({goal, far, open, share}) {
  if (goal === 'later') return phrase('view.thenKnownAt', {share});
  if (LINE_WORDS.includes(goal)) return phrase('view.thenGrade', {grade: gradeName(goal)});
  if (far) return phrase('view.nearerOnly', {far});
  if (goal === 'lines' || open === undefined) return '';
  return open ? phrase('view.thenCellsGuess', {cells: open}) : phrase('view.thenNoGuessing');
}

// What is repainted, in words: a single cell with its colours, else the places.
function paintedText({state, cells}) {
  if (cells.length > 1)
    return `${phrase('view.cells', {cells: cells.length})}: ${
        namedOf(state, cells.map(({index}) => index))}`;
  const [{index, colour}] = cells;
  const [from, to] =
      [letterAt(state, index), LETTERS[colour]].map((letter) => inkName(state, letter));
  return `${phrase('view.oneCell', {place: placeText(state, index)})}${from}${phrase('view.to')}${
      to}`;
}

const givenText = ({state, given, isLeast}) => `${phrase('view.cells', {cells: given.length})}${
    isLeast ? phrase('view.fewest') : ''}: ${namedOf(state, given)}`;

// All that is said of a proposal.
function textOf(one) {
  if (!one.cells) return phrase('view.give', {given: givenText(one)});
  return one.given ? `${phrase('view.repaint')}${paintedText(one)}${
                         phrase('view.alsoGive', {given: givenText(one)})}` :
                     paintedText(one) + leftOf(one);
}

// Where it begins, as short as can be, and whether there is more.
function spotOf({state: {columns}, cells = [], given = []}) {
  const places = [...cells.map(({index}) => index), ...given];
  const [row, col] = [Math.floor(places[0] / columns) + 1, (places[0] % columns) + 1];
  return `${phrase('view.spot', {row, col})}${places.length > 1 ? ' …' : ''}`;
}

// The few words below its picture.
function shortOf({cells, given, goal, far, open, share}) {
  if (far) return phrase('view.closer');
  const counts = [
    cells && phrase('view.cells', {cells: cells.length}),
    given && phrase('view.givenShort', {cells: given.length})
  ].filter(Boolean).join(' + ');
  if (goal === 'later') return `${counts}, ${phrase('view.knownAt', {share})}`;
  return goal === 'unique' && open ? `${counts}, ${phrase('view.guessShort', {cells: open})}` :
                                     counts;
}

const since = new WeakMap();  // of items: when they came to where another was

// A proposal as an item of a list. One that comes to lie under a pointer is shown once that moves,
// and taken once a user can have aimed at it.
function proposalItem(one, {take, keep, preview, isKept}) {
  const show = () => preview(one);
  const press = ({detail, target}) => {
    if (!detail || performance.now() - (since.get(target.closest('li')) ?? 0) > AIMED) take(one);
  };
  const hide = () => preview(null);
  const text = textOf(one);
  const button = make(
      'button',
      {
        type: 'button',
        'aria-label': text,
        title: text,
        onclick: press,
        onpointerdown: show,
        onpointermove: show,
        onfocus: show,
        onpointerleave: hide,
        onblur: hide
      },
      make('span', {class: 'parts'}, ...picturesOf(one)),
      make('b', {'data-where': ''}, spotOf(one)),
      make('span', {}, shortOf(one))
  );
  const box = make('input', {
    type: 'checkbox',
    checked: isKept(one),
    'aria-label': phrase('view.keepNextSearch'),
    onchange: (event) => keep(one, event.target.checked)
  });
  return make(
      'li',
      {},
      button,
      make(
          'label',
          {title: phrase('view.keepNextSearch')},
          box,
          make('span', {}, phrase('view.keep'))
      )
  );
}

const items = new WeakMap();  // of proposals
const placeOf = (item) => {
  const {left, top} = item.getBoundingClientRect();
  return `${left} ${top}`;
};

/**
 * Lists groups of proposals, where they are others than those that are listed: `hears` has `take`,
 * `keep`, `preview`, `isKept`.
 */
export function listProposals(list, groups, hears) {
  const itemOf = (one) => items.get(one) ?? items.set(one, proposalItem(one, hears)).get(one);
  const sections = groups.map(({title, items: ones}) => [title, ...ones.map(itemOf)]);
  const before = [...list.querySelectorAll('li')];
  const now = sections.flatMap(([, ...ones]) => ones);
  const titles = sections.map(([title]) => title).join();
  if (list.dataset.titles === titles && now.length === before.length &&
      now.every((item, at) => item === before[at]))
    return;
  const owners = new Map(before.map((item) => [placeOf(item), item]));
  const {activeElement} = document;
  list.dataset.titles = titles;
  list.replaceChildren(...sections.map(
      ([title, ...ones]) =>
          make('section', {}, title && make('h3', {}, title), make('ul', {}, ...ones))
  ));
  if (list.contains(activeElement)) /** @type {HTMLElement} */
    (activeElement).focus({preventScroll: true});
  for (const item of now)
    if ((owners.get(placeOf(item)) ?? item) !== item) since.set(item, performance.now());
}
