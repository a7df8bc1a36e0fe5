// What a repair may change: by the rule for neighbours, with a symmetry, and without what is
// locked.

import {$, buttonOf, choiceOf, fieldOf, make} from '../base/elements.js';
import {unlocked} from '../document/document.js';
import {placesOfBox} from '../document/regions.js';
import {bench} from '../engine/bench.js';
import {boardFields} from '../repair/board.js';
import {phrase} from '../texts/phrase.js';
import {mirrorOfPens} from './ranking.js';
import {selection} from './select.js';
import {tools} from './tools.js';

const AS_PENS = 'pens';
const MIRRORS = [
  [AS_PENS, phrase('view.asPens')],
  ['', phrase('view.comes')],
  ['x', phrase('view.leftRightSame')],
  ['y', phrase('view.topBottomSame')]
];

const limits = {
  rule: true,
  mirror: AS_PENS
};

const mirrorFor = ({picture}) =>
    (limits.mirror === AS_PENS ? mirrorOfPens(picture, tools.symmetry) : limits.mirror || null);

/**
 * The board of a state that repairs are looked for on; where only some places may change, no
 * symmetry is kept.
 */
export function boardOf(state, only = null) {
  if (!only) return boardFields(state, {rule: limits.rule, mirror: mirrorFor(state)});
  const board = boardFields(state, {rule: limits.rule});
  return {
    ...board,
    lockedCells: [...board.lockedCells, ...board.cells.keys()].filter(
        (place) => state.locks.has(place) || !only.has(place)
    )
  };
}

/** Which symmetry repairs of a state keep, in words; '' where they need not keep one. */
export function keptSymmetry(state) {
  const name = MIRRORS.find(([axis]) => axis && axis === mirrorFor(state))?.[1];
  return name ? phrase('view.keepsSymmetry', {name}) : '';
}

/**
 * What is chosen of it in the panel; `says` tells the user what is missing, and `changed` hears
 * that another symmetry is chosen.
 */
export function limitChoices(says, changed) {
  const rule = make('input', {
    type: 'checkbox',
    id: 'fix-rule',
    checked: limits.rule,
    onchange: (event) => {
      limits.rule = event.target.checked;
    }
  });
  const mirror = choiceOf(
      {
        id: 'fix-mirror',
        onchange: (event) => {
          limits.mirror = event.target.value;
          changed();
        }
      },
      MIRRORS,
      limits.mirror
  );
  return [
    make('p', {}, make('label', {}, rule, phrase('view.onlyNeighboursColourNo'))),
    fieldOf(phrase('view.symmetry'), mirror),
    make(
        'div',
        {class: 'group'},
        buttonOf('fix-lock', phrase('view.lockAllButSelection'), () => lockOutside(says)),
        buttonOf('fix-unlock', phrase('view.unlockAll'), () => bench.become(unlocked))
    ),
    make('p', {id: 'fix-locks', class: 'faint'}),
  ];
}

function lockOutside(says) {
  const {box} = selection;
  if (!box) return says(phrase('view.selectPartMayChange'));
  return bench.become((doc) => {
    const chosen = placesOfBox(box, doc.columns);
    return {
      ...doc,
      locks:
          new Set([...Array(doc.rows * doc.columns).keys()].filter((place) => !chosen.has(place)))
    };
  });
}

/** Tells how much is locked. */
export function showLocks() {
  const {state} = bench;
  if (!state || !$('fix-locks')) return;
  const colours = state.inks.filter((ink) => ink.locked).length;
  $('fix-locks').textContent =
      phrase('view.lockedCellsColoursCells', {cells: state.locks.size, colours});
}
