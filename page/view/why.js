// Why a cell does not have the other colours: for each the line that excludes it, and what that
// line has settled before.

import {$, make} from '../base/elements.js';
import {on} from '../base/events.js';
import {lineName} from '../base/words.js';
import {LETTERS} from '../document/limits.js';
import {sheet} from '../draw/sheet.js';
import {bench} from '../engine/bench.js';
import {phrase} from '../texts/phrase.js';
import {swatchChip} from './dress.js';
import {forgetReason, tools} from './tools.js';

const why = {
  asked: null
};

/**
 * Asks for the reasons of a cell and shows them: for each colour of the palette but the cell's
 * own.
 */
async function whyAt(row, col) {
  if (why.asked?.row === row && why.asked.col === col) return;
  const mine = {row, col};
  why.asked = mine;
  const {state} = bench;
  const letters = [...LETTERS.slice(0, state.colours.length)].filter(
      (letter) => letter !== state.picture[row][col]
  );
  const answers = await bench.ask(letters.map((letter) => `why ${row + 1} ${col + 1} ${letter}`)
  ).catch(() => []);
  if (why.asked !== mine || answers.length !== letters.length || answers[0]?.kind !== 'why') return;
  const reasons = letters.map((letter, at) => ({...answers[at], letter, row, col}));
  $('why').replaceChildren(
      make('h3', {}, phrase('view.rowColumnWhyNot', {row: row + 1, col: col + 1})),
      ...reasons.map(whyItem)
  );
  markReason(reasons.find((one) => one.word === 'by') ?? reasons[0]);
}

function whyItem(reason) {
  const mark = () => markReason(reason);
  return make(
      'p',
      {},
      make(
          'button',
          {type: 'button', onpointerenter: mark, onfocus: mark, onclick: mark},
          swatchChip(bench.state, reason.letter),
          ' ',
          ...whyParts(reason, bench.state)
      )
  );
}

function markReason(reason) {
  sheet.reason = reason;
  sheet.redraw();
}

// The colours of a premise that the palette has: the session leaves those open that no line has
// excluded, also such as it has not.
const premiseLetters =
    (premise,
     doc) => [...premise.letters].filter((letter) => LETTERS.indexOf(letter) < doc.colours.length);

// What is said of a reason, with each colour by its swatch.
function whyParts(reason, doc) {
  if (reason.word === 'possible') return [phrase('view.possibleHereNoLine')];
  if (reason.word === 'given') return [phrase('view.excludedCellGiven')];
  const across = reason.axis === 'r';
  const line = lineName(across, reason.at - 1);
  if (!reason.premises.length) return [phrase('view.excludedAlone', {line})];
  const parts = [phrase('view.excludedWhere', {line})];
  reason.premises.forEach((premise, at) => {
    parts.push(
        at === 0 ? '' : ', ', phrase('view.lineIs', {line: lineName(!across, premise.at - 1)})
    );
    premiseLetters(premise, doc)
        .forEach(
            (letter, one) =>
                parts.push(...(one ? [phrase('view.or')] : []), swatchChip(doc, letter))
        );
  });
  return [...parts, '.'];
}

function forgetWhy() {
  why.asked = null;
  if ($('why')) $('why').replaceChildren();
}

/** Hears what is asked, and forgets it with the next stroke. */
export function startWhy() {
  on('asked', ({row, col}) => whyAt(row, col));
  on('tool', (name) => {
    if (name === 'why') $('cell').scrollIntoView({block: 'start'});
  });
  on('pointed', (at) => {
    if (tools.name === 'why' && at?.part === 'cell') whyAt(at.row, at.col);
  });
  on('reason', (reason) => {
    if (!reason) forgetWhy();
  });
  on('shown', () => {
    forgetWhy();
    forgetReason();
  });
}

/** Puts the place of reasons into the panel of the cell. */
export const showWhyPanel = () => $('cell').append(make('div', {id: 'why', role: 'status'}));
