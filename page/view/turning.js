// What can turn in an ambiguous picture, drawn in it and listed in the panel: the groups of cells
// in which the engine's other pictures differ. Behind the first picture, the second worker looks
// for others that leave the lines of these groups alone, so that each can turn by itself.

import {$, buttonOf, make} from '../base/elements.js';
import {behindFrame, on} from '../base/events.js';
import {placeOf, sameBenchPart} from '../document/document.js';
import {placesOfLines, turningPlaces} from '../document/turning.js';
import {sheet} from '../draw/sheet.js';
import {bench} from '../engine/bench.js';
import {phrase} from '../texts/phrase.js';
import {addAction} from './actions.js';
import {placeText} from './proposals.js';
import {setDown} from './select.js';
import {searches} from './verdict.js';

const REST = 600;  // milliseconds without a stroke or a search
const SECONDS = 2;
const MOST_PLACES = 20;
const SPLITS = 100;  // for each further picture

// What turns in which state: places, each `{cells, letters}` with the letters of its cells in the
// other picture; which of them is shown turned, or -1.
const turning = {
  of: null,
  places: [],
  shown: -1,
  waits: 0
};
const isAmbiguous = () => bench.state?.verdict.word === 'ambiguous' && bench.state.verdict.other;
const isOfThis = () =>
    turning.of !== null && bench.state !== null && sameBenchPart(turning.of, bench.state);

const placesIn = ({picture, columns}, other) => turningPlaces(
                                                    picture, other
).map((cells) => ({
        cells,
        letters: cells.map((place) => other[Math.floor(place / columns)][place % columns])
      }));

// ---- what is shown

function turnsText() {
  const {places} = turning;
  if (places.length === 1) return phrase('view.cellsCanTurn', {cells: places[0].cells.length});
  return phrase('view.placesCanTurn', {places: places.length, pictures: 2 ** places.length});
}

function showTurns() {
  const {places, of} = turning;
  sheet.turns = places.map(({cells}) => cells);
  $('turns').hidden = places.length === 0;
  $('turns-said').textContent = places.length ? turnsText() : '';
  $('turns-list')
      .replaceChildren(...places.map(
          ({cells}, at) => buttonOf(
              '',
              phrase('view.turnPlace', {place: placeText(of, cells[0]), cells: cells.length}),
              () => turn(turning.shown === at ? -1 : at),
              {'aria-pressed': turning.shown === at}
          )
      ));
  sheet.redraw();
}

// Shows a place turned, or with -1 the picture as it is.
function turn(at) {
  if (!isOfThis()) return;
  setDown();
  const {cells, letters} = turning.places[at] ?? {cells: [], letters: []};
  turning.shown = at;
  sheet.preview(cells.length ? new Map(cells.map((place, one) => [place, letters[one]])) : null);
  if (cells.length)
    sheet.reveal(Math.floor(cells[0] / turning.of.columns), cells[0] % turning.of.columns);
  [...$('turns-list').children].forEach(
      (button, one) => button.setAttribute('aria-pressed', one === at)
  );
}

function forget() {
  clearTimeout(turning.waits);
  if (turning.shown >= 0) sheet.preview(null);
  const had = turning.places.length > 0;
  Object.assign(turning, {of: null, places: [], shown: -1});
  if (had) showTurns();
}

// ---- what turns

// Other places that can turn by themselves: with the lines of those so far given, the engine has
// another picture still.
const found = (state, first) => searches.job('', SECONDS, async (copy) => {
  copy.changes();
  const [all, given] = [[...first], new Set(state.givens)];
  copy.found = all;
  for (let fresh = first; fresh.length && all.length < MOST_PLACES;) {
    const lines = placesOfLines(
                      fresh.flatMap(({cells}) => cells), state
    ).filter((place) => !given.has(place));
    for (const place of lines) given.add(place);
    await copy.say(...lines.map((place) => `pin ${placeOf(state, place)}`));
    const [, verdict] = await copy.say(`allow ${SPLITS}`, 'verdict');
    fresh = verdict.word === 'ambiguous' ? placesIn(state, verdict.other) : [];
    all.push(...fresh);
  }
  return all;
});

async function findMore() {
  const {state} = bench;
  if (!isAmbiguous() || !isOfThis()) return;
  if (searches.running || bench.running) return schedule();
  const all = await found(state, turning.places);
  if (!isOfThis()) return;
  if (!all && searches.running) return schedule();
  if (!all || all.length === turning.places.length) return;
  turning.places = all;
  showTurns();
}

function schedule() {
  clearTimeout(turning.waits);
  turning.waits = setTimeout(findMore, REST);
}

const show = behindFrame(() => {
  if (isOfThis() && turning.places.length && isAmbiguous()) return;
  forget();
  if (!isAmbiguous()) return;
  Object.assign(
      turning, {of: bench.state, places: placesIn(bench.state, bench.state.verdict.other)}
  );
  showTurns();
  schedule();
});

/** Hears verdicts, and adds what turns one place after the other. */
export function startTurning() {
  addAction({
    place: 'check',
    id: 'turn',
    name: phrase('view.turnNext'),
    run: () => turn(turning.shown + 1 < turning.places.length ? turning.shown + 1 : -1),
    can: () => isOfThis() && turning.places.length > 0
  });
  on('stroke', forget);
  for (const name of ['shown', 'judged']) on(name, show);
}

/** Makes the last section of the panel: it comes and goes, and moves nothing above it. */
export function showTurningPanel() {
  $('details').after(make(
      'section',
      {id: 'turns', hidden: true, 'aria-label': phrase('view.whatCanTurn')},
      make('h2', {}, phrase('view.whatCanTurn')),
      make('p', {id: 'turns-said', role: 'status'}),
      make('div', {
        id: 'turns-list',
        class: 'group',
        role: 'group',
        'aria-label': phrase('view.whatCanTurn')
      })
  ));
}
