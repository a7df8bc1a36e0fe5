// The library on the start screen: all pictures that the browser keeps, to be found, opened,
// renamed, copied and taken away.

import {$, buttonOf, choiceOf, fieldOf, make, say} from '../base/elements.js';
import {on} from '../base/events.js';
import {gradeName, verdictName} from '../base/names.js';
import {cleanName, opening, sizeText} from '../base/words.js';
import {withIcon} from '../draw/icons.js';
import {smallPicture} from '../draw/small.js';
import {bench} from '../engine/bench.js';
import {exportAll} from '../import/archives.js';
import {keep} from '../library/keep.js';
import {openRecord} from '../library/open.js';
import {LANGUAGE, phrase} from '../texts/phrase.js';
import {menuKey, runAction} from '../view/actions.js';
import {openDialog} from '../view/dialogs.js';

const [MINUTE, HOUR, DAY] = [60000, 3600000, 86400000];
function ageText(when, now = Date.now()) {
  const age = Math.max(0, now - when);
  if (age < MINUTE) return phrase('start.justNow');
  const ago = new Intl.RelativeTimeFormat(LANGUAGE);
  if (age < HOUR) return ago.format(-Math.floor(age / MINUTE), 'minute');
  return age < DAY ? ago.format(-Math.floor(age / HOUR), 'hour') :
                     ago.format(-Math.floor(age / DAY), 'day');
}

const ORDERS = {
  when: [phrase('start.newestFirst'), (a, b) => b.when - a.when],
  name: [phrase('start.byName'), (a, b) => a.name.localeCompare(b.name)],
  size: [
    phrase('start.largestFirst'),
    (a, b) => b.doc.rows * b.doc.columns - a.doc.rows * a.doc.columns
  ],
  verdict: [
    phrase('start.byVerdict'),
    (a, b) => String(a.verdict).localeCompare(String(b.verdict)) || b.when - a.when
  ],
};

/** A number of bytes in words. */
function bytesText(bytes) {
  const step = bytes < 1000 ? 0 : bytes < 1e6 ? 1 : bytes < 1e9 ? 2 : 3;
  const value = bytes / 1000 ** step;
  const digits = step && value < 10 ? 1 : 0;
  return value.toLocaleString(LANGUAGE, {
    style: 'unit',
    unit: ['byte', 'kilobyte', 'megabyte', 'gigabyte'][step],
    unitDisplay: step ? 'short' : 'long',
    minimumFractionDigits: digits,
    maximumFractionDigits: digits
  });
}

const view = {
  list: null,
  section: null,
  usage: null,
  cards: [],
  shown: 0,
  goBack: () => {},
  listed: Promise.resolve()
};
const TILE_SIDE = 144;  // pixels of a picture
const FIRST = 60;       // tiles at once; more are shown on wish

// ---- the card on the start screen

/**
 * Makes the library's card; `goBack` shows the picture that is open. It fills when the library is
 * read.
 */
export function makeLibrary(goBack) {
  view.goBack = goBack;
  view.list = make('ul', {class: 'tiles', id: 'library'});
  view.usage = make('p', {class: 'faint', id: 'room'});
  const search = make('input', {
    type: 'search',
    id: 'library-search',
    'aria-label': phrase('start.searchName'),
    placeholder: phrase('start.search'),
    oninput: showCards
  });
  const order = choiceOf(
      {id: 'library-order', 'aria-label': phrase('play.order'), onchange: showCards},
      Object.entries(ORDERS).map(([value, [name]]) => [value, name])
  );
  view.section = make(
      'section',
      {id: 'kept', class: 'card wide', 'aria-labelledby': 'kept-title', hidden: true},
      make(
          'div',
          {class: 'library-head'},
          make('h2', {id: 'kept-title'}, phrase('start.library')),
          search,
          order,
          buttonOf('library-book', opening(phrase('export.makeBook')), () => runAction('book')),
          make(
              'button',
              {type: 'button', id: 'library-export', onclick: exportAll},
              phrase('import.saveAllZip')
          )
      ),
      view.list,
      view.usage
  );
  view.listed = fillLibrary();
  return view.section;
}

/** Resolves once the library is shown as it is. */
export const libraryListed = () => view.listed;

/** Reads the library anew. */
async function fillLibrary() {
  const keeper = await keep.ready();
  if (keep.keeper.writing) await keep.keeper.writing;
  await keep.tried(async () => {
    view.cards = await keeper.cards();
  });  // else what was listed stays
  view.shown = FIRST;
  view.section.hidden = view.cards.length === 0;
  showCards();
  await showUsage(keeper);
}

function showCards() {
  const wanted = ($('library-search')?.value ?? '').trim().toLowerCase();
  const [, order] = ORDERS[$('library-order')?.value ?? 'when'];
  const found = view.cards.filter((card) => card.name.toLowerCase().includes(wanted)).sort(order);
  const items = found.slice(0, view.shown).map(tileOf);
  const left = found.length - items.length;
  const more = make(
      'li',
      {},
      make(
          'button',
          {
            type: 'button',
            onclick: () => {
              view.shown += 4 * FIRST;
              showCards();
            }
          },
          phrase('start.showPictures', {pictures: left})
      )
  );
  view.list.replaceChildren(
      ...items,
      ...(left > 0 ? [more] : []),
      ...(found.length ? [] :
                         [make('li', {class: 'faint'}, phrase('start.noPictureMatches', {wanted}))])
  );
}

// How much the library takes, and how much more the browser allows; nothing where it is empty.
async function showUsage(keeper) {
  if (!keeper.shelf.lasts) {
    view.section.hidden = false;
    view.usage.textContent =
        phrase('library.yourWorkTabAlone', {why: phrase('library.browserKeepsNothingPage')});
    return;
  }
  if (!view.cards.length) return;
  const own = view.cards.reduce((sum, card) => sum + card.size, 0);
  /** @type {any} */
  const estimate = await Promise.resolve(navigator.storage?.estimate?.()).catch(() => null);
  const {usage, quota} = estimate ?? {};
  const room =
      quota ? phrase('start.browserRoomMore', {max: bytesText(Math.max(0, quota - usage))}) : '';
  view.usage.textContent = phrase(
      'start.picturesBrowserTheyStay', {pictures: view.cards.length, bytes: bytesText(own), room}
  );
}

// ---- a picture

function tileOf(card) {
  const isOpen = card.id === keep.id && bench.state !== null;
  const facts = [
    sizeText(card.doc),
    card.verdict && verdictName(card.verdict),
    card.grade && gradeName(card.grade)
  ].filter(Boolean).join(', ');
  const when = [
    isOpen ? phrase('start.openHere') : ageText(card.when),
    card.isSaved ? '' : phrase('start.notFile')
  ].filter(Boolean).join(', ');
  const open = () => (isOpen ? view.goBack() : openRecord(card.id));
  return make(
      'li',
      {},
      make(
          'button',
          {type: 'button', class: 'kept', 'data-id': card.id, onclick: open},
          smallPicture(card.doc, TILE_SIDE),
          make(
              'span',
              {},
              make('b', {}, card.name),
              make('span', {class: 'faint'}, facts),
              make('span', {class: 'faint'}, when)
          )
      ),
      menuOf(card, isOpen)
  );
}

// What can be done to a picture, in a menu of its own.
function menuOf(card, isOpen) {
  const list = make('div', {class: 'menu', role: 'menu', popover: 'auto', 'aria-label': card.name});
  const button = make(
      'button',
      {type: 'button', class: 'quiet', 'aria-haspopup': 'menu', title: phrase('view.more')}
  );
  withIcon(button, 'more', phrase('start.moreFor', {name: card.name}));
  const item = (name, run) => make(
      'button',
      {
        type: 'button',
        role: 'menuitem',
        onclick: () => {
          list.hidePopover();
          run();
        }
      },
      name
  );
  list.append(
      item(opening(phrase('start.rename')), () => rename(card)),
      item(phrase('start.duplicate'), () => duplicate(card)),
      ...(isOpen ? [] : [item(phrase('view.delete'), () => remove(card))])
  );
  list.addEventListener('toggle', (event) => {
    if (event.newState === 'open') list.querySelector('button').focus();
  });
  list.addEventListener('keydown', (event) => menuKey(event, list, button));
  button.addEventListener('click', () => {
    list.showPopover();
    const box = button.getBoundingClientRect();
    list.style.left = `${
        Math.max(4, Math.min(box.right - list.offsetWidth, innerWidth - list.offsetWidth - 4))}px`;
    list.style.top = `${Math.min(box.bottom + 2, innerHeight - list.offsetHeight - 4)}px`;
  });
  return make('span', {class: 'tile-more'}, button, list);
}

async function rename(card) {
  const field = make('input', {type: 'text', value: card.name, maxlength: '80'});
  if (!(await openDialog({
        title: phrase('start.rename'),
        content: fieldOf(phrase('view.name'), field),
        buttons: [{name: phrase('start.rename'), value: true, main: true}]
      })))
    return;
  await tried(() => keep.rename(card.id, cleanName(field.value)));
}

const tried = (act) => keep.tried(act).then(fillLibrary);

const duplicate = ({id, name}) => tried(async () => {
  await keep.keeper.duplicate(id, phrase('start.copy', {name}));
  say(phrase('start.duplicated', {name}));
});

// Takes a picture away, and offers to bring it back.
const remove = ({id, name}) => tried(async () => {
  const gone = await keep.drop(id);
  if (!gone) return say(phrase('start.openElsewhere'), 'alarm');
  const what = phrase('import.quoted', {name});
  const bringBack = async () => {
    await keep.keeper.restore(gone);
    say(phrase('start.broughtBack', {what}));
  };
  return say(
      phrase('start.deleted', {what}),
      '',
      {name: phrase('view.undo'), run: () => tried(bringBack)},
      true
  );
});

// ---- where room is short

/**
 * Asks which pictures may go, so that there is room for the open one. Nothing goes that is not
 * chosen.
 */
async function makeRoom() {
  const cards = (await keep.keeper.cards())
                    .filter((card) => card.id !== keep.id)
                    .sort((a, b) => Number(b.isSaved) - Number(a.isSaved) || b.size - a.size);
  const boxes = cards.map(() => make('input', {type: 'checkbox'}));
  const rows = cards.map(
      (card, at) => make(
          'label',
          {},
          boxes[at],
          `${card.name}, ${bytesText(card.size)}${
              card.isSaved ? '' : `, ${phrase('start.notFile')}`}`
      )
  );
  const warn = make('p', {class: 'wrong', role: 'status'});
  const chosen = () => cards.filter((_, at) => boxes[at].checked);
  const content =
      make('div', {class: 'rows'}, make('p', {}, phrase('start.browserNoRoomLeft')), ...rows, warn);
  content.addEventListener('change', () => {
    const lost = chosen().filter((card) => !card.isSaved).length;
    warn.textContent = lost ? phrase('start.picturesNotSaved', {pictures: lost}) : '';
  });
  const test = () => (chosen().length ? '' : phrase('start.chooseLeastOnePicture'));
  if (!(await openDialog({
        title: phrase('start.makeRoom'),
        content,
        buttons: [{name: phrase('view.delete'), value: true, main: true, test}]
      })))
    return;
  keep.withdraw = null;
  let isElsewhere = false;
  for (const {id} of chosen()) isElsewhere = !(await keep.drop(id)) || isElsewhere;
  say(isElsewhere ? phrase('start.openElsewhere') : '');
  keep.now();
}

/** Hears what changes the library from elsewhere. */
export function startLibrary() {
  keep.makeRoom = () => tried(makeRoom);
  on('library', () => {
    if (view.section?.isConnected && !$('start').hidden) fillLibrary();
  });
}
