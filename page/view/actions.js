// Actions: what can be done, each with a name, a key and a place in a menu or panel. Keys work
// where no field is typed in.

import {$, make, say} from '../base/elements.js';
import {on} from '../base/events.js';
import {clamp} from '../base/words.js';
import {iconOf} from '../draw/icons.js';
import {bench} from '../engine/bench.js';
import {phrase} from '../texts/phrase.js';

export const actions = new Map();
const HEADS = {
  export: phrase('export.export')
};  // of groups in a menu
export const MENUS = {
  file: phrase('view.file'),
  edit: phrase('view.edit'),
  picture: phrase('view.picture'),
  view: phrase('view.view'),
  check: phrase('view.check'),
  help: phrase('view.help')
};

/**
 * Adds an action. `id` names it; `name` is what the user reads; `key` as in 'Ctrl+Z', 'n' or
 * 'Shift+ArrowUp'; `place` is a menu ('file', 'edit', 'picture', 'view', 'check', 'help'), the id
 * of an element that takes a button, or null for a key alone; `shown` is a key that the menu
 * shows and the browser hears; `run(event)` does it; `can()` says whether it can be done now;
 * `needs` is false where no picture must be open; `isOn()` says whether it is ticked in a menu;
 * `hint` says more of it below its name in a menu, and where the mouse rests.
 */
export function addAction({
  id,
  name,
  key = null,
  shown = key ?? '',
  place = null,
  run,
  can = () => true,
  needs = true,
  isOn = () => false,
  group = '',
  hint = null
}) {
  const action = {
    id: id ?? name,
    name,
    key,
    shown,
    place,
    run,
    group,
    needs,
    isOn,
    hint,
    can: () => (!needs || bench.state !== null) && can()
  };
  actions.set(action.id, action);
  if (place && !MENUS[place]) $(place)?.append(actionButton(action));
  return action;
}

export const isCovered = () => document.body.classList.contains('starting');  // by the start screen

// Whether an action can be done now. A picture that the start screen covers is saved and exported,
// and no more is done to it.
const isFree = (action) =>
    action.can() && !(action.needs && action.place !== 'file' && isCovered());

/** Runs an action by its id, where it can be done. */
export function runAction(id, event) {
  const action = actions.get(id);
  if (action && isFree(action)) action.run(event);
}

/** Says a text, with a button for an action where it can be done; the next stroke takes it back. */
export function sayWith(text, kind, id) {
  const {name, can} = actions.get(id);
  if (!can()) {
    say(text, kind);
    return;
  }
  const unsay = say(text, kind, {name, run: () => runAction(id)});
  const end = on('stroke', () => {
    end();
    unsay();
  });
}

export function actionButton(action, attributes = {}) {
  const button = make(
      'button',
      {
        type: 'button',
        'data-action': action.id,
        title: action.hint,
        'aria-keyshortcuts': action.key ? ariaKey(action.key) : null,
        ...attributes
      },
      action.name
  );
  button.addEventListener('click', (event) => runAction(action.id, event));
  return button;
}

const KEY_NAMES = {
  Ctrl: phrase('view.keyCtrl'),
  Shift: phrase('view.keyShift'),
  ArrowUp: '↑',
  ArrowDown: '↓',
  ArrowLeft: '←',
  ArrowRight: '→',
  Enter: phrase('view.keyEnter'),
  Escape: phrase('view.keyEscape'),
  Delete: phrase('view.keyDelete'),
};

/** A key as keyboards of the language have it. */
export const keyText = (key) => key.replace(/[A-Za-z]{2,}/g, (name) => KEY_NAMES[name] ?? name);

const ariaKey = (key) => key.replace('Ctrl', 'Control');

/** The name of a pressed key, as actions have it. */
function keyName(event) {
  const key = event.key === ' ' ?
      'Space' :
      event.key.length === 1 ?
      (event.ctrlKey || event.metaKey ? event.key.toUpperCase() : event.key) :
      event.key;
  const modified = key.length > 1 || event.ctrlKey || event.metaKey;
  return [
    (event.ctrlKey || event.metaKey) && 'Ctrl',
    event.altKey && 'Alt',
    event.shiftKey && modified && 'Shift',
    key
  ].filter(Boolean
  ).join('+');
}

/** Whether an element takes text itself. */
export const isTyping = (target) =>
    target?.matches?.(
        'input:not([type=checkbox]):not([type=radio]):not([type=button]):not([type=range]), textarea, [contenteditable]'
    ) ??
    false;

/**
 * Whether an element takes plain keys itself: a field of text does, and a choice, in which letters
 * look for an option.
 */
export const takesKeys = (target) => isTyping(target) || (target?.matches?.('select') ?? false);

function actionOfKey(event) {
  const name = keyName(event);
  for (const action of actions.values())
    if (action.key && action.key.split(' ').includes(name)) return action;
  return null;
}

const GAP = 4;     // pixels between a button and what it opens
const WIDE = 264;  // pixels that a menu is wide, or so
const FREE_ITEM = 'button:not([aria-disabled="true"])';

/**
 * Makes a button open a list of entries, filled anew by `itemsOf` each time; arrows go through it.
 */
export function makeMenu(button, list, itemsOf) {
  button.setAttribute('aria-haspopup', 'menu');
  button.setAttribute('aria-expanded', 'false');
  button.setAttribute('popovertarget', list.id);
  list.addEventListener('beforetoggle', (event) => {
    button.setAttribute('aria-expanded', event.newState === 'open');
    if (event.newState !== 'open') return;
    list.replaceChildren(...itemsOf());
    const {left, bottom} = seenOf(button).getBoundingClientRect();  // its own size is not known yet
    list.style.left = `${Math.max(GAP, Math.min(left, innerWidth - WIDE))}px`;
    list.style.top = `${bottom + GAP}px`;
  });
  list.addEventListener('toggle', (event) => {
    if (event.newState !== 'open') return;
    placeBeside(list, button);
    list.querySelector(FREE_ITEM)?.focus();
  });
  list.addEventListener('keydown', (event) => menuKey(event, list, button));
}

// On a phone Help opens from beside the verdict.
const seenOf = (button) => (button.getClientRects().length ? button : $('help-open'));

/** Places what opens below its button, or above it, within the window. */
export function placeBeside(list, button) {
  const box = seenOf(button).getBoundingClientRect();
  const {offsetWidth: wide, offsetHeight: high} = list;
  const left = document.documentElement.dir === 'rtl' ? box.right - wide : box.left;
  const below = box.bottom + GAP + high <= innerHeight;
  const top = below ? box.bottom + GAP : Math.max(GAP, box.top - GAP - high);
  list.style.left = `${clamp(left, GAP, Math.max(GAP, innerWidth - wide - GAP))}px`;
  list.style.top = `${below ? top : Math.min(top, innerHeight - high - GAP)}px`;
}

/** Makes the menus of the header, filled anew each time that one is opened. */
export function makeMenus() {
  for (const [place, name] of Object.entries(MENUS)) {
    const list = make(
        'div',
        {id: `menu-${place}`, role: 'menu', class: 'menu', 'aria-label': name, popover: 'auto'}
    );
    const button = make('button', {type: 'button'}, name);
    makeMenu(button, list, () => itemsOf(list, place));
    $('menus').append(button, list);
  }
}

function itemsOf(list, place) {
  const items = [];
  let group = null;
  for (const action of actions.values()) {
    if (action.place !== place) continue;
    if (group !== null && group !== action.group)
      items.push(
          make('hr', {role: 'separator'}),
          ...(HEADS[action.group] ? [make('h2', {role: 'presentation'}, HEADS[action.group])] : [])
      );
    ({group} = action);
    const item = actionButton(action, {role: 'menuitem', tabindex: '-1'});
    if (action.isOn()) item.append(iconOf('tick'));
    const free = isFree(action);
    if (!free)
      item.setAttribute(
          'aria-disabled', 'true'
      );  // it keeps the focus, and with it the keys of the menu
    item.append(
        make('kbd', {}, keyText(action.shown.split(' ')[0])),
        ...(action.hint ? [make('small', {class: 'faint', 'aria-hidden': 'true'}, action.hint)] : []
        )
    );  // heard by its title
    item.addEventListener('click', () => {
      if (free) list.hidePopover();
    });
    items.push(item);
  }
  return items;
}

/** Hears the keys of a menu: arrows go to its entries, Escape back to its button. */
export function menuKey(event, list, button) {
  const step = {ArrowDown: 1, ArrowUp: -1}[event.key];
  if (event.key === 'Escape' || event.key === 'Tab') {
    list.hidePopover();
    if (event.key === 'Escape') button.focus();
  }
  if (!step) return;
  event.preventDefault();
  const items = [...list.querySelectorAll(FREE_ITEM)];
  items.at((items.indexOf(document.activeElement) + step) % items.length)?.focus();
}

// The keys that an element leaves to the page: of a field of text few, of a choice those with Ctrl.
function isLeft(target, name) {
  if (/^(Ctrl\+S|Escape)$/.test(name) || !takesKeys(target)) return true;
  return !isTyping(target) && name.startsWith('Ctrl+');
}

/** Hears keys everywhere but in fields and open dialogs. */
export function hearKeys() {
  addEventListener('keydown', (event) => {
    if (document.querySelector('dialog[open]') || event.defaultPrevented) return;
    /** @type {any} */
    const menu = document.querySelector('.menu:popover-open');
    if (menu && event.key === 'Escape') {
      event.preventDefault();
      return void menu.hidePopover();
    }
    const action = actionOfKey(event);
    if (!action || !isLeft(event.target, keyName(event)) || !isFree(action)) return;
    event.preventDefault();
    action.run(event);
  });
  // What was chosen with the mouse lets the keys go to the picture again.
  let isByPointer = false;
  addEventListener('pointerdown', () => {
    isByPointer = true;
  }, true);
  addEventListener('keydown', () => {
    isByPointer = false;
  }, true);
  addEventListener('change', (/** @type {any} */ event) => {
    if (isByPointer && event.target.matches('#work select')) event.target.blur();
  });
}
