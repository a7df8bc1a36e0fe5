// The palette: choosing, adding, changing, merging, removing and ordering colours. A press on the
// chosen swatch opens what changes it; a swatch that is dragged, or Shift with an arrow, orders
// them. The session can add and change a colour and take one for another; what it cannot (removing,
// ordering, another background) opens the picture anew, and undo takes it back.

import {$, choiceOf, make, say} from '../base/elements.js';
import {behindFrame, on} from '../base/events.js';
import {markRadio, radioGroup} from '../base/radios.js';
import {capital, number, opening} from '../base/words.js';
import {hexOf, isAmong, tripleOf} from '../document/colours.js';
import {eightBitDoc} from '../document/document.js';
import {LETTERS, MOST_COLOURS} from '../document/limits.js';
import {COLOUR_NAMES, colourNamed} from '../document/named.js';
import {XML_WHOLE, nameOf, namesOf} from '../document/names.js';
import {reordered} from '../document/shapes.js';
import {withIcon} from '../draw/icons.js';
import {bench} from '../engine/bench.js';
import {inksOf} from '../formats/webpbn.js';
import {phrase} from '../texts/phrase.js';
import {actions, addAction, placeBeside, runAction} from './actions.js';
import {openDialog} from './dialogs.js';
import {colourText, dress, inkName, nearText} from './dress.js';
import {setDown} from './select.js';
import {heard, tools, useColour, whileOpen} from './tools.js';

const DRAGGED = 6;   // pixels from which on a swatch is dragged
const MANY = 10000;  // cells that a swatch counts in thousands
const palette = {
  row: make('div', {id: 'palette', role: 'radiogroup', 'aria-label': phrase('view.colourLabel')}),
  text: make('p', {id: 'colour-text', class: 'faint'}),
  picker: make('input', {id: 'picker', type: 'color', 'aria-label': phrase('view.chosenColour')}),
  named: make('input', {
    id: 'colour-named',
    type: 'text',
    maxlength: '30',
    list: 'colour-words',
    'aria-label': phrase('view.chosenColourName'),
    placeholder: phrase('view.name123abc'),
    size: 13
  }),
  name: make(
      'input',
      {id: 'ink-name', type: 'text', maxlength: '40', 'aria-label': phrase('view.nameColour')}
  ),
  sign: make(
      'input',
      {id: 'ink-sign', type: 'text', maxlength: '2', 'aria-label': phrase('view.signColourXml')}
  ),
  locked: make('input', {id: 'ink-locked', type: 'checkbox'}),
  add: make('button', {type: 'button', id: 'colour-add', 'data-action': 'colour-add'}),
  editor:
      make('div', {id: 'swatch', class: 'menu', popover: 'auto', 'aria-labelledby': 'colour-text'}),
  drag: null
};

function showPalette() {
  const {colours} = bench.state;
  const letters = [...LETTERS.slice(0, colours.length)];
  if (!letters.includes(tools.colour)) tools.colour = letters.at(-1);
  palette.row.replaceChildren(...letters.map((letter) => {
    const button = make(
        'button',
        {
          type: 'button',
          role: 'radio',
          'data-letter': letter,
          'aria-label': colourText(letter),
          'aria-haspopup': 'dialog'
        },
        letter
    );
    dress(button, letter);
    return button;
  }));
  markColour();
  palette.add.disabled = colours.length >= MOST_COLOURS;
}

function markColour() {
  if (!bench.state) return;
  const {colours, maxval} = bench.state;
  markRadio(palette.row, ({dataset}) => dataset.letter === tools.colour);
  palette.picker.value = hexOf(colours[LETTERS.indexOf(tools.colour)], maxval);
  const ink = bench.state.inks[LETTERS.indexOf(tools.colour)] ?? {};
  const {sign} = inksOf(bench.state)[LETTERS.indexOf(tools.colour)];
  if (document.activeElement !== palette.name) palette.name.value = ink.name ?? '';
  if (document.activeElement !== palette.sign) palette.sign.value = ink.sign ?? '';
  palette.name.placeholder = inkName(bench.state, tools.colour);
  palette.sign.placeholder = sign;
  palette.locked.checked = ink.locked === true;
  tellColours();
}

// How many cells each letter has.
function countsOf(picture) {
  const counts = new Map();
  for (const row of picture)
    for (const letter of row) counts.set(letter, (counts.get(letter) ?? 0) + 1);
  return counts;
}

// What is counted in the whole picture: no stroke waits for it.
const tellColours = behindFrame(() => {
  if (!bench.state) return;
  const counts = countsOf(bench.state.picture);
  for (const [at, button] of [...palette.row.children].entries()) {
    const {letter} = button.dataset;
    const count = counts.get(letter) ?? 0;
    button.dataset.cells = count < MANY ? number(count) : `${Math.floor(count / 1000)}k`;
    button.title = `${colourText(letter)}: ${phrase('view.cells', {cells: count})}${
        at < 10 ? phrase('view.key', {at}) : ''}`;
  }
  palette.text.textContent = `${colourText(tools.colour)}: ${
      phrase('view.cells', {cells: counts.get(tools.colour) ?? 0})}`;
  showNear();
});

let nearShown = [];
function showNear() {
  const {colours, picture} = bench.state;
  if (nearShown[0] === colours && nearShown[1] === picture) return;
  nearShown = [colours, picture];
  $('near').textContent = nearText(bench.state);
}

// What the page alone keeps of the chosen colour.
function changeInk(change) {
  const at = LETTERS.indexOf(tools.colour);
  setDown();
  return heard(bench.become(
      (doc) => ({
        ...doc,
        inks: doc.colours
                  .map((_, one) => (one === at ? change(doc.inks[one] ?? {}) : doc.inks[one] ?? {}))
      })
  ));
}

// What is refused does not stay in its field.
function refuse(text) {
  const {name = '', sign = ''} = bench.state.inks[LETTERS.indexOf(tools.colour)] ?? {};
  Object.assign(palette.name, {value: name});
  Object.assign(palette.sign, {value: sign});
  palette.picker.value =
      hexOf(bench.state.colours[LETTERS.indexOf(tools.colour)], bench.state.maxval);
  say(text, 'alarm');
}

function changeName() {
  const name = palette.name.value.trim();
  if (namesOf(bench.state
      ).some((other, at) => at !== LETTERS.indexOf(tools.colour) && other === name))
    return refuse(phrase('view.anotherColourNamed', {name}));
  return changeInk(({name: before, ...ink}) => (name ? {...ink, name} : ink));
}

function changeSign() {
  const [sign = ''] = palette.sign.value.trim();
  if (sign && '?|\\[]'.includes(sign)) return refuse(phrase('view.meansSomethingElseXml', {sign}));
  if (sign &&
      inksOf(bench.state
      ).some((ink, at) => at !== LETTERS.indexOf(tools.colour) && ink.sign === sign))
    return refuse(phrase('view.anotherColourSign', {sign}));
  return changeInk(({sign: before, ...ink}) => (sign ? {...ink, sign} : ink));
}

// Some colour near to this one that the palette does not have.
function freeColour(doc, triple) {
  let found = [...triple];
  for (let step = 1; isAmong(doc.colours, found); step++)
    found = triple.map((sample) => (sample + 37 * step) % 256);
  return found;
}

const NEW_COLOURS = [[34, 59, 104], [196, 69, 54], [233, 180, 76], [83, 141, 110], [120, 81, 145]];

async function addColour() {
  setDown();
  const added = (old) => {
    const doc = eightBitDoc(old);
    if (doc.colours.length >= MOST_COLOURS) return null;
    return {
      ...doc,
      colours:
          [...doc.colours, freeColour(doc, NEW_COLOURS[doc.colours.length % NEW_COLOURS.length])]
    };
  };
  if (await whileOpen(heard(bench.become(added))))
    useColour(LETTERS[bench.state.colours.length - 1]);
}

// What the page keeps of a colour that is changed: the usual name of the tone before, as files have
// it, goes with that tone.
function inkOfOther(doc, at) {
  const {name, ...others} = doc.inks[at] ?? {};
  const isUsual =
      [nameOf(doc.colours[at], 255), namesOf({...doc, inks: []}, XML_WHOLE)[at]].includes(name) ||
      colourNamed(name ?? '')?.join() === doc.colours[at].join();
  return isUsual ? others : doc.inks[at];
}

function changeByName() {
  const text = palette.named.value.trim();
  palette.named.value = '';
  const triple = text ? colourNamed(text) : null;
  if (triple) return changeColour(triple, /^#?[\da-f]{3,6}$/i.test(text) ? '' : text);
  return text ? say(phrase('view.noColourName', {text}), 'alarm') : null;
}

async function changeColour(triple, name = '') {
  setDown();
  const at = LETTERS.indexOf(tools.colour);
  const now = eightBitDoc(bench.state).colours;
  if (now[at].join() === triple.join()) return null;
  if (isAmong(now, triple)) return refuse(phrase('view.paletteColourAlreadyMake'));
  const changed = (old) => {
    const doc = eightBitDoc(old);
    if (at >= doc.colours.length || isAmong(doc.colours, triple)) return null;
    const inks = doc.inks.map(
        (ink, other) => (other === at ? {...inkOfOther(doc, at), ...(name && {name})} : ink)
    );
    return {...doc, inks, colours: doc.colours.map((one, other) => (other === at ? triple : one))};
  };
  return heard(bench.become(changed));
}

async function mergeColour() {
  const from = tools.colour;
  if (from === '.') {
    say(phrase('view.backgroundStaysEveryPicture'), 'alarm');
    return;
  }
  const letters =
      [...LETTERS.slice(0, bench.state.colours.length)].filter((letter) => letter !== from);
  const choice = choiceOf(
      {'aria-label': phrase('view.colourLabel')},
      letters.map((letter) => [letter, `${LETTERS.indexOf(letter)}: ${colourText(letter)}`])
  );
  const content = make(
      'div',
      {class: 'rows'},
      make('p', {}, phrase('view.allCellsGetAnother', {colour: colourText(from)})),
      choice
  );
  const into = await whileOpen(openDialog({
    title: phrase('view.mergeColour'),
    content,
    buttons: [{name: phrase('view.merge'), value: () => choice.value, main: true}]
  }));
  if (into) removeColour(from, into);
}

/** Takes a colour out of the palette; its cells get another one. */
function removeColour(letter, into = '.') {
  setDown();
  const at = LETTERS.indexOf(letter);
  const without = (doc) =>
      reordered(doc, [...doc.colours.keys()].filter((one) => one !== at), LETTERS.indexOf(into));
  return becomeOpened(
      (doc) => (at < doc.colours.length ? without(doc) : null),
      phrase('view.colourRemovedThoseAfter')
  );
}

function deleteColour() {
  if (tools.colour === '.') return say(phrase('view.backgroundStaysEveryPicture'), 'alarm');
  return removeColour(tools.colour);
}

const moveColour = (by) => moveColourTo(LETTERS.indexOf(tools.colour) + by);

// Moves the chosen colour to a place among the others, the background being at place 0.
function moveColourTo(to) {
  const at = LETTERS.indexOf(tools.colour);
  if (at < 1) return say(phrase('view.backgroundAlwaysComesFirst'), 'alarm');
  if (to < 1) return say(phrase('view.colourFirstOneAlready'), 'alarm');
  if (to >= bench.state.colours.length) return say(phrase('view.colourLastOneAlready'), 'alarm');
  setDown();
  const moved = (doc) => {
    const order = [...doc.colours.keys()];
    order.splice(to, 0, ...order.splice(at, 1));
    return reordered(doc, order);
  };
  tools.colour = LETTERS[to];
  return becomeOpened(
      (doc) => (Math.max(at, to) < doc.colours.length ? moved(doc) : null),
      phrase('view.coloursNewOrderUndo')
  );
}

async function becomeOpened(doc, text) {
  if (await whileOpen(heard(bench.become(doc)))) say(text);
}

// ---- the swatches

// A press on the swatch that is chosen opens what changes it.
function pressSwatch(button, isArrow) {
  if (palette.drag?.isMoved) return;
  const {letter} = button.dataset;
  if (letter !== tools.colour) return useColour(letter);
  if (isArrow) return;
  markColour();
  palette.editor.showPopover();
  placeBeside(palette.editor, button);
  palette.editor.querySelector('input').focus();
}

function swatchKey(event) {
  const step = {ArrowRight: 1, ArrowLeft: -1}[event.key];
  if (!step || !event.shiftKey) return;
  event.preventDefault();
  event.stopImmediatePropagation();
  moveAndStay(step);
}

// The swatch that was moved keeps the focus, and with it the keys.
async function moveAndStay(step) {
  await moveColour(step);
  palette.row.querySelector('[aria-checked=true]')?.focus();
}

const swatchAt = (x, y) => [...palette.row.children].find((one) => {
  const {left, right, top, bottom} = one.getBoundingClientRect();
  return x >= left && x < right && y >= top && y < bottom;
});

// A swatch that a pointer takes elsewhere goes there: what lies between moves on.
const drags = {
  pointerdown(event) {
    const button = event.target.closest('[data-letter]');
    palette.drag = button && {letter: button.dataset.letter, x: event.clientX, isMoved: false};
  },
  pointermove(event) {
    const {drag} = palette;
    if (!drag || !event.buttons || event.pointerType === 'touch') return;
    if (!drag.isMoved && Math.abs(event.clientX - drag.x) < DRAGGED) return;
    if (!drag.isMoved) palette.row.setPointerCapture(event.pointerId);
    drag.isMoved = true;
    const over = swatchAt(event.clientX, event.clientY);
    for (const one of palette.row.children) {
      one.classList.toggle('dragged', one.dataset.letter === drag.letter);
      one.classList.toggle('over', one === over);
    }
  },
  pointerup(event) {
    const {drag} = palette;
    const over = swatchAt(event.clientX, event.clientY);
    for (const one of palette.row.children) one.classList.remove('dragged', 'over');
    setTimeout(() => {
      palette.drag = null;
    });  // behind the click that ends a drag
    if (!drag?.isMoved || !over || over.dataset.letter === drag.letter) return;
    useColour(drag.letter);
    moveColourTo(LETTERS.indexOf(over.dataset.letter));
  }
};

// What changes the chosen colour, in rows of names and fields.
function fillEditor() {
  const row = (name, title, ...fields) =>
      make('label', {class: 'field', title}, make('span', {}, name), ...fields);
  palette.editor.append(
      palette.text,
      make('div', {id: 'swatch-colour'}, palette.picker, palette.named),
      row(phrase('view.name'), null, palette.name),
      row(phrase('view.sign'), phrase('view.oneSignEachCell'), palette.sign),
      make(
          'label',
          {title: phrase('view.noRepairChangesCells')},
          palette.locked,
          capital(phrase('view.locked'))
      ),
      make('div', {class: 'group', id: 'colour-more'})
  );
  palette.editor.addEventListener('beforetoggle', addNames, {once: true});
}

// The names that are offered: many, so they come when the editor is opened.
function addNames() {
  const names = COLOUR_NAMES.map((name) => make('option', {value: name}));
  palette.editor.append(make('datalist', {id: 'colour-words'}, ...names));
}

function addColourActions() {
  const add = (id, name, run, place = 'colour-more', can = undefined) =>
      addAction({id, name, place, run, can});
  add('colour-add',
      phrase('view.addColour'),
      addColour,
      null,
      () => bench.state.colours.length < MOST_COLOURS);
  add('colour-merge', opening(phrase('view.merge')), mergeColour);
  add('colour-delete', phrase('view.delete'), deleteColour);
  add('colour-earlier', phrase('view.earlier'), () => moveColour(-1));
  add('colour-later', phrase('view.later'), () => moveColour(1));
  for (const [id, icon] of [['colour-earlier', 'back'], ['colour-later', 'forth']])
    withIcon($('colour-more').querySelector(`[data-action=${id}]`), icon, actions.get(id).name);
  for (const id of ['colour-merge', 'colour-delete'])
    $('colour-more')
        .querySelector(`[data-action=${id}]`)
        .addEventListener('click', () => palette.editor.hidePopover());
}

/** Makes the panel of colours. */
export function makePalette() {
  $('colours').append(palette.row, palette.add, palette.editor);
  fillEditor();
  addColourActions();
  withIcon(palette.add, 'plus', phrase('view.addColour'));
  palette.add.addEventListener('click', () => runAction('colour-add'));
  palette.picker.addEventListener('change', () => changeColour(tripleOf(palette.picker.value)));
  palette.named.addEventListener('change', changeByName);
  palette.name.addEventListener('change', changeName);
  palette.sign.addEventListener('change', changeSign);
  palette.locked.addEventListener(
      'change',
      () => changeInk(({locked, ...ink}) => (palette.locked.checked ? {...ink, locked: true} : ink))
  );
  palette.editor.addEventListener('keydown', (event) => {
    if (event.key === 'Enter' && event.target.matches('input')) palette.editor.hidePopover();
  });
  palette.row.addEventListener('keydown', swatchKey);
  for (const [type, hear] of Object.entries(drags)) palette.row.addEventListener(type, hear);
  radioGroup(palette.row, pressSwatch);
  let shown = '';
  on('shown', (state) => {
    const key = [state.maxval, ...state.colours, JSON.stringify(state.inks)].join(';');
    if (key !== shown)
      showPalette();
    else
      tellColours();
    shown = key;
  });
  on('opened', () => {
    shown = '';
  });
  on('colour', markColour);
}
