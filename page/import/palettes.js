// Palette files beside a picture that is open: their colours are added, or the picture's become the
// nearest of them; and the picture's colours as such a file.

import {choiceOf, chooseFiles, fieldOf, make, say} from '../base/elements.js';
import {cleanName, opening} from '../base/words.js';
import {hexOf, isAmong} from '../document/colours.js';
import {eightBitDoc} from '../document/document.js';
import {LETTERS, MOST_COLOURS} from '../document/limits.js';
import {nameOf} from '../document/names.js';
import {bench} from '../engine/bench.js';
import {paletteText, readPalette} from '../formats/palettes.js';
import {download} from '../library/saving.js';
import {phrase} from '../texts/phrase.js';
import {addAction} from '../view/actions.js';
import {openDialog} from '../view/dialogs.js';
import {inkName} from '../view/dress.js';
import {asSeen, heard, whileOpen} from '../view/tools.js';
import {placeOfTriple} from './flat.js';
import {farness} from './spots.js';

const MOST_SHOWN = 256;

// What the page keeps of a colour that becomes another one, with that one's name where it has one.
function renamed(ink, name) {
  const {name: before, ...others} = ink ?? {};
  return name ? {...others, name} : others;
}

/**
 * A document whose colours are the nearest of a palette, each another one: those that are nearest
 * first.
 */
export function withNearest(doc, colours) {
  const own = doc.colours.map(placeOfTriple);
  const places = colours.map(({triple}) => placeOfTriple(triple));
  const pairs =
      own.flatMap(
             (place, at) => places.map((other, to) => ({at, to, far: farness(place, other)}))
      ).sort((a, b) => a.far - b.far);
  const taken = new Map();
  const used = new Set();
  for (const {at, to} of pairs) {
    if (taken.has(at) || used.has(to)) continue;
    taken.set(at, to);
    used.add(to);
  }
  return {
    ...doc,
    colours: own.map((_, at) => colours[taken.get(at)].triple),
    inks: own.map((_, at) => renamed(doc.inks[at], colours[taken.get(at)].name))
  };
}

/** A document with more colours, of those that it does not have yet. */
export function withMore(doc, colours) {
  const fresh = colours.filter(({triple}) => !isAmong(doc.colours, triple));
  const inks = doc.colours.map((_, at) => doc.inks[at] ?? {});
  const isNew = ({name}, at) => name && !inks.some((ink) => ink.name === name) &&
      fresh.findIndex((one) => one.name === name) === at;
  return {
    ...doc,
    colours: [...doc.colours, ...fresh.map(({triple}) => triple)],
    inks: [...inks, ...fresh.map((one, at) => (isNew(one, at) ? {name: one.name} : {}))]
  };
}

function swatchOf({triple, name}) {
  const title = `${name || nameOf(triple, 255)} ${hexOf(triple, 255)}`;
  const button = make('button', {
    type: 'button',
    'aria-pressed': 'false',
    title,
    'aria-label': title,
    onclick: () =>
        button.setAttribute('aria-pressed', String(button.getAttribute('aria-pressed') !== 'true'))
  });
  button.style.background = hexOf(triple, 255);
  return button;
}

/** Offers the colours of a palette's text. */
export async function takePalette(text, name) {
  const {colours} = readPalette(text);
  if (!bench.state) {
    say(phrase('import.paletteOpenPictureFirst', {name}), 'alarm');
    return false;
  }
  await asSeen();
  const doc = eightBitDoc(bench.state);
  const offered = colours.slice(0, MOST_SHOWN);
  const swatches = offered.map(swatchOf);
  const chosen = () => offered.filter(
      ({triple}, at) =>
          swatches[at].getAttribute('aria-pressed') === 'true' && !isAmong(doc.colours, triple)
  );
  const free = MOST_COLOURS - doc.colours.length;
  const title = phrase('import.coloursOf', {name});
  const done = await whileOpen(openDialog({
    title,
    content: make(
        'div',
        {},
        make('p', {}, phrase('import.chooseColoursAddPicture')),
        make(
            'div',
            {class: 'swatches', id: 'palette-file', role: 'group', 'aria-label': title},
            ...swatches
        )
    ),
    buttons: [
      {
        name: phrase('import.takeNearest'),
        value: () => withNearest(doc, colours),
        test: () =>
            (colours.length < doc.colours.length ? phrase('import.fewerColoursPicture') : '')
      },
      {
        name: phrase('import.addChosen'),
        main: true,
        value: () => withMore(doc, chosen()),
        test: () =>
            (!chosen().length           ? phrase('import.chooseColourFirst') :
                 chosen().length > free ? phrase('import.paletteRoomColours', {colours: free}) :
                                          '')
      },
    ],
  }));
  return done ? heard(bench.become(done)) : false;
}

// The palette of a document.
function paletteOf(doc, name) {
  const {colours} = eightBitDoc(doc);
  return {name, colours: colours.map((triple, at) => ({triple, name: inkName(doc, LETTERS[at])}))};
}

async function savePalette() {
  const choice = choiceOf({id: 'palette-kind'}, Object.entries({
    gpl: phrase('import.gimpGpl'),
    pal: phrase('import.jascPal'),
    hex: phrase('import.hexadecimalHex')
  }));
  const kind = await openDialog({
    title: phrase('import.savePalette'),
    content: fieldOf(phrase('library.form'), choice),
    buttons: [{name: phrase('library.save'), value: () => choice.value, main: true}]
  });
  if (!kind) return;
  await asSeen();
  const name = `${cleanName(bench.name)}.${kind}`;
  download(paletteText(paletteOf(bench.state, bench.name), kind), name, 'text/plain');
  say(phrase('import.paletteSaved', {name}));
}

async function openPalette([file]) {
  try {
    await takePalette(await file.text(), file.name);
  } catch (fault) {
    say(phrase('import.fileNotRead', {name: file.name, fault: fault.message}), 'alarm');
  }
}

/** Adds what there is to palettes to the menus. */
export function startPalettes() {
  addAction({
    id: 'palette-open',
    name: phrase('import.coloursFromPaletteFile'),
    place: 'picture',
    group: 'colours',
    run: () => chooseFiles('.gpl,.pal,.hex,.txt', openPalette)
  });
  addAction({
    id: 'palette-save',
    name: opening(phrase('import.savePalette')),
    place: 'picture',
    group: 'colours',
    run: savePalette
  });
}
