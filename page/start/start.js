// The start screen: a new picture, a file, what the browser keeps, and examples.

import {$, fieldOf, hasFingers, make, svgPart} from '../base/elements.js';
import {on} from '../base/events.js';
import {capital, freeName, opening, sizeText} from '../base/words.js';
import {emptyDoc} from '../document/document.js';
import {MOST_CELLS} from '../document/limits.js';
import {smallPicture} from '../draw/small.js';
import {bench} from '../engine/bench.js';
import {readPpm} from '../formats/ppm.js';
import {docOfImage} from '../import/images.js';
import {chooseFile} from '../import/taking.js';
import {keep} from '../library/keep.js';
import {openDoc} from '../library/open.js';
import {save, saveAs} from '../library/saving.js';
import {phrase} from '../texts/phrase.js';
import {addAction} from '../view/actions.js';
import {useColour, useTool} from '../view/tools.js';
import {libraryListed, makeLibrary, startLibrary} from './library.js';
import {loopOf} from './loop.js';

const START_SIZE = [20, 15];
/** @type {[number, number][]} */
const SIZES = [[10, 10], [15, 15], [20, 15], [20, 20], [30, 30], [40, 30]];
const TILE_CELL = 1.2;  // points of a cell in the drawing of a size

// A size as its grid, five cells a field; a press begins a picture.
function sizeTile([columns, rows], run) {
  const [wide, high] = [columns, rows].map((cells) => cells * TILE_CELL);
  const lines = [];
  for (let at = 5; at < columns; at += 5) lines.push(`M${at * TILE_CELL} 0v${high}`);
  for (let at = 5; at < rows; at += 5) lines.push(`M0 ${at * TILE_CELL}h${wide}`);
  const drawing = svgPart(
      'svg',
      {
        viewBox: `-1 -1 ${wide + 2} ${high + 2}`,
        width: wide + 2,
        height: high + 2,
        'aria-hidden': 'true'
      },
      svgPart('path', {
        d: `M0 0h${wide}v${high}h-${wide}z${lines.join('')}`,
        fill: 'none',
        stroke: 'currentColor'
      })
  );
  return make(
      'button',
      {
        type: 'button',
        class: 'size',
        'data-size': `${columns} ${rows}`,
        onclick: () => run(columns, rows)
      },
      drawing,
      make('span', {}, sizeText({columns, rows}))
  );
}

function newCard() {
  const columns = make('input', {
    type: 'number',
    id: 'new-columns',
    min: '1',
    max: MOST_CELLS,
    value: START_SIZE[0],
    required: true
  });
  const rows = make('input', {
    type: 'number',
    id: 'new-rows',
    min: '1',
    max: MOST_CELLS,
    value: START_SIZE[1],
    required: true
  });
  const ground = make('input', {type: 'color', id: 'new-background', value: '#ffffff'});
  const begin = async (wide, high) => {
    const background = [1, 3, 5].map((at) => parseInt(ground.value.slice(at, at + 2), 16));
    if (await openDoc(emptyDoc(wide, high, background), {name: await newName(), isBlank: true}))
      beginPainting();
  };
  const form = make(
      'form',
      {class: 'card', id: 'new-card', 'aria-labelledby': 'new-title'},
      make('h2', {id: 'new-title'}, phrase('start.new')),
      make('div', {class: 'sizes'}, ...SIZES.map((size) => sizeTile(size, begin))),
      fieldOf(phrase('view.columns'), columns),
      fieldOf(phrase('view.rows'), rows),
      fieldOf(capital(phrase('view.background')), ground),
      make('button', {type: 'submit', class: 'main', id: 'new-go'}, phrase('start.startPainting'))
  );
  form.addEventListener('submit', (event) => {
    event.preventDefault();
    begin(Number(columns.value), Number(rows.value));
  });
  return form;
}

// A new picture begins as the first one did.
function beginPainting() {
  useTool('pencil');
  useColour('a');
  $('panels').scrollTop = 0;
}

// A name that no picture of the library has.
async function newName() {
  const cards = await keep.ready().then((keeper) => keeper.cards()).catch(() => []);
  return freeName(phrase('start.newName'), new Map(cards.map(({name}) => [name.toLowerCase(), 1])));
}

function openCard(example) {
  return make(
      'section',
      {class: 'card', id: 'open-card', 'aria-labelledby': 'open-title'},
      example ? loopOf(example) : '',
      make(
          'h2',
          {id: 'open-title'},
          hasFingers() ? phrase('start.openPicture') : phrase('start.dropPicture')
      ),
      make('p', {}, hasFingers() ? phrase('start.tapToChoose') : phrase('start.dropFileHerePaste')),
      make(
          'button',
          {type: 'button', id: 'open-go', onclick: () => chooseFile()},
          phrase('start.chooseFile')
      ),
      make('p', {class: 'faint'}, phrase('start.pngJpegGifWebp'))
  );
}

const LISTED = 1000;       // milliseconds until the library is not waited for
const EXAMPLE_SIDE = 144;  // pixels
const EXAMPLES = {
  balloon: phrase('start.balloon'),
  heart: phrase('start.heart'),
  mushroom: phrase('start.mushroom'),
  boat: phrase('start.boat')
};
const MEND = 'balloon';  // it has two solutions

/** The document of an example that the page has. */
export const docOfExample = (source) =>
    docOfImage(readPpm(new TextEncoder().encode(source.textContent.trimStart())));

function exampleItem(source) {
  const doc = docOfExample(source);
  if (!doc) return '';
  const {example} = source.dataset;
  const name = EXAMPLES[example] ?? example;
  const facts = example === MEND ? phrase('start.mendExample') : phrase('view.oneSolution');
  return make(
      'li',
      {},
      make(
          'button',
          {
            type: 'button',
            class: 'kept',
            'data-name': example,
            onclick: () => openDoc(doc, {name})
          },
          smallPicture(doc, EXAMPLE_SIDE),
          make(
              'span',
              {},
              make('b', {}, name),
              make('span', {class: 'faint'}, sizeText(doc)),
              make('span', {class: 'faint'}, facts)
          )
      )
  );
}

// Shows the examples, below the library, once that is listed, so that they do not move under the
// pointer. Nor are they read before.
async function showExamples(element, sources) {
  delete $('start').dataset.listed;
  await Promise.race([libraryListed(), new Promise((go) => setTimeout(go, LISTED))]);
  const items = sources.map(exampleItem).filter(Boolean);
  element.querySelector('ul').replaceChildren(...items);
  element.hidden = items.length === 0;
  $('start').dataset.listed = '';
}

/** Shows the start screen, over what is open. */
export function showStart() {
  const sources = [...document.querySelectorAll('script[data-example]')];
  const shown = make(
      'section',
      {id: 'examples', class: 'card wide', 'aria-labelledby': 'examples-title', hidden: true},
      make('h2', {id: 'examples-title'}, phrase('start.examples')),
      make('ul', {class: 'tiles'})
  );
  const back = bench.state ? [make(
                                 'p',
                                 {},
                                 make(
                                     'button',
                                     {type: 'button', id: 'start-back', onclick: hideStart},
                                     phrase('start.back', {name: bench.name})
                                 )
                             )] :
                             [];
  $('start').replaceChildren(
      make('p', {class: 'lead'}, phrase('start.drawPictureOpenOne')),
      ...back,
      make(
          'div',
          {class: 'cards'},
          openCard(sources.length ? docOfExample(sources[0]) : null),
          newCard(),
          makeLibrary(hideStart),
          shown
      )
  );
  showExamples(shown, sources);
  $('start').hidden = false;
  $('work').hidden = true;
  document.body.classList.add('starting');
  $('new-go').focus({preventScroll: true});
}

function hideStart() {
  $('start').hidden = true;
  $('work').hidden = false;
  document.body.classList.remove('starting');
}

/** What the menu File opens and saves, and the end of the start screen. */
export function startStart() {
  startLibrary();
  addAction({
    id: 'new',
    name: phrase('start.newOpen'),
    place: 'file',
    group: 'open',
    needs: false,
    run: showStart
  });
  addAction({
    id: 'open',
    name: phrase('start.openFile'),
    key: 'Ctrl+O',
    place: 'file',
    group: 'open',
    needs: false,
    run: () => chooseFile()
  });
  addAction({
    id: 'save',
    name: phrase('library.save'),
    key: 'Ctrl+S',
    place: 'file',
    group: 'save',
    run: save
  });
  addAction({
    id: 'save-as',
    name: opening(phrase('library.saveAs')),
    key: 'Ctrl+Shift+S',
    place: 'file',
    group: 'save',
    run: saveAs
  });

  on('opened', hideStart);
}
