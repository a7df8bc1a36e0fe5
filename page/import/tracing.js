// Tracing: an image that is chosen lies under the picture, with a panel for its opacity, size and
// place.

import {$, chooseFiles, make, say, spanOf, withoutGestures} from '../base/elements.js';
import {on} from '../base/events.js';
import {clamp} from '../base/words.js';
import {FileFault} from '../document/limits.js';
import {sheet} from '../draw/sheet.js';
import {penWith} from '../draw/small.js';
import {Underlay} from '../draw/underlay.js';
import {faultText} from '../library/open.js';
import {phrase} from '../texts/phrase.js';
import {addAction} from '../view/actions.js';
import {HEAD, IMAGES, MOST_IMAGE, imageOfFile, mustHold} from './decoding.js';
import {kindOfFile} from './images.js';

const STEP = 0.25;               // cells that an arrow moves the image by
const [LEAST, MOST] = [5, 500];  // percent of the size with which it fits
const STEPS = {
  ArrowUp: [-1, 0],
  ArrowDown: [1, 0],
  ArrowLeft: [0, -1],
  ArrowRight: [0, 1]
};

const tracing = {
  panel: null,
  move: null,
  opacity: null,
  size: null,
  fits: 0
};

function endTracing() {
  sheet.underlay?.remove();
  sheet.underlay = null;
  tracing.panel?.remove();
  tracing.panel = null;
}

// Lays an image under the picture.
function trace(image) {
  endTracing();
  sheet.underlay = new Underlay(sheet, penWith(image).canvas);
  tracing.fits = sheet.underlay.wide;
  makePanel();
  hearMoves(sheet.underlay);
  say(phrase('import.imageShownWherePicture'));
}

function makePanel() {
  const slider = (name, text, min, max, value, f) => {
    const input = make(
        'input',
        {type: 'range', min, max, value, id: `trace-${name}`, oninput: () => f(Number(input.value))}
    );
    tracing[name] = input;
    return make('label', {}, text, input);
  };
  const {underlay} = sheet;
  tracing.move = make(
      'button',
      {
        type: 'button',
        id: 'trace-move',
        'aria-pressed': 'false',
        title: phrase('import.dragImageMoveArrow'),
        onclick: () => setMoving(!isMoving()),
        onkeydown: moveByKey
      },
      phrase('import.move')
  );
  tracing.panel = make(
      'div',
      {id: 'trace', role: 'group', 'aria-label': phrase('import.imageTrace')},
      tracing.move,
      slider(
          'opacity',
          phrase('import.opacity'),
          0,
          100,
          underlay.opacity * 100,
          (value) => Object.assign(underlay, {opacity: value / 100}).ask()
      ),
      slider(
          'size',
          phrase('import.size'),
          LEAST,
          MOST,
          100,
          (value) => underlay.size((tracing.fits * value) / 100)
      ),
      make(
          'button', {type: 'button', id: 'trace-end', onclick: endTracing}, phrase('import.remove')
      )
  );
  $('stage').append(tracing.panel);
}

const isMoving = () => tracing.move.getAttribute('aria-pressed') === 'true';

function setMoving(is) {
  tracing.move.setAttribute('aria-pressed', String(is));
  sheet.underlay.element.classList.toggle('moves', is);
}

function moveByKey(event) {
  const step = STEPS[event.key];
  if (!step) return;
  event.preventDefault();
  event.stopPropagation();
  sheet.underlay.move(...step.map((one) => one * (event.shiftKey ? 1 : STEP)));
}

function resize(factor) {
  const percent = clamp((sheet.underlay.wide / tracing.fits) * 100 * factor, LEAST, MOST);
  tracing.size.value = percent;
  sheet.underlay.size((tracing.fits * percent) / 100);
}

// While the image is moved, one pointer drags it, and two pinch it; the wheel makes it larger or
// smaller.
function hearMoves(underlay) {
  const {element} = underlay;
  const pointers = new Map();
  withoutGestures(element);
  const apart = () => Math.max(1, spanOf(pointers).far);
  element.addEventListener('pointerdown', (event) => {
    event.stopPropagation();
    element.setPointerCapture(event.pointerId);
    pointers.set(event.pointerId, {x: event.clientX, y: event.clientY});
  });
  element.addEventListener('pointermove', (event) => {
    event.stopPropagation();
    const last = pointers.get(event.pointerId);
    if (!last) return;
    const before = pointers.size === 2 ? apart() : 0;
    const part = sheet.geometry.scale / sheet.geometry.cell / pointers.size;
    underlay.move((event.clientY - last.y) * part, (event.clientX - last.x) * part);
    pointers.set(event.pointerId, {x: event.clientX, y: event.clientY});
    if (before) resize(apart() / before);
  });
  for (const end of ['pointerup', 'pointercancel']) {
    element.addEventListener(end, (event) => {
      event.stopPropagation();
      pointers.delete(event.pointerId);
    });
  }
  element.addEventListener('wheel', (event) => {
    event.preventDefault();
    event.stopPropagation();
    resize(event.deltaY < 0 ? 1.05 : 1 / 1.05);
  }, {passive: false});
}

async function traceFile(file) {
  try {
    mustHold(file, MOST_IMAGE);
    const head = new Uint8Array(await file.slice(0, HEAD).arrayBuffer());
    const kind = kindOfFile(head);
    if (!IMAGES.has(kind)) throw new FileFault(phrase('import.noImage'));
    trace(await imageOfFile(file, head, kind));
  } catch (fault) {
    say(phrase('import.fileNotRead', {name: file.name, fault: faultText(fault).replace(/\.$/, '')}),
        'alarm');
  }
}

const chooseImage = () =>
    chooseFiles('image/png,image/jpeg,image/gif,image/webp', ([file]) => traceFile(file));

/** Adds tracing to the menu View. */
export function startTracing() {
  addAction({
    id: 'trace',
    name: phrase('import.traceImage'),
    place: 'view',
    group: 'trace',
    run: chooseImage
  });
  addAction({
    id: 'trace-end',
    name: phrase('import.removeTracedImage'),
    place: 'view',
    group: 'trace',
    run: endTracing,
    can: () => sheet.underlay !== null
  });
  on('opened', endTracing);
}
