// Elements of the page: by name, made anew, and the line in which the page speaks.

/**
 * The element with an id; its kind is known to who asks.
 * @type {(id: string) => any}
 */
export const $ = (id) => document.getElementById(id);

/**
 * Makes an element: `make('button', {type: 'button', class: 'x'}, 'text', otherElement)`. Texts are
 * never taken as HTML.
 * @type {(name: string, attributes?: Record<string, any>, ...children: any[]) => any}
 */
export const make = (name, attributes = {}, ...children) => {
  const element = document.createElement(name);
  for (const [key, value] of Object.entries(attributes)) {
    if (value === null || value === undefined || value === false) continue;
    if (key.startsWith('on'))
      element.addEventListener(key.slice(2), value);
    else
      element.setAttribute(key, value === true ? '' : value);
  }
  element.append(...children);
  return element;
};

/** Writes a text into an element, if it has another one: what is written is laid out again. */
export const write = (element, text) => {
  if (element.textContent !== text) element.textContent = text;
};

/** Makes a button. */
export const buttonOf = (id, name, run, more = {}) =>
    make('button', {type: 'button', id, onclick: run, ...more}, name);

/** A field with its name before it, in the grid of all fields. */
export const fieldOf = (name, ...fields) =>
    make('label', {class: 'field'}, make('span', {}, name), ...fields);

/** Makes a choice of some values, pairs of a value and its text; one may be chosen at first. */
export const choiceOf = (attributes, options, chosen = null) => make(
    'select',
    attributes,
    ...options.map(([value, text]) => make('option', {value, selected: value === chosen}, text))
);

/** Lets the user choose files of some kinds; `take` hears them. */
export function chooseFiles(accept, take, multiple = false) {
  const input = make('input', {type: 'file', accept, multiple});
  input.addEventListener('change', () => input.files.length && take([...input.files]));
  input.click();
}

/** Makes a part of an SVG drawing. */
export function svgPart(name, attributes, ...children) {
  const element = document.createElementNS('http://www.w3.org/2000/svg', name);
  for (const [key, value] of Object.entries(attributes)) element.setAttribute(key, value);
  element.append(...children);
  return element;
}

/** Whether the page is pressed with fingers, which have no keys and drop nothing. */
export const hasFingers = () => matchMedia('(pointer: coarse)').matches;

/**
 * Keeps the strokes of fingers on an element from the browser's own gestures: behind a quick one
 * Chromium would take the next tap, wherever it is, for the end of a fling, and make no click of
 * it.
 */
export const withoutGestures = (element) =>
    element.addEventListener('touchstart', (event) => event.preventDefault(), {passive: false});

/** The point between two pointers that are down, and how `far` they are apart. */
export function spanOf(pointers) {
  const [one, other] = pointers.values();
  return {
    x: (one.x + other.x) / 2,
    y: (one.y + other.y) / 2,
    far: Math.hypot(one.x - other.x, one.y - other.y)
  };
}

const said = {
  timer: 0,
  count: 0,
  stays: false,
  lasts: false,
  from: 0
};
const READ = 4000;  // milliseconds in which a message is read

/**
 * Says something to the user: `kind` is '' or 'alarm'. An alarm stays until it is clicked,
 * something else is said, painting goes on or another picture opens; what has an `action`, {name,
 * run}, a button beside the text, stays while painting, too, and what `lasts`, as it is said of no
 * picture, beside another one. Returns what takes the message back.
 */
export function say(text, kind = '', action = null, lasts = false) {
  clearTimeout(said.timer);
  const line = $('said');
  line.dataset.kind = kind;
  line.replaceChildren(
      text,
      ...(action ? [' ', make('button', {type: 'button', onclick: action.run}, action.name)] : [])
  );
  if (text && !kind && !action) said.timer = setTimeout(() => say(''), 2 * READ);
  Object.assign(
      said, {count: said.count + 1, stays: action !== null, lasts, from: performance.now()}
  );
  const own = said.count;
  return () => {
    if (said.count === own) say('');
  };
}

/** A stroke ends a message that was read. */
export function hush() {
  if (!said.stays && performance.now() - said.from > READ && $('said').textContent) say('');
}

/** Another picture is open: what was said of the one before it ends. */
export function hushOther() {
  if (!said.lasts) say('');
}
