// The report of an audit: a virtual list of thumbnails, with filters, sorting, and a dialog for one
// puzzle.
'use strict';

const FITNESS = ['fit', 'flawed', 'ambiguous', 'undecided', 'error'];
const SHOWN = ['fit', 'one solution, flawed', 'ambiguous', 'undecided', 'error'];
const GRADES = ['easy', 'medium', 'hard', 'very hard', 'expert', 'unknown'];
const FIGURES = ['rounds', 'evaluations', 'longest wait', 'splits', 'depth'];
const LETTERS = '.abcdefghijklmno';
const CARD = {
  width: 208,
  height: 226,
  gap: 10,
  shot: 128,
  pair: 90
};
const LARGE = 430;  // pixels of a picture in the dialog

const byId = (id) => document.getElementById(id);
const number = new Intl.NumberFormat('en');

/**
 * An element with properties and children. Texts go in as texts: nothing of a file is ever taken
 * for markup.
 */
function make(tag, properties = {}, ...children) {
  const element = document.createElement(tag);
  for (const [name, value] of Object.entries(properties)) {
    if (name.includes('-') || name === 'role')
      element.setAttribute(name, value);
    else
      element[name] = value;
  }
  element.append(...children);
  return element;
}

// ---- the rows

const NAMES = [
  'name',
  'title',
  'rows',
  'columns',
  'fitness',
  'grade',
  'open',
  'palette',
  'picture',
  'other',
  'lines',
  'seconds',
  'words',
  'givens',
  'figures',
  'flaws'
];
const LISTS = new Set(['givens', 'figures', 'flaws']);
const at = Object.fromEntries(NAMES.map((name, place) => [name, place]));
const records = JSON.parse(byId('rows').textContent);
byId('rows').remove();
const sides =
    Uint8Array.from(records, (record) => Math.max(record[at.rows] ?? 0, record[at.columns] ?? 0));
const fitness = Uint8Array.from(records, (record) => record[at.fitness]);
const grades = Int8Array.from(records, (record) => record[at.grade] ?? -1);

/** The cells of runs as numbers of colours. */
function cellsOf(runs) {
  const cells = [];
  for (const [, letter, count] of runs.matchAll(/([.a-o])(\d*)/g)) {
    for (let left = Number(count || 1); left > 0; left--) cells.push(LETTERS.indexOf(letter));
  }
  return cells;
}

/** A puzzle of a record, with its cells and those that differ in the second solution. */
function puzzleOf(index) {
  const record = records[index];
  const puzzle = Object.fromEntries(
      NAMES.map((name, place) => [name, record[place] ?? (LISTS.has(name) ? [] : '')])
  );
  puzzle.grade = record[at.grade] ?? -1;
  puzzle.colours = (puzzle.palette.match(/.{6}/g) ?? []).map((hex) => `#${hex}`);
  puzzle.cells = cellsOf(puzzle.picture);
  puzzle.others = puzzle.other ? cellsOf(puzzle.other) : null;
  puzzle.differ = puzzle.others ?
      puzzle.cells.flatMap((colour, cell) => (colour === puzzle.others[cell] ? [] : [cell])) :
      [];
  return puzzle;
}

// ---- pictures

/**
 * A canvas with a picture, at most so many pixels a side. Cells that differ are framed, given ones
 * have a ring.
 */
function canvasOf(puzzle, cells, most, label) {
  const {rows, columns, colours} = puzzle;
  const ratio = Math.min(3, window.devicePixelRatio || 1);
  const cell = Math.max(1, Math.floor((most * ratio) / Math.max(rows, columns)));
  const canvas = make(
      'canvas', {width: columns * cell, height: rows * cell, role: 'img', 'aria-label': label}
  );
  canvas.style.width = `${(columns * cell) / ratio}px`;
  const pen = canvas.getContext('2d');
  for (let row = 0; row < rows; row++) {
    for (let from = 0; from < columns;) {
      const colour = cells[row * columns + from];
      let to = from + 1;
      while (to < columns && cells[row * columns + to] === colour) to++;
      pen.fillStyle = colours[colour];
      pen.fillRect(from * cell, row * cell, (to - from) * cell, cell);
      from = to;
    }
  }
  frameCells(pen, puzzle, cell, Math.max(1, Math.min(Math.round(cell / 7), Math.round(3 * ratio))));
  return canvas;
}

function frameCells(pen, {differ, givens, columns}, cell, wide) {
  const style = getComputedStyle(document.documentElement);
  const rectangle = (place, inside) =>
      [(place % columns) * cell + inside,
       Math.floor(place / columns) * cell + inside,
       cell - 2 * inside,
       cell - 2 * inside];
  for (const place of differ) {
    for (const [strokeStyle, lineWidth] of [
             ['#fff', wide * 2],
             [style.getPropertyValue('--frame'), wide]]) {
      Object.assign(pen, {strokeStyle, lineWidth}).strokeRect(...rectangle(place, lineWidth / 2));
    }
  }
  for (const place of givens) {
    const [left, top] = rectangle(place, 0);
    for (const [strokeStyle, lineWidth] of [['#fff', wide * 2], ['#000', wide]]) {
      Object.assign(pen, {strokeStyle, lineWidth}).beginPath();
      pen.arc(left + cell / 2, top + cell / 2, cell / 4, 0, 2 * Math.PI);
      pen.stroke();
    }
  }
}

function shotsOf(puzzle, most, withCaptions) {
  if (!puzzle.cells.length) return [];
  const named = (label, canvas) =>
      (withCaptions ? make('figure', {}, canvas, make('figcaption', {}, label)) : canvas);
  const first = canvasOf(puzzle, puzzle.cells, most, `Picture of ${puzzle.name}`);
  if (!puzzle.others) return [named('The picture', first)];
  const second = canvasOf(
      puzzle,
      puzzle.others,
      most,
      `A second solution, which differs in ${puzzle.differ.length} cells`
  );
  return [
    named('The picture', first),
    named(`A second solution: the ${puzzle.differ.length} framed cells differ`, second)
  ];
}

// ---- cards

const verdictOf = ({fitness}) => make(
    'span',
    {className: `verdict ${FITNESS[fitness]}`},
    make('span', {className: 'sign', 'aria-hidden': 'true'}),
    SHOWN[fitness]
);

function figureOf(puzzle) {
  if (puzzle.grade >= 0) return GRADES[puzzle.grade];
  return puzzle.differ.length ? `${puzzle.differ.length} cells differ` : '';
}

function sizesOf(puzzle) {
  const size = puzzle.columns && `${puzzle.columns} \u00d7 ${puzzle.rows}`;
  const guess = puzzle.open && `${number.format(puzzle.open)} open`;
  return [size, puzzle.colours.length && `${puzzle.colours.length} colours`, guess].filter(Boolean
  ).join(', ');
}

function cardOf(index, width) {
  const puzzle = puzzleOf(index);
  const shots = shotsOf(puzzle, puzzle.others ? CARD.pair : CARD.shot, false);
  if (!shots.length) shots.push(make('p', {className: 'why'}, puzzle.words));
  const under = make(
      'div',
      {},
      make(
          'div',
          {className: 'name', title: puzzle.name},
          puzzle.title || puzzle.name.split('/').at(-1)
      ),
      make('div', {className: 'line'}, verdictOf(puzzle), make('span', {}, figureOf(puzzle))),
      puzzle.flaws.length ?
          make(
              'div',
              {className: 'line besides', title: puzzle.words},
              make('span', {}, puzzle.words)
          ) :
          make('div', {className: 'line faint'}, make('span', {}, sizesOf(puzzle)))
  );
  const card = make(
      'div',
      {className: 'card', role: 'listitem', tabIndex: -1},
      make('div', {className: 'shots'}, ...shots),
      under
  );
  const words = [
    puzzle.name,
    puzzle.title,
    SHOWN[puzzle.fitness],
    figureOf(puzzle),
    sizesOf(puzzle),
    puzzle.words
  ];
  card.setAttribute('aria-label', words.filter(Boolean).join(', '));
  Object.assign(card.style, {width: `${width}px`, height: `${CARD.height}px`});
  return card;
}

// ---- the list

class List {
  constructor() {
    this.element = byId('list');
    this.shown = new Map();  // cards by their places
    this.order = new Uint32Array(0);
    this.current = 0;  // the place that the keyboard is at
    this.across = 1;
    this.width = 0;  // of a card
    window.addEventListener('scroll', () => this.draw(), {passive: true});
    new ResizeObserver(() => this.layout()).observe(this.element);
    this.element.addEventListener('keydown', (event) => this.press(event));
    this.element.addEventListener('focusin', (event) => this.took(event));
    this.element.addEventListener('click', (event) => {
      const card = event.target.closest('.card');
      if (card) details.open(Number(card.dataset.place));
    });
  }

  /** Shows the puzzles of an order, from the first on. */
  show(order) {
    this.order = order;
    this.current = 0;
    this.clear();
    this.layout();
  }

  clear() {
    for (const card of this.shown.values()) card.remove();
    this.shown.clear();
  }

  layout() {
    const width = this.element.clientWidth;
    const across = Math.max(1, Math.floor((width + CARD.gap) / (CARD.width + CARD.gap)));
    const each = Math.floor((width + CARD.gap) / across) - CARD.gap;
    if (across !== this.across || each !== this.width) this.clear();
    Object.assign(this, {across, width: each});
    this.element.style.height =
        `${Math.ceil(this.order.length / across) * (CARD.height + CARD.gap)}px`;
    this.draw();
  }

  draw() {
    const step = CARD.height + CARD.gap;
    const top = -this.element.getBoundingClientRect().top;
    const from = Math.max(0, Math.floor(top / step) - 1) * this.across;
    const to = Math.min(
        this.order.length, (Math.floor((top + window.innerHeight) / step) + 2) * this.across
    );
    for (const [place, card] of this.shown) {
      if ((place < from || place >= to) && card !== document.activeElement) {
        card.remove();
        this.shown.delete(place);
      }
    }
    for (let place = from; place < to; place++)
      if (!this.shown.has(place)) this.put(place);
  }

  put(place) {
    const card = cardOf(this.order[place], this.width);
    card.dataset.place = place;
    card.tabIndex = place === this.current ? 0 : -1;
    card.setAttribute('aria-setsize', this.order.length);
    card.setAttribute('aria-posinset', place + 1);
    card.style.left = `${(place % this.across) * (this.width + CARD.gap)}px`;
    card.style.top = `${Math.floor(place / this.across) * (CARD.height + CARD.gap)}px`;
    const next =
        [...this.shown.entries()].filter(([other]) => other > place).sort(([a], [b]) => a - b)[0];
    this.element.insertBefore(card, next ? next[1] : null);
    this.shown.set(place, card);
  }

  took(event) {
    const card = event.target.closest('.card');
    if (!card) return;
    const before = this.shown.get(this.current);
    if (before) before.tabIndex = -1;
    this.current = Number(card.dataset.place);
    card.tabIndex = 0;
  }

  press(event) {
    if (event.altKey || event.ctrlKey || event.metaKey) return;
    const page =
        Math.max(1, Math.floor(window.innerHeight / (CARD.height + CARD.gap)) - 1) * this.across;
    const steps = {
      ArrowLeft: -1,
      ArrowRight: 1,
      ArrowUp: -this.across,
      ArrowDown: this.across,
      PageUp: -page,
      PageDown: page,
      Home: -Infinity,
      End: Infinity
    };
    if (event.key === 'Enter' || event.key === ' ')
      details.open(this.current);
    else if (event.key in steps)
      this.go(this.current + steps[event.key]);
    else
      return;
    event.preventDefault();
  }

  /** Puts the keyboard at a place, and brings it into view. */
  go(place) {
    if (!this.order.length) return;
    const to = Math.min(this.order.length - 1, Math.max(0, place));
    const tools = document.querySelector('.tools');
    const above = getComputedStyle(tools).position === 'sticky' ? tools.offsetHeight + 8 : 8;
    const top = this.element.offsetTop + Math.floor(to / this.across) * (CARD.height + CARD.gap);
    if (top - above < window.scrollY)
      window.scrollTo(0, top - above);
    else if (top + CARD.height + 8 > window.scrollY + window.innerHeight)
      window.scrollTo(0, top + CARD.height + 8 - window.innerHeight);
    this.draw();
    if (!this.shown.has(to)) this.put(to);
    this.shown.get(to).focus({preventScroll: true});
  }
}

// ---- one puzzle

class Details {
  constructor() {
    this.element = byId('details');
    this.place = 0;
    this.element.addEventListener('keydown', (event) => {
      const step = {ArrowLeft: -1, ArrowRight: 1}[event.key];
      if (step && this.place + step >= 0 && this.place + step < list.order.length)
        this.open(this.place + step);
    });
    this.element.addEventListener('click', (event) => {
      if (event.target === this.element) this.element.close();
    });
    this.element.addEventListener('close', () => list.go(this.place));
  }

  open(place) {
    if (place >= list.order.length) return;
    this.place = place;
    const puzzle = puzzleOf(list.order[place]);
    byId('details-name').textContent = puzzle.name;
    byId('details-title').textContent = puzzle.title;
    byId('details-pictures'
    ).replaceChildren(...shotsOf(puzzle, puzzle.others ? LARGE : LARGE * 1.2, true));
    byId('details-figures')
        .replaceChildren(...figuresOf(puzzle
        ).flatMap(([name, ...value]) => [make('dt', {}, name), make('dd', {}, ...value)]));
    if (!this.element.open) this.element.showModal();
  }
}

function figuresOf(puzzle) {
  const swatches = puzzle.colours.flatMap(
      (colour
      ) => [make('span', {className: 'swatch', style: `background: ${colour}`}), `${colour}  `]
  );
  return [
    ['Fit', verdictOf(puzzle)],
    puzzle.columns && ['Size', `${puzzle.columns} columns, ${puzzle.rows} rows`],
    puzzle.columns &&
        [
          'Cells to guess',
          puzzle.open ? `${number.format(puzzle.open)} are left open by line logic` :
                        'none: line logic solves it'
        ],
    puzzle.grade >= 0 &&
        [
          'Grade',
          `${GRADES[puzzle.grade]} (${
              puzzle.figures.map(
                                (figure, place) => `${FIGURES[place]} ${number.format(figure)}`
              ).join(', ')})`
        ],
    puzzle.lines && ['Certificate', `${number.format(puzzle.lines)} lines`],
    puzzle.columns &&
        ['Given cells', puzzle.givens.length ? `${puzzle.givens.length}, with a ring` : 'none'],
    puzzle.columns && ['Background', ...swatches.slice(0, 2)],
    puzzle.seconds && ['Time', `${puzzle.seconds.toPrecision(3)} s`],
    puzzle.colours.length > 1 && ['Colours', ...swatches.slice(2)],
    puzzle.words && ['Besides', puzzle.words],
  ].filter(Boolean);
}

// ---- filters and sorting

const filter = {
  fitness: new Set(),
  grade: new Set(),
  flaw: new Set()
};
const choosers = Object.entries(filter).flatMap(
    ([kind, chosen]) => [...document.querySelectorAll(`[data-${kind}]`)].map(
        (button) => ({button, chosen, value: Number(button.dataset[kind])})
    )
);
let lowered = null;  // names in lower case
let ranks = null;    // names as a reader sorts them
let differs = null;

const KEYS = {
  order: () => null,
  name: () => (ranks ??= ranksOf(records.map((record) => record[at.name]))),
  fitness: () => fitness,
  grade: () => grades,
  size: () =>
      Uint16Array.from(records, (record) => (record[at.rows] ?? 0) * (record[at.columns] ?? 0)),
  open: () => Uint16Array.from(records, (record) => record[at.open] ?? 0),
  differ: () =>
      (differs ??= Uint16Array.from(
           records, (record, index) => (record[at.other] ? puzzleOf(index).differ.length : 0)
       )),
  lines: () => Uint32Array.from(records, (record) => record[at.lines] ?? 0),
  seconds: () => Float32Array.from(records, (record) => record[at.seconds] ?? 0),
};

function ranksOf(names) {
  const {compare} = new Intl.Collator('en', {numeric: true});
  const made = new Uint32Array(names.length);
  [...names.keys()].sort((a, b) => compare(names[a], names[b]) || a - b).forEach((index, rank) => {
    made[index] = rank;
  });
  return made;
}

function wanted() {
  const text = byId('name').value.trim().toLowerCase();
  if (text)
    lowered ??=
        records.map((record) => `${record[at.name]}\n${record[at.title] ?? ''}`.toLowerCase());
  const least = Number(byId('least').value || 0);
  const most = Number(byId('most').value || 255);
  const found = [];
  for (let index = 0; index < records.length; index++) {
    if (filter.fitness.size && !filter.fitness.has(fitness[index])) continue;
    if (filter.flaw.size && !(records[index][at.flaws] ?? []).some((flaw) => filter.flaw.has(flaw)))
      continue;
    if (filter.grade.size && !filter.grade.has(grades[index])) continue;
    if (sides[index] < least || sides[index] > most) continue;
    if (text && !lowered[index].includes(text)) continue;
    found.push(index);
  }
  return found;
}

/** Shows what is asked for. */
function renew() {
  const found = wanted();
  const keys = KEYS[byId('sort').value]();
  if (keys) found.sort((a, b) => keys[a] - keys[b] || a - b);
  if (byId('turn').getAttribute('aria-pressed') === 'true') found.reverse();
  list.show(Uint32Array.from(found));
  byId('empty').hidden = found.length > 0;
  byId('count').textContent = found.length === records.length ?
      `${number.format(found.length)} shown` :
      `${number.format(found.length)} of ${number.format(records.length)}`;
  for (const {button, chosen, value} of choosers)
    button.setAttribute('aria-pressed', chosen.has(value));
  for (const button of document.querySelectorAll('[data-least]'))
    button.setAttribute(
        'aria-pressed',
        byId('least').value === button.dataset.least && byId('most').value === button.dataset.most
    );
}

function toggle(chosen, value) {
  if (!chosen.delete(value)) chosen.add(value);
  renew();
}

function chooseSize({dataset, ariaPressed}) {
  const isChosen = ariaPressed === 'true';
  byId('least').value = isChosen ? '' : dataset.least;
  byId('most').value = isChosen ? '' : dataset.most;
  renew();
}

function turnTheme(isDark) {
  document.documentElement.classList.toggle('dark', isDark);
  byId('theme').setAttribute('aria-pressed', isDark);
  list.clear();
  list.draw();
}

const list = new List();
const details = new Details();
for (const {button, chosen, value} of choosers)
  button.addEventListener('click', () => toggle(chosen, value));
for (const button of document.querySelectorAll('[data-least]'))
  button.addEventListener('click', () => chooseSize(button));
for (const id of ['name', 'least', 'most', 'sort']) byId(id).addEventListener('input', renew);
byId('turn').addEventListener('click', (event) => {
  event.currentTarget.setAttribute(
      'aria-pressed', event.currentTarget.getAttribute('aria-pressed') !== 'true'
  );
  renew();
});
byId('reset').addEventListener('click', () => {
  for (const {chosen} of choosers) chosen.clear();
  for (const id of ['name', 'least', 'most']) byId(id).value = '';
  byId('sort').value = 'order';
  byId('turn').setAttribute('aria-pressed', 'false');
  renew();
});
byId('theme'
).addEventListener('click', () => turnTheme(byId('theme').getAttribute('aria-pressed') !== 'true'));
const dark = matchMedia('(prefers-color-scheme: dark)');
dark.addEventListener('change', () => turnTheme(dark.matches));
turnTheme(dark.matches);
renew();
document.documentElement.dataset.shown = performance.now().toFixed(0);
