// Print for books: the open picture, and on wish others of the library, as sheets, for the
// browser's print or as SVG.

import {$, choiceOf, fieldOf, make, say} from '../base/elements.js';
import {on} from '../base/events.js';
import {gradeName, verdictName} from '../base/names.js';
import {clamp, opening, sizeText} from '../base/words.js';
import {docOf, runsOf} from '../document/document.js';
import {LEAST_TEXT, alikeBoxes, smallestText} from '../draw/papers.js';
import {bench} from '../engine/bench.js';
import {writeZip} from '../formats/zip.js';
import {keep} from '../library/keep.js';
import {withClues} from '../library/open.js';
import {SAVE_TYPES, download, exportAs} from '../library/saving.js';
import {phrase} from '../texts/phrase.js';
import {addAction} from '../view/actions.js';
import {openDialog} from '../view/dialogs.js';
import {nearText, pairText} from '../view/dress.js';
import {presentGrade} from '../view/grading.js';
import {eachInTurn, withProgress} from '../view/progress.js';
import {asSeen} from '../view/tools.js';
import {SHEET_TEXTS, entryOf, inOrder} from './entries.js';
import {GRIDS, MOST_SHEETS, PAPERS, isLarge, makersOf, partsOf} from './sheets.js';

const PAPER_NAMES = {
  a4: 'A4',
  a5: 'A5',
  letter: phrase('export.usLetter'),
  book: phrase('export.sixByNine')
};
const SHOWN = {
  colours: phrase('view.colours'),
  letters: phrase('export.letters'),
  signs: phrase('export.signs')
};
const HEADS = {
  numbers: phrase('export.itsNumber'),
  titles: phrase('export.itsTitle')
};
const BOOK_ORDERS = {
  grade: phrase('export.byGrade'),
  name: phrase('export.byName'),
  hand: phrase('export.asTicked')
};
const MARGINS = [5, 40];  // millimetres
const LEAST_CELL = 3;     // millimetres that are filled easily
const USUAL = {
  paper: 'a4',
  isWide: false,
  margin: 12,
  perSheet: 1,
  show: 'colours',
  answers: true,
  hasGrade: false,
  head: 'numbers',
  order: 'name'
};
const chosen = {...USUAL};  // as it was chosen last; `show` for the open puzzle alone
const page = {
  rule: -1
};  // the place of the rule for the size of paper, in the page's style

/** What somebody who solves the puzzle should not be left to find out. */
export const WARNINGS = {
  ambiguous: phrase('export.anotherPictureSameClues'),
  undecided: phrase('export.notKnownYetWhether'),
};

/** The puzzle that is seen, with its clues, as the engine told them. */
export const puzzleOf = ({state, name}) => ({
  doc: docOf(state),
  clues: state.clues,
  name,
  grade: presentGrade()?.word ?? null,
  verdict: state.verdict.word
});

// How colours are told before one chooses: where they cannot be told apart, by letters.
const shownFirst = (near) => (near && chosen.show === 'colours' ? 'letters' : chosen.show);

/** What makes the sheets of puzzles, as makersOf has it. */
export const makersFor = (puzzles, options) =>
    makersOf(puzzles.map((one) => entryOf(one, options)), {...options, texts: SHEET_TEXTS});

/**
 * What comes of each sheet of puzzles, one after the other; null where `progress` does not go on.
 */
export async function sheetsInTurn(puzzles, options, progress, take = (sheet) => sheet) {
  const makers = makersFor(puzzles, options);
  const sheets = await eachInTurn(makers, progress, (makeSheet) => take(makeSheet()));
  return sheets.length === makers.length ? sheets : null;
}

// What stands above a puzzle that is the only one: its title, if it has one.
const headAlone = (title) => (title ? 'titles' : 'numbers');

/** The first sheet of a puzzle as it would be printed, as a part of the page. */
export const firstSheet = (puzzle) => drawingOf(makersFor(
                                                    [puzzle], {
                                                      ...chosen,
                                                      perSheet: 1,
                                                      head: headAlone(puzzle.doc.about.title),
                                                      show: shownFirst(nearText(puzzle.doc))
                                                    }
)[0]().svg);

/** What is to be known before a puzzle leaves the page. */
export const notesOfPuzzle = ({doc, verdict}) => [WARNINGS[verdict], nearText(doc)].filter(Boolean
).map((text) => make('p', {class: 'wrong'}, text));

// ---- the browser's print

// The size of the paper is a rule of the style: by the style's own interface, since the page's
// policy allows no other style.
function setPaper({width, height}) {
  const [style] = document.styleSheets;
  if (page.rule >= 0) style.deleteRule(page.rule);
  page.rule =
      style.insertRule(`@page { size: ${width}mm ${height}mm; margin: 0; }`, style.cssRules.length);
}

/** A sheet as a part of the page. */
export const drawingOf = (svg) => document.importNode(
    new DOMParser().parseFromString(svg, 'image/svg+xml').documentElement, true
);

/** A sheet as it is printed. */
export const printedOf = ({svg, width, height}) =>
    ({width, height, part: make('section', {class: 'printed'}, drawingOf(svg))});

/** Fills the part of the page that is printed. */
export function fillPrint(sheets) {
  setPaper(sheets[0]);
  $('print').replaceChildren(...sheets.map(({part}) => part));
}

/** Saves sheets as one SVG, or as a zip of several. */
export function saveSvg(name, sheets, isZip) {
  if (!isZip) return exportAs(name, 'svg', sheets[0].svg, '-print');
  const files = sheets.map(({svg}, at) => ({
                             name: `${name} ${String(at + 1).padStart(2, '0')}.svg`,
                             bytes: new TextEncoder().encode(svg)
                           }));
  download(writeZip(files), `${name}-print.zip`, SAVE_TYPES.zip.type);
  return say(phrase('export.sheetsSavedPrintZip', {sheets: files.length, name}));
}

// ---- what is asked

const choice = (id, options, value) => choiceOf({id}, Object.entries(options), String(value));

// The other pictures of the library, to be printed with this one.
async function otherCards() {
  const {id} = keep;
  const keeper = await keep.ready();
  return inOrder((await keeper.cards().catch(() => [])).filter((card) => card.id !== id), 'name');
}

function libraryPart(cards) {
  const ticked = new Set();  // in the order in which they were
  const boxes = cards.map(
      (card) =>
          make('input', {type: 'checkbox', onchange: (event) => tick(card, event.target.checked)})
  );
  const tick = (card, isTicked) => {
    ticked.delete(card);
    if (isTicked) ticked.add(card);
  };
  const all = make('input', {
    type: 'checkbox',
    id: 'print-all',
    onchange: () => {
      boxes.forEach((box, at) => {
        box.checked = all.checked;
        tick(cards[at], all.checked);
      });
    }
  });
  const facts =
      (card) => [card.name,
                 sizeText(card.doc),
                 card.verdict && card.verdict !== 'unique' ? verdictName(card.verdict) : '']
                    .filter(Boolean)
                    .join(', ');
  const part = make(
      'details',
      {id: 'print-others'},
      make('summary', {}, phrase('export.othersLibrary', {count: cards.length})),
      make('label', {}, all, phrase('export.all')),
      ...cards.map((card, at) => make('label', {}, boxes[at], facts(card)))
  );
  return {part: cards.length ? part : '', chosen: () => [...ticked]};
}

/** The fields of what is printed, by their names, and in rows; the first is the title. */
export function printFields(own, near) {
  const tick = (id, checked) => make('input', {type: 'checkbox', id, checked});
  const fields = {
    title: make(
        'input',
        {type: 'text', id: 'print-title', value: own.doc.about.title ?? '', maxlength: '200'}
    ),
    paper: choice('print-paper', PAPER_NAMES, chosen.paper),
    wide: tick('print-wide', chosen.isWide),
    margin: make(
        'input',
        {type: 'number', id: 'print-margin', min: MARGINS[0], max: MARGINS[1], value: chosen.margin}
    ),
    perSheet: choice(
        'print-count',
        Object.fromEntries(Object.keys(GRIDS).map((count) => [count, count])),
        chosen.perSheet
    ),
    show: choice('print-show', SHOWN, shownFirst(near)),
    head: choice('print-head', HEADS, chosen.head),
    order: choice('print-order', BOOK_ORDERS, chosen.order),
    answers: tick('print-answers', chosen.answers),
    grade: tick('print-grade', chosen.hasGrade),
  };
  if (near) fields.show.querySelector('[value="colours"]').disabled = true;
  const gradeText = own.grade ? phrase('export.gradeField', {word: gradeName(own.grade)}) :
                                phrase('export.gradeWhereOneKnown');
  const rows = [
    fieldOf(phrase('export.sheetTitle'), fields.title),
    fieldOf(phrase('export.paper'), fields.paper),
    fieldOf(phrase('export.marginMm'), fields.margin),
    fieldOf(phrase('export.puzzlesSheet'), fields.perSheet),
    fieldOf(phrase('export.coloursShown'), fields.show),
    fieldOf(phrase('export.aboveEach'), fields.head),
    fieldOf(phrase('export.bookOrder'), fields.order),
    make('label', {}, fields.wide, phrase('export.landscape')),
    make('label', {}, fields.answers, phrase('export.solutionsEnd')),
    make('label', {}, fields.grade, gradeText)
  ];
  return {fields, rows};
}

/** What was chosen in the fields. */
export function readFields({paper, wide, margin, perSheet, show, answers, grade, head, order}) {
  const side = Number(margin.value);
  return {
    paper: paper.value in PAPERS ? paper.value : USUAL.paper,
    isWide: wide.checked,
    margin: clamp(Number.isFinite(side) ? side : USUAL.margin, ...MARGINS),
    perSheet: Number(perSheet.value),
    show: show.value,
    answers: answers.checked,
    hasGrade: grade.checked,
    head: head.value,
    order: order.value
  };
}

// That cells or numbers of puzzles are small on their sheets; '' where none are.
function smallOn(sheets, puzzles, {show}) {
  const cell = Math.min(...sheets.map((sheet) => sheet.cell ?? Infinity));
  const text = cell * Math.min(...puzzles.map((one) => smallestText(one, show)));
  const tenths = (value) => Math.round(value * 10) / 10;
  if (cell < LEAST_CELL) return phrase('export.smallestCellsMmWide', {value: tenths(cell)});
  return text < LEAST_TEXT ? phrase('export.smallestNumbersMmHigh', {value: tenths(text)}) : '';
}

// That clues in two colours look alike on paper; '' where none do.
function tintsText(doc) {
  const pair = alikeBoxes(doc);
  return pair ? phrase('export.tintsAlike', {pair: pairText(doc, pair[0], pair[1])}) : '';
}

// What is to be known before puzzles are printed: what is wrong with them, how many sheets they
// take, and what is small on these.
function notesOn(puzzles, sheets, options) {
  const inColours = options.show === 'colours';
  const named = ({name}, text) =>
      (text && puzzles.length > 1 ? phrase('import.certificateSays', {name, text}) : text);
  const coloursText = (one, near) => {
    if (!near) return inColours ? named(one, tintsText(one.doc)) : '';
    return inColours ? phrase('export.printLettersSigns', {name: one.name, near}) :
                       named(one, phrase('export.soSheetLettersSigns', {near}));
  };
  const wrong = puzzles.flatMap(
      (one) => [named(one, WARNINGS[one.verdict]), coloursText(one, nearText(one.doc))]
  );
  const large = puzzles.filter(isLarge
  ).map((one) => named(one, phrase('export.goesOverSheetsMap', {sheets: partsOf(one.doc).length})));
  const lines = (kind, texts) =>
      texts.filter(Boolean).map((text) => make('p', {class: kind}, text));
  return [
    ...lines('wrong', wrong),
    ...lines('faint', large),
    make('p', {class: 'faint', id: 'print-small'}, smallOn(sheets, puzzles, options))
  ];
}

// A puzzle and those of some cards, with the runs of their pictures, to foresee their sheets: what
// is printed has the engine's clues.
async function foreseen(own, cards, order) {
  const records = await Promise.all(cards.map(
      async ({id, grade, verdict}) => ({...(await keep.keeper.record(id)), grade, verdict})
  ));
  return inOrder(
      [own, ...records.filter(({doc}) => doc).map((one) => ({...one, clues: runsOf(one.doc)}))],
      order
  );
}

// The puzzles of some cards, opened; null where that is stopped, and, told, where one is damaged,
// does not open, or has colours that cannot be told apart.
async function openedOf(cards, {show}, progress) {
  const records = [];
  for (const {id, name, grade} of cards) {
    const record = await keep.keeper.record(id);
    if (!record)
      return void say(
          phrase(
              'import.certificateSays', {name, text: phrase('library.pictureLibraryDamagedCould')}
          ),
          'alarm'
      );
    records.push({...record, grade});
  }
  const alike = records.find(({doc}) => show === 'colours' && nearText(doc));
  if (alike)
    return void say(
        phrase('export.printLettersSigns', {name: alike.name, near: nearText(alike.doc)}), 'alarm'
    );
  return withClues(records, undefined, progress);
}

/**
 * The dialog that asks how a puzzle, and others of the library with it, are printed. Its preview
 * and its notes follow each choice.
 */
class PrintDialog {
  preview = make('figure', {class: 'preview', 'aria-hidden': 'true'});
  notes = make('div', {id: 'print-notes', role: 'status'});
  svgName = make('span');
  tooMany = '';  // that these are more sheets than can be printed
  choices = 0;   // how many there were: what is drawn for an earlier one is dropped

  constructor(own, near, cards) {
    const {fields, rows} = printFields(own, near);
    this.own = own;
    this.fields = fields;
    this.rows = rows;
    this.others = libraryPart(cards);
    for (const field of [fields.head, fields.order])
      field.closest('label').hidden = cards.length === 0;
  }

  /** The puzzle with the title that was typed. */
  get titled() {
    const {own, fields} = this;
    return {...own, doc: {...own.doc, about: {...own.doc.about, title: fields.title.value.trim()}}};
  }

  /** The cards of the other pictures to be printed. */
  get cards() {
    return this.others.chosen();
  }

  /** What is chosen. Where one puzzle is printed, its title decides what stands above it. */
  get options() {
    const options = readFields(this.fields);
    if (this.cards.length) return options;
    return {...options, head: headAlone(this.fields.title.value.trim())};
  }

  /** 'svg' or 'print', or a false value if the dialog is closed. */
  async ask() {
    await this.update();
    const test = () => this.tooMany;
    const answer = await openDialog({
      title: phrase('export.print'),
      content: this.content(),
      wide: true,
      buttons: [
        {name: this.svgName, value: 'svg', test},
        {name: opening(phrase('export.print')), value: 'print', main: true, test}
      ]
    });
    this.choices++;
    return answer;
  }

  content() {
    return make(
        'div',
        {class: 'publishing', onchange: () => this.update()},
        this.preview,
        make('div', {}, make('div', {class: 'rows'}, ...this.rows, this.others.part), this.notes)
    );
  }

  // Follows a choice: how many sheets there are, the first of them, and what is to be known.
  async update() {
    const choice = ++this.choices;
    const {options, cards} = this;
    this.count(options, cards);
    if (this.tooMany) return this.notes.replaceChildren(make('p', {class: 'wrong'}, this.tooMany));
    const puzzles = await foreseen(this.titled, cards, options.order);
    const sheets = await sheetsInTurn(puzzles, options, this.progressOf(choice), this.showFirst());
    if (sheets) this.notes.replaceChildren(...notesOn(puzzles, sheets, options));
  }

  // Counts the sheets of a choice, and says whether they can be printed, and how they are saved.
  count(options, cards) {
    const sheets = makersOf(inOrder([this.own, ...cards], options.order), options).length;
    this.tooMany =
        sheets > MOST_SHEETS ? phrase('export.mostSheets', {sheets, most: MOST_SHEETS}) : '';
    this.svgName.textContent =
        sheets > 1 || cards.length ? phrase('export.saveSvgs') : phrase('export.saveSvg');
  }

  // The progress of what is drawn for a choice: it goes on until there is a later one.
  progressOf(choice) {
    const goesOn = async () => {
      await new Promise((go) => setTimeout(go));
      return choice === this.choices;
    };
    return {goesOn};
  }

  // Takes sheets, of which the first is the preview, and leaves of each the size of its cells.
  showFirst() {
    let isFirst = true;
    return ({cell, svg}) => {
      if (isFirst) this.preview.replaceChildren(drawingOf(svg));
      isFirst = false;
      return {cell};
    };
  }
}

// Notes what was chosen for the next time. What was only proposed is not chosen.
function remember(fields, isProposed) {
  const {show} = chosen;
  Object.assign(chosen, readFields(fields), isProposed && {show});
}

// The sheets of a puzzle and of those of some cards, as `take` has them; null where that is
// stopped.
const sheetsOf = (own, cards, options, take) =>
    withProgress(phrase('export.print'), async (progress) => {
      const opened = await openedOf(cards, options, progress);
      if (!opened) return null;
      return sheetsInTurn(inOrder([own, ...opened], options.order), options, progress, take);
    });

const printPuzzle = () => asSeen(async (seen) => {
  const own = puzzleOf(seen);
  const near = nearText(own.doc);
  const dialog = new PrintDialog(own, near, await otherCards());
  const answer = await dialog.ask();
  if (!answer) return;
  const {titled, cards, options} = dialog;
  remember(dialog.fields, bench.term !== seen.term || options.show === shownFirst(near));
  const take = answer === 'print' ? printedOf : undefined;
  const sheets = await sheetsOf(titled, cards, options, take);
  if (!sheets) return;
  if (answer === 'svg') return saveSvg(own.name, sheets, sheets.length > 1 || cards.length > 0);
  fillPrint(sheets);
  globalThis.print();
});

/** Adds print to the menu File. */
export function startPrinting() {
  addAction({
    id: 'print',
    name: opening(phrase('export.print')),
    key: 'Ctrl+P',
    place: 'file',
    group: 'export',
    run: printPuzzle
  });
  on('opened', () => {
    chosen.show = USUAL.show;
  });
  // What is opened by the browser's own print, without the dialog, is a sheet too.
  addEventListener('beforeprint', () => {
    if (bench.state && !$('print').children.length)
      fillPrint(makersFor(
                    [puzzleOf(bench)], {...chosen, show: shownFirst(nearText(bench.state))}
      ).map((makeSheet) => printedOf(makeSheet())));
  });
  addEventListener('afterprint', () => $('print').replaceChildren());
}
