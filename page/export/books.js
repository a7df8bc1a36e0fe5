// A book of puzzles in one dialog: from the library, or from files and folders, choose, repair,
// order by rising grade, with numbers, solutions and a cover; for print, or as files.

import {buttonOf, fieldOf, make, say} from '../base/elements.js';
import {on} from '../base/events.js';
import {clamp, cleanName, opening} from '../base/words.js';
import {runsOf, sameDoc} from '../document/document.js';
import {iconOf} from '../draw/icons.js';
import {Judge, Mender} from '../engine/judging.js';
import {allRecords, saveArchive} from '../import/archives.js';
import {grouped, puzzlesIn} from '../import/beside.js';
import {TAKEN_KINDS, imageDocs} from '../import/taking.js';
import {keep} from '../library/keep.js';
import {faultText, withClues} from '../library/open.js';
import {phrase} from '../texts/phrase.js';
import {addAction} from '../view/actions.js';
import {openDialog} from '../view/dialogs.js';
import {nearText} from '../view/dress.js';
import {Progress, withProgress} from '../view/progress.js';
import {coverSheet} from './cover.js';
import {inOrder} from './entries.js';
import {Page} from './pages.js';
import {
  drawingOf,
  fillPrint,
  makersFor,
  printFields,
  printedOf,
  readFields,
  saveSvg,
  sheetsInTurn
} from './printing.js';
import {authorFor, keepAuthor} from './publishing.js';
import {MOST_SHEETS} from './sheets.js';

const JUDGE_SECONDS = 5;  // for a picture
const REST = 200;         // milliseconds without a change until the preview is drawn

class Book {
  /** `isOfFiles` tells that its puzzles come from a table of files, not from the library. */
  constructor(isOfFiles) {
    this.isOfFiles = isOfFiles;
    this.pages = [];
    this.unread = 0;          // files that no puzzle is read from
    this.ticked = new Set();  // pages that are in, in the order in which they came in
    /** @type {any} */
    this.work = null;  // what can be stopped
    this.timer = 0;
    this.at = 0;  // which sheet is previewed
    this.make();
  }

  make() {
    const {fields, rows} = printFields({doc: {about: {}}, name: '', grade: null}, '');
    const text = (id, value) => make('input', {type: 'text', id, value, maxlength: '200'});
    fields.order.value = 'grade';
    this.fields = fields;
    this.title = text('book-title', phrase('export.bookTitle'));
    this.author = text('book-author', authorFor({}));
    this.cover = make('input', {type: 'checkbox', id: 'book-cover', checked: true});
    this.list = make('div', {class: 'pages', id: 'book-list', role: 'group'});
    this.list.addEventListener('change', () => this.changed());
    this.status = make('p', {role: 'status', id: 'book-status'});
    this.notes = make('p', {class: 'wrong', role: 'status', id: 'book-notes'});
    const choices = make(
        'div',
        {class: 'book-choices', onchange: () => this.later(), oninput: () => this.later()},
        fieldOf(phrase('export.title'), this.title),
        fieldOf(phrase('export.author'), this.author),
        ...rows.slice(1),  // but the title of a single sheet
        make('label', {}, this.cover, phrase('export.cover'))
    );
    const right =
        make('div', {class: 'rows'}, this.sources(), this.list, this.status, choices, this.notes);
    this.element = make('div', {class: 'publishing book'}, this.previewed(), right);
  }

  // The buttons above the list.
  sources() {
    this.stop = buttonOf('book-stop', phrase('view.stop'), () => this.end());
    this.repair = buttonOf('book-repair', phrase('import.repairAll'), () => this.repairAll());
    const empty = buttonOf('book-empty', phrase('export.emptyList'), () => this.empty());
    return make(
        'div',
        {class: 'ground'},
        buttonOf('book-files', phrase('export.addFiles'), () => this.choose(false)),
        buttonOf('book-folder', phrase('export.addFolder'), () => this.choose(true)),
        this.repair,
        this.stop,
        empty
    );
  }

  // A sheet, and what turns to another one.
  previewed() {
    this.preview = make('figure', {class: 'preview', 'aria-hidden': 'true'});
    this.sheet = make('output', {class: 'faint', id: 'book-sheet'});
    const turn = (id, name, icon, way) =>
        buttonOf(id, iconOf(icon), () => this.turn(way), {title: name, 'aria-label': name});
    return make(
        'div',
        {},
        this.preview,
        make(
            'div',
            {class: 'ground'},
            turn('book-before', phrase('export.sheetBefore'), 'earlier', -1),
            this.sheet,
            turn('book-after', phrase('export.sheetAfter'), 'later', 1)
        )
    );
  }

  // ---- what is in it

  /**
   * Adds puzzles, each `{name, doc}`, and has the engine judge them; what is no puzzle, `{name,
   * fault}`, is listed with the reason. A picture of the library, which has an `id`, takes the
   * place of what it was before.
   */
  add(all) {
    const puzzles = all.filter((one) => one.doc && !this.has(one));
    const changed = new Set(puzzles.map(({id}) => id).filter(Boolean));
    for (const page of this.pages.filter(({id}) => changed.has(id))) this.drop(page);
    const pages = puzzles.map(({name, doc, id = null}) => new Page(name, doc, id));
    const unread = all.filter(({doc}) => !doc)
                       .map(
                           ({name, fault}) => make(
                               'p',
                               {class: 'unread wrong', 'data-name': name},
                               make('b', {}, name),
                               ` ${fault}`
                           )
                       );
    this.pages.push(...pages);
    this.unread += unread.length;
    this.list.append(...pages.map(({label}) => label), ...unread);
    this.list.setAttribute('aria-label', phrase('import.puzzles', {puzzles: this.pages.length}));
    return this.judgeAll();
  }

  has({name, doc}) {
    return this.pages.some((page) => page.name === name && sameDoc(page.source, doc));
  }

  drop(page) {
    page.label.remove();
    this.ticked.delete(page);
    this.pages.splice(this.pages.indexOf(page), 1);
  }

  empty() {
    this.pages = [];
    this.unread = 0;
    this.ticked.clear();
    this.list.replaceChildren();
    this.end();
  }

  // Lets the user choose files, or all of a folder.
  choose(isFolder) {
    const input = make('input', {
      type: 'file',
      multiple: true,
      accept: isFolder ? null : TAKEN_KINDS,
      webkitdirectory: isFolder
    });
    input.addEventListener('change', () => this.take([...input.files]));
    input.click();
  }

  async take(files) {
    const folders = new Map();
    for (const file of files.filter(({name}) => !name.startsWith('.'))) {
      const folder = (file.webkitRelativePath ?? '').slice(0, -file.name.length);
      folders.set(folder, [...(folders.get(folder) ?? []), file]);
    }
    const units = [...folders.values()].flatMap((all) => grouped(all));
    const progress = new Progress(phrase('import.files', {files: units.length}));
    const puzzles = [];
    for await (const {name, doc, fault} of puzzlesIn(units, progress, imageDocs))
      puzzles.push({name, doc, fault: fault && faultText(fault)});
    progress.end();
    await this.add(puzzles);
  }

  // Takes over which boxes are ticked.
  changed() {
    for (const page of this.pages)
      if (page.isIn)
        this.ticked.add(page);
      else
        this.ticked.delete(page);
    this.later();
  }

  // ---- what takes some time

  // Does work that the button stops; what was at work before is stopped.
  async doing(pages, text, work) {
    this.end();
    const judge = new Judge({seconds: JUDGE_SECONDS});
    const own = {isStopped: false, end: () => judge.end()};
    this.work = own;
    this.showWork();
    try {
      for (const [at, page] of pages.entries()) {
        if (own.isStopped) return;
        this.status.textContent = text(at);
        await work(page, judge, own);
        if (!own.isStopped) this.changed();
      }
    } catch { /* it was stopped */
    }
    judge.end();
    if (this.work === own) this.end();
  }

  judgeAll() {
    const count = this.pages.length;
    const pages = this.pages.filter((page) => !page.said);
    const text = (at) => phrase('export.judgedOf', {at: count - pages.length + at, count});
    return this.doing(pages, text, (page, judge) => page.judge(judge));
  }

  // Repairs what is ambiguous, one picture after the other.
  async repairAll() {
    const pages = this.pages.filter((page) => page.isAmbiguous);
    const mender = new Mender();
    const text = (at) => phrase('import.repairsTried', {at, count: pages.length});
    await this.doing(pages, text, (page, judge, own) => {
      own.end = () => {
        mender.end();
        judge.end();
      };
      return page.mend(mender, judge);
    });
    mender.end();
  }

  /** Stops what is at work. */
  end() {
    if (this.work) {
      this.work.isStopped = true;
      this.work.end();
    }
    this.work = null;
    this.showWork();
    this.later();
  }

  showWork() {
    this.stop.disabled = !this.work;
    this.repair.disabled = Boolean(this.work) || !this.pages.some((page) => page.isAmbiguous);
  }

  // ---- the sheets

  get options() {
    return readFields(this.fields);
  }

  get texts() {
    return {title: this.title.value.trim(), author: this.author.value.trim()};
  }

  /** The puzzles in their order. */
  get puzzles() {
    return inOrder([...this.ticked].map(({puzzle}) => puzzle), this.options.order);
  }

  // How many sheets there are, by the puzzles alone.
  get count() {
    return makersFor(this.foreseen(), this.options).length + Number(this.cover.checked);
  }

  foreseen() {
    return this.puzzles.map((one) => ({...one, clues: runsOf(one.doc)}));
  }

  /** Why the book can not be made as it is; '' where it can. */
  wrong() {
    const {puzzles, options} = this;
    if (!puzzles.length) return phrase('export.chooseForBook');
    const near = puzzles.find(({doc}) => options.show === 'colours' && nearText(doc));
    if (near)
      return phrase('export.printLettersSigns', {name: near.name, near: nearText(near.doc)});
    const sheets = this.count;
    return sheets > MOST_SHEETS ? phrase('export.mostSheets', {sheets, most: MOST_SHEETS}) : '';
  }

  // How many pictures are not in it, in words; '' where all are.
  leftOut() {
    const left = this.pages.length - this.ticked.size;
    return left ? phrase('export.bookLeavesOut', {left}) : '';
  }

  later() {
    clearTimeout(this.timer);
    this.timer = setTimeout(() => this.draw(), REST);
  }

  turn(way) {
    this.at += way;
    this.draw();
  }

  draw() {
    const [puzzles, options] = [this.foreseen(), this.options];
    const makers = puzzles.length ? makersFor(puzzles, options) : [];
    if (puzzles.length && this.cover.checked)
      makers.unshift(() => coverSheet(puzzles, this.texts, options));
    this.at = clamp(this.at, 0, Math.max(0, makers.length - 1));
    this.preview.replaceChildren(...(makers.length ? [drawingOf(makers[this.at]().svg)] : []));
    this.sheet.value =
        makers.length ? phrase('import.ofAll', {count: this.at + 1, all: makers.length}) : '';
    this.notes.textContent = puzzles.length ? this.wrong() : '';
    if (!this.work)
      this.status.textContent = [
        phrase(
            'export.bookHolds',
            {puzzles: puzzles.length, sheets: makers.length, out: this.leftOut()}
        ),
        this.unread ? `${phrase('import.filesNotRead', {files: this.unread})}.` : ''
      ].join(' ').trim();
  }

  /** Prints the book, or gives it to the user as files. */
  async finish(way) {
    const [{puzzles, options, texts}, hasCover] = [this, this.cover.checked];
    keepAuthor(texts.author);
    const name = cleanName(texts.title || phrase('export.bookTitle'));
    if (way === 'xml')
      return saveArchive(
          puzzles,
          {file: `${name}.zip`, text: phrase('export.bookSaved', {puzzles: puzzles.length, name})}
      );
    const taken = way === 'print' ? printedOf : (sheet) => sheet;
    const sheets = await withProgress(phrase('export.makeBook'), async (progress) => {
      const opened = await withClues(puzzles, undefined, progress);
      return opened && sheetsInTurn(inOrder(opened, options.order), options, progress, taken);
    });
    if (!sheets) return undefined;
    if (hasCover) sheets.unshift(taken(coverSheet(puzzles, texts, options)));
    if (way === 'svg') return saveSvg(name, sheets, true);
    fillPrint(sheets);
    return globalThis.print();
  }
}

/** @type {Book | null} */
let made = null;  // the book as it was left, until its list is emptied

// Opens the dialog on the book as it was left, with puzzles that are added; without any it begins
// with the library.
const openBook = (puzzles = null) => keep.tried(async () => {
  if (!made?.pages.length || (puzzles && !made.isOfFiles)) made = new Book(puzzles !== null);
  const book = made;
  const test = () => book.wrong();
  const done = openDialog({
    title: phrase('export.makeBook'),
    wide: true,
    content: book.element,
    buttons: [
      {name: phrase('import.saveAllZip'), value: 'xml', test},
      {name: phrase('export.saveSvgs'), value: 'svg', test},
      {name: opening(phrase('export.print')), value: 'print', main: true, test}
    ]
  });
  if (puzzles || !book.isOfFiles) book.add(puzzles ?? (await allRecords()).filter(Boolean));
  const way = await done;
  book.end();
  clearTimeout(book.timer);
  say('');
  if (way) await book.finish(way);
});

/** Adds books to the menu File; the table of several files makes one, too. */
export function startBooks() {
  addAction({
    id: 'book',
    name: opening(phrase('export.makeBook')),
    place: 'file',
    group: 'export',
    needs: false,
    run: () => openBook()
  });
  on('book', openBook);
}
