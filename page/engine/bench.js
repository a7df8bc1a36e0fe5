// The open document: strokes and questions go to the first worker as lines of a session, one
// text at a time, and what it answers is all that is shown. Documents are kept beside it, so that a
// worker that ended is replaced and nothing is lost.

import {tell} from '../base/events.js';
import {cleanName} from '../base/words.js';
import {baseOf, linesTo, pageAfter, withCells} from '../document/cover.js';
import {docOf, pageOf, sameBenchPart, sameDoc, sameValue} from '../document/document.js';
import {HISTORY} from '../document/limits.js';
import {answersTo} from './answers.js';
import {EngineFault, startEngine} from './client.js';
import {openedIn, stateOf} from './opening.js';

/** How many strokes can be taken back. */
export const MOST_STROKES = 400;
// commands to paint a document back; where it takes more it is opened anew
const MOST_PAINTED = 400;
// what a verdict may take in the first worker: the rest is searched in the second
const FIRST_MS = 40;
const FIRST_SPLITS = 100;

export class Bench {
  constructor(make = startEngine) {
    this.make = make;
    this.engine = null;
    this.state = null;      // what the bench reported last with the page's part of the document, or
                            // null where nothing is open
    this.name = 'picture';  // of the file, without an ending
    this.past = [];  // strokes: {lines, live, before, after}, documents; `live` where the bench's
                     // own history holds it
    this.future = [];
    this.isCut = false;  // strokes before the first that can be taken back were let go
    this.queue = [];
    this.running = false;
    this.term = {};  // another one for each document that is opened
    this.splits = FIRST_SPLITS;
    this.savedDoc = null;   // the document as a file has it
    this.isTitled = false;  // the texts about the puzzle are newer than its last stroke
    this.searched = null;   // the picture whose verdict was searched for here
  }

  /** Whether the document is as a file has it. */
  get isSaved() {
    return this.state === null || (this.savedDoc !== null && sameDoc(this.savedDoc, this.state));
  }

  /** A document is in a file from now on. */
  saved(doc) {
    this.savedDoc = doc;
  }

  // ---- opening

  /**
   * Opens a document in place of the present one: `base` is {text, background, lines}, `page` what
   * the page alone keeps of it. Rejects with an EngineFault or TextFault, and then the present one
   * stays. `strokes` are documents: those before each stroke that can be taken back, the first one
   * first, and those after each that can be made again, the next one first.
   */
  async open(
      base,
      {name = 'picture', page = pageOf({}), strokes = {past: [], future: []}, isSaved = true} = {}
  ) {
    const engine = this.make();
    try {
      const state = await openedIn(engine, base, page);
      this.engine?.end();
      for (const item of this.queue.splice(0)) item.resolve([]);
      const docs = [...strokes.past, docOf(state), ...strokes.future].map(
          (doc) => ({...doc, about: state.about})
      );
      const made =
          docs.slice(1).map((after, at) => ({lines: [], live: false, before: docs[at], after}));
      const [past, future] =
          [made.slice(0, strokes.past.length), made.slice(strokes.past.length).reverse()].map(
              (all) => all.filter(({before, after}) => !sameDoc(before, after))
          );
      Object.assign(this, {
        engine,
        state,
        name: cleanName(name),
        past,
        future,
        isCut: past.length >= MOST_STROKES,
        running: false,
        term: {},
        savedDoc: isSaved ? docOf(state) : null,
        searched: null,
        isTitled: false
      });
    } catch (fault) {
      engine.end();
      throw fault;
    }
    tell('opened', this);
    this.show();
    this.run();
    return this.state;
  }

  // ---- strokes

  // Whether a document is open and no stroke waits: what would change nothing need not be sent
  // then.
  get isIdle() {
    return this.state !== null && !this.queue.length;
  }

  /** The document with the cells of strokes that wait, as these will paint them. */
  seen() {
    const doc = docOf(this.state);
    const cells = this.queue.flatMap(
        (item) => (item.cells && item.columns === doc.columns ? [...item.cells] : [])
    );
    return cells.length ? {...doc, picture: withCells(doc.picture, cells)} : doc;
  }

  /**
   * One stroke, which one undo takes back: commands, or what makes them of the document once it is
   * their turn. `cells` are those that it paints, by places, which are shown until it is answered.
   * Resolves to the answers.
   */
  stroke(lines, cells = null) {
    const make = typeof lines === 'function' ? lines : () => lines;
    if (this.isIdle && !make(docOf(this.state)).length) return Promise.resolve([]);
    return this.put({kind: 'new', make, cells});
  }

  /**
   * Makes the document another one, or what a function makes of it (null: nothing), as one stroke:
   * by commands where they can, else it is opened anew. Of texts about the puzzle alone it is none.
   */
  become(doc, cells = null) {
    const make = typeof doc === 'function' ? doc : () => doc;
    const made = this.isIdle ? make(docOf(this.state)) : null;
    if (this.isIdle && (!made || sameDoc(docOf(made), this.state))) return Promise.resolve([]);
    return this.put({kind: 'become', make, cells});
  }

  undo() {
    return this.isIdle && !this.past.length ?
        Promise.resolve([{kind: 'refused', name: 'UndoEmpty'}]) :
        this.put({kind: 'undo'});
  }

  redo() {
    return this.isIdle && !this.future.length ?
        Promise.resolve([{kind: 'refused', name: 'RedoEmpty'}]) :
        this.put({kind: 'redo'});
  }

  /** Asks something that changes nothing: a line or several; resolves to the answers. */
  ask(lines) {
    return this.put({kind: 'ask', lines: [lines].flat()});
  }

  /** Resolves once all that waits is answered. */
  async rest() {
    while (this.queue.length) await this.queue.at(-1).done.catch(() => {});
  }

  /**
   * Puts a verdict into the state and tells `judged`, unless `state` is no longer at hand: a
   * stroke or another verdict came.
   */
  takeVerdict(state, verdict) {
    if (this.state !== state) return;
    this.state = {...state, verdict};
    tell('judged', this.state);
  }

  put(item) {
    if (!this.state) return Promise.resolve([]);
    item.columns = this.state.columns;
    item.done = new Promise((resolve, reject) => Object.assign(item, {resolve, reject}));
    item.done.catch(() => {});
    this.queue.push(item);
    if (item.kind !== 'ask') tell('stroke', item);
    this.run();
    return item.done;
  }

  // ---- sending

  async run() {
    if (this.running) return;
    this.running = true;
    const {term} = this;
    tell('busy', true);
    while (this.term === term && (this.queue.length || this.isUnsearched())) {
      try {
        await (this.queue.length ? this.next() : this.search());
      } catch (fault) {
        if (this.term === term) await this.recover(fault, term);
      }
    }
    if (this.term !== term) return;  // another document is open
    this.running = false;
    tell('busy', false);
  }

  isUnsearched() {
    return this.state?.verdict.word === 'undecided' && this.searched !== this.state.picture;
  }

  // A verdict with as many splits as are made in a moment; more is searched elsewhere.
  async search() {
    const {state, splits} = this;
    const begin = performance.now();
    const [, verdict] = await this.said([`allow ${splits}`, 'verdict']);
    const spent = performance.now() - begin;
    if (verdict.kind === 'refused') throw new EngineFault({kind: 'memory', text: verdict.name});
    if (spent > FIRST_MS)
      this.splits = Math.max(1, Math.floor((splits * FIRST_MS) / spent));
    else if (verdict.word === 'undecided')
      this.splits = Math.min(FIRST_SPLITS, splits * 2);
    this.searched = state.picture;
    this.takeVerdict(state, verdict);
  }

  async next() {
    const [item] = this.queue;
    const {term} = this;
    const answers = await{
      ask: () => this.said(item.lines),
      new: () => this.sendStroke(item),
      become: () => this.sendBecome(item),
      undo: () => this.sendTurn(item),
      redo: () => this.sendTurn(item)
    }[item.kind]();
    if (this.term !== term) return;
    if (this.queue[0] === item) this.queue.shift();
    if (item.kind !== 'ask') this.show();
    item.resolve(answers);
  }

  async said(lines) {
    return answersTo(lines, await this.engine.say(lines), this.state);
  }

  // Says commands and asks for what is to be shown; nothing is searched.
  async sent(lines) {
    const {term} = this;
    const answers = await this.said([...lines, 'allow 0', 'report', 'verdict']);
    if (this.term !== term)
      throw new EngineFault({kind: 'closed', text: 'another document is open'});
    const [report, verdict] = answers.slice(-2);
    const refused = [report, verdict].find((one) => one.kind === 'refused');
    if (refused) throw new EngineFault({kind: 'memory', text: refused.name});
    return {answers: answers.slice(0, lines.length), report, verdict};
  }

  async sendStroke(item) {
    const before = docOf(this.state);
    return this.sendLines(item.make(before), before, null);
  }

  // Commands as one stroke; `page` is what the page alone keeps after it, where that does not
  // follow from the commands.
  async sendLines(lines, before, page) {
    if (!lines.length) return [];
    const {answers, report, verdict} = await this.sent(lines);
    const done = lines.filter((_, at) => answers[at].kind === 'ok');
    this.state = stateOf(
        report, verdict, this.state, page ?? {...pageOf(before), ...pageAfter(before, done)}
    );
    if (done.length)
      this.keep({lines: done, live: done.length <= HISTORY, before, after: docOf(this.state)});
    return answers;
  }

  async sendBecome(item) {
    const doc = docOf(item.make(docOf(this.state)) ?? this.state);
    if (!sameValue(doc.about, this.state.about)) this.isTitled = true;
    this.state = {...this.state, about: doc.about};  // which no undo takes back
    const before = docOf(this.state);
    if (sameDoc(doc, before)) return [];
    const lines = linesTo(before, doc, MOST_PAINTED);
    if (lines?.length) return this.sendLines(lines, before, pageOf(doc));
    await this.makeDoc(doc);
    this.keep({lines: [], live: lines !== null, before, after: docOf(this.state)});
    return [{kind: 'ok'}];
  }

  keep(stroke) {
    this.isTitled = false;
    this.past.push(stroke);
    this.future = [];
    if (this.past.length > MOST_STROKES) {
      this.past.shift();
      this.isCut = true;
    }
    // The bench's history holds so many commands: older strokes are painted back.
    let count = 0;
    for (let at = this.past.length - 1; at >= 0; at--) {
      count += this.past[at].lines.length;
      if (count > HISTORY) this.past[at].live = false;
    }
  }

  show() {
    tell('shown', this.state);
  }

  async sendTurn(item) {
    const isUndo = item.kind === 'undo';
    const stroke = (isUndo ? this.past : this.future).at(-1);
    if (!stroke) return [{kind: 'refused', name: isUndo ? 'UndoEmpty' : 'RedoEmpty'}];
    const doc = {...(isUndo ? stroke.before : stroke.after), about: this.state.about};
    if (stroke.live && stroke.lines.length) {
      const {report, verdict} = await this.sent(stroke.lines.map(() => item.kind));
      this.state = stateOf(report, verdict, this.state, pageOf(doc));
    }
    if (!sameBenchPart(doc, this.state) || !stroke.live)
      await this.makeDoc(doc);
    else
      this.state = {...this.state, ...pageOf(doc)};
    (isUndo ? this.past : this.future).pop();
    (isUndo ? this.future : this.past).push(stroke);
    return [{kind: 'ok'}];
  }

  // Makes the bench's document this one: by commands where a few do, else by opening it. Its
  // history then begins here.
  async makeDoc(doc) {
    const lines = linesTo(docOf(this.state), doc, MOST_PAINTED);
    if (lines && !lines.length) {
      this.state = {...this.state, ...pageOf(doc), changed: {rows: new Set(), columns: new Set()}};
      return;
    }
    for (const one of [...this.past, ...this.future]) one.live = false;
    if (lines) {
      const {report, verdict} = await this.sent(lines);
      this.state = stateOf(report, verdict, this.state, pageOf(doc));
      if (sameBenchPart(doc, this.state)) return;
    }
    const {term} = this;
    const opened = await openedIn(this.engine, baseOf(doc), pageOf(doc));
    if (this.term !== term)
      throw new EngineFault({kind: 'closed', text: 'another document is open'});
    this.state = opened;
  }

  // ---- a worker that ended

  async recover(fault, term) {
    const [item] = this.queue;
    if (item?.failed) {  // a second time: without it
      this.queue.shift();
      item.reject(fault);
    } else if (item)
      item.failed = true;
    this.engine.end();
    this.engine = this.make();
    try {
      const state = await openedIn(this.engine, baseOf(this.state), pageOf(this.state));
      if (this.term !== term) return;
      for (const one of [...this.past, ...this.future]) one.live = false;
      this.state = state;
      if (!item) this.searched = state.picture;  // it was the search that failed
      tell('recovered', fault);
      this.show();
    } catch (again) {
      if (this.term !== term) return;
      for (const one of this.queue.splice(0)) one.reject(again);
      this.searched = this.state.picture;
      this.show();  // without the strokes that waited
      tell('lost', again);
    }
  }
}

export const bench = new Bench();
