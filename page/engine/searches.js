// Searches that may take long: one at a time, in a second worker on a copy of the document. One is
// ended by ending that worker, so that a stroke never waits for it.

import {baseOf} from '../document/cover.js';
import {docOf} from '../document/document.js';
import {phrase} from '../texts/phrase.js';
import {answersTo} from './answers.js';
import {assessed} from './assessing.js';

const TICK = 250;  // milliseconds between two looks at the clock
const REST = 200;  // milliseconds without a stroke before a verdict is searched for

// Why a search came to its end before it was through: 'stopped', 'time' or 'stroke'.
class Ended extends Error {
  constructor(why) {
    super(why);
    this.why = why;
  }
}

/**
 * The copy of the document in the second worker, as a job meets it. `found` is its result where
 * time or Stop ends it.
 */
class Copy {
  constructor(searches, run) {
    this.searches = searches;
    this.run = run;
  }

  set found(value) {
    this.run.found = value;
  }

  get found() {
    return this.run.found;
  }

  /** From here on the copy is another picture or has other givens. */
  changes() {
    this.searches.opened = -1;
  }

  /** The answers to lines. */
  async say(...lines) {
    const text = await this.searches.unlessCut(this.run, this.run.engine.say(lines));
    const answers = answersTo(lines, text, this.run.state);
    if (answers.some((answer) => answer.name === 'Memory')) throw new Error('memory ran out');
    return answers;
  }

  /**
   * The verdict. No allowance bounds it, so the bench goes on by its other searches: only the end
   * of the time ends it.
   */
  async verdict() {
    const [, verdict] = await this.say('allow off', 'verdict');
    if (verdict.word === 'undecided')
      throw new Error('a search without a bound came to no verdict');
    return verdict;
  }

  /**
   * A long call of the worker on the copy: `report` hears what it finds. From there on the copy is
   * another picture.
   */
  async work(name, fields, report) {
    this.changes();
    return this.searches.unlessCut(this.run, this.run.engine.call(name, fields, report));
  }

  /** Tells how far the search is. */
  note(text) {
    this.run.note = text;
    this.searches.tick(this.run);
  }
}

export class Searches {
  /**
   * `hooks.start` starts an engine, `hooks.progress` is called with what runs ({ name, elapsed,
   * seconds, note }) each quarter of a second and with null when nothing does, `hooks.judged` with
   * the verdict found of the present document, `hooks.ended` with name and reason where a search
   * came to no end, `hooks.failed` with a fault. `hooks.seconds` is the time chosen.
   */
  constructor(hooks) {
    this.hooks = hooks;
    this.engine = null;
    this.opened = -1;  // the version of the document whose copy the engine holds
    this.version = 0;
    this.state = null;
    this.running = null;
    this.waits = 0;
  }

  /** A stroke begins: what runs is ended. */
  strokeBegun() {
    clearTimeout(this.waits);
    this.end('stroke');
  }

  /** Another document is shown: where its verdict is open, it is searched for. */
  shown(state) {
    this.strokeBegun();
    this.version++;
    this.state = state;
    if (state?.verdict.word === 'undecided') this.waits = setTimeout(() => this.judge(), REST);
  }

  /** The same document is shown with another verdict. */
  judged(state) {
    this.state = state;
    if (state.verdict.word !== 'undecided') clearTimeout(this.waits);
  }

  /** Ends what runs, on the user's word. */
  stop() {
    clearTimeout(this.waits);
    this.end('stopped');
  }

  /** Searches for the verdict of the present picture. */
  async judge(seconds = this.hooks.seconds()) {
    const {version} = this;
    const verdict = await this.job(
        phrase('engine.searchingAnotherPicture'), seconds, (copy) => copy.verdict(), true
    );
    this.tellVerdict(version, verdict);
    return verdict;
  }

  /**
   * A certificate with exactly the picture's givens: its text, or null. What its search finds is
   * told as the verdict too.
   */
  async prove(seconds = this.hooks.seconds()) {
    const {version} = this;
    return this.job(phrase('engine.searchingCertificate'), seconds, async (copy, run) => {
      const [{text}] = await copy.say('write ppm');
      const {colours, columns, givens} = run.state;
      const {certificate} = await this.unlessCut(run, run.engine.call('prove', {
        picture: text,
        background: colours[0].join(','),
        published:
            [...givens].map((index) => [Math.floor(index / columns) + 1, (index % columns) + 1]),
        complete: true
      }));
      this.tellVerdict(
          version, certificate ? {kind: 'verdict', word: 'unique'} : await copy.verdict()
      );
      return certificate;
    }, true);
  }

  /**
   * What the engine says of the present picture, as `assessed` has it, or null. Where line logic
   * solves it and no cell is given, that is a moment of the second worker, which a stroke does not
   * end. Else it is a job without a name.
   */
  async assess(seconds) {
    const {state} = this;
    if (state.open > 0 || state.givens.size > 0)
      return this.job(
          '', seconds, (_copy, run) => this.unlessCut(run, assessed(run.engine, run.state))
      );
    this.engine ??= this.hooks.start();
    return assessed(this.engine, state).catch(() => null);
  }

  tellVerdict(version, verdict) {
    if (verdict && version === this.version) this.hooks.judged(verdict);
  }

  /**
   * Runs a job on a copy of the present picture, within so many seconds. Ended before, it gives
   * what it found so far or null. `judges` says that its end is a verdict. A job without a name is
   * not told: it gives way to all others.
   */
  async job(name, seconds, work, judges = false) {
    clearTimeout(this.waits);
    this.end('another');
    const run = {
      name,
      judges,
      seconds,
      from: performance.now(),
      note: '',
      found: null,
      state: this.state,
      version: this.version
    };
    run.cut = new Promise((_, reject) => {
      run.reject = reject;
    });
    run.cut.catch(() => {});
    run.clock = setInterval(() => this.tick(run), TICK);
    this.running = run;
    this.tick(run);
    try {
      return await work(await this.copied(run), run);
    } catch (fault) {
      this.discard(run);
      if (!(fault instanceof Ended) && name) this.hooks.failed(name, fault);
      return fault.why === 'time' || fault.why === 'stopped' ? run.found : null;
    } finally {
      clearInterval(run.clock);
      if (this.running === run) {
        this.running = null;
        if (run.name) this.hooks.progress(null);
      }
    }
  }

  // The copy of the state of a run, opened anew where the engine holds another one.
  async copied(run) {
    this.engine ??= this.hooks.start();
    run.engine = this.engine;
    const copy = new Copy(this, run);
    if (this.opened === run.version) return copy;
    this.opened = -1;
    const {text, background, lines} = baseOf(docOf(run.state));
    await this.unlessCut(run, run.engine.open(text, {background}));
    const answers = lines.length ? await copy.say(...lines) : [];
    if (answers.some((answer) => answer.kind !== 'ok')) throw new Error('the copy is not the same');
    this.opened = run.version;
    return copy;
  }

  // What a promise gives. Throws if the run is cut short before.
  unlessCut(run, promise) {
    promise.catch(() => {});
    return Promise.race([promise, run.cut]);
  }

  tick(run) {
    if (this.running !== run) return;
    const elapsed = (performance.now() - run.from) / 1000;
    if (elapsed >= run.seconds)
      this.end('time');
    else if (run.name)
      this.hooks.progress({name: run.name, elapsed, seconds: run.seconds, note: run.note});
  }

  // Ends what runs together with its worker.
  end(why) {
    const run = this.running;
    if (!run) return;
    this.running = null;
    clearInterval(run.clock);
    this.discard(run);
    run.reject(new Ended(why));
    if (!run.name) return;
    this.hooks.progress(null);
    this.hooks.ended(run.name, why, run);
  }

  discard(run) {
    if (!run.engine || run.engine !== this.engine) return;
    this.engine.end();
    this.engine = null;
    this.opened = -1;
  }
}
