// What a puzzle that is not open yet would be like: its verdict and grade, worked out in a worker
// of its own, of the newest one alone.

import {gradeName, verdictTitle} from '../base/names.js';
import {gradeIn} from '../engine/assessing.js';
import {startEngine} from '../engine/client.js';
import {Judge} from '../engine/judging.js';
import {phrase} from '../texts/phrase.js';

const TEXT = {
  works: phrase('import.lookingAnotherSolution'),
  unique: verdictTitle('unique'),
  ambiguous: verdictTitle('ambiguous'),
  undecided: phrase('import.notDecidedWithinSome'),
  failed: phrase('import.noVerdictEngineFailed')
};
const REST = 120;  // milliseconds without a change
const MOST_SECONDS = 5;

/** What is said of a document, in words. */
export function judgedText({word, open = 0, grade = null}) {
  const more = !open       ? '' :
      word === 'unique'    ? phrase('import.cellsNeedGuessing', {count: open}) :
      word === 'ambiguous' ? phrase('import.cellsOpen', {count: open}) :
                             '';
  return [TEXT[word], more, grade ? gradeName(grade.word) : ''].filter(Boolean).join(', ');
}

/**
 * Judges documents one behind the other: a newer one takes the place of what waits and of what is
 * worked on.
 */
export class Judging {
  report;
  start;
  seconds;
  rest;
  turn;
  timer;
  isBusy;

  constructor(report, {start = startEngine, seconds = MOST_SECONDS, rest = REST} = {}) {
    Object.assign(this, {report, start, seconds, rest, turn: 0, timer: 0, isBusy: false});
    this.judge = new Judge(this);
  }

  /** What was asked for holds no more: another document comes. */
  wait() {
    clearTimeout(this.timer);
    this.turn++;
    this.report({word: 'works'});
  }

  /**
   * Asks for a document's verdict; `report` hears {word, open, grade}, of the newest document
   * alone.
   */
  ask(doc) {
    this.wait();
    this.timer = setTimeout(() => this.work(doc, this.turn), this.rest);
  }

  end() {
    clearTimeout(this.timer);
    this.turn++;
    this.judge.end();
  }

  async work(doc, turn) {
    if (this.isBusy) {  // on an older one
      this.judge.end();
      this.judge = new Judge(this);
    }
    this.isBusy = true;
    const said = await this.judge.judge(doc).catch(() => ({isLate: false}));
    if (turn !== this.turn) return;
    this.isBusy = false;
    this.report(
        said.isLate === false ? {word: 'failed'} :
                                {word: said.verdict, open: said.open, grade: gradeIn(said)}
    );
  }
}
