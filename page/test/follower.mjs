// Who follows hints alone, for tests and measurements in node: what a hint settles is marked, or of
// that the colours alone, until each coloured cell is marked or no hint goes on.
import assert from 'node:assert/strict';
import './limits.mjs';
import {answersTo} from '../engine/answers.js';
import {isBackground, knownBy, nextStep} from '../play/hinting.js';

/** A puzzle in an engine, by its text: its `state`, and `ask`, which answers lines on it anew. */
export function puzzleOf(engine, text) {
  const said = (lines, size) => {
    const bench = engine.open(text);
    const answers = answersTo(lines, bench.say(lines.map((line) => `${line}\n`).join('')), size);
    bench.close();
    return answers;
  };
  const [, report] = said(['allow 0', 'report'], null);
  const {rows, columns} = report;
  return {state: {...report, givens: new Set()}, ask: (lines) => said(lines, {rows, columns})};
}

/** Follows hints to the end: `{ hints, left }`, their number, and the cells not marked right. */
export async function followed({state, ask}, marksBackground) {
  const picture = state.picture.join('');
  const marks = [...picture].map(() => '?');
  const hinted = new Set();
  const left = () => [...marks.keys()].filter(
      (index) => picture[index] !== '.' && marks[index] !== picture[index]
  );
  let hints = 0;
  for (; left().length && hints < 4 * picture.length; hints++) {
    const step = await nextStep(state, knownBy(state, marks, hinted), ask);
    if (!step) break;
    for (const {index, letter} of step.falls) {
      assert.equal(letter, picture[index], 'a hint tells what the picture has');
      if (marksBackground || letter !== '.') marks[index] = letter;
      if (isBackground(step)) hinted.add(index);
    }
  }
  return {hints, left: left()};
}
