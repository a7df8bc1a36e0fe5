// What is shown of a report, and the opening of a document.

import {docOf, pageOf, sharedRows} from '../document/document.js';
import {HISTORY} from '../document/limits.js';
import {answersTo} from './answers.js';
import {EngineFault} from './client.js';

export const clueText = (blocks) =>
    blocks.map((block) => block.length + block.letter).join(' ') || '0';

// The numbers of the lines whose clue is another one; where there are more or fewer lines, those
// between the lines at both ends that are as before.
function changedLines(before, after) {
  const isSame = (one, other) => one === other || clueText(one) === clueText(other);
  if (before.length === after.length)
    return new Set([...after.keys()].filter((at) => !isSame(before[at], after[at])));
  const [old, now] = [before.map(clueText), after.map(clueText)];
  const most = Math.min(old.length, now.length);
  let front = 0;
  while (front < most && old[front] === now[front]) front++;
  let back = 0;
  while (back < most - front && old[old.length - 1 - back] === now[now.length - 1 - back]) back++;
  return new Set([...now.keys()].filter((at) => at >= front && at < now.length - back));
}

// A text of its own: a row that was cut out of a report would keep all of the report in memory.
const ownText = (text) => JSON.parse(`"${text}"`);

/**
 * What is shown: the last report, the verdict, which clues changed since `before`, and what the
 * page alone keeps.
 */
export function stateOf(report, verdict, before = null, page = pageOf(before ?? {})) {
  const changed = before ? {
    rows: changedLines(before.clues.rows, report.clues.rows),
    columns: changedLines(before.clues.columns, report.clues.columns)
  } :
                           {rows: new Set(), columns: new Set()};
  const givens = new Set(report.givens.map(([row, col]) => (row - 1) * report.columns + col - 1));
  const picture =
      report.picture.map((row, at) => (row === before?.picture[at] ? row : ownText(row)));
  const {text, ...shown} = report;
  return {
    ...shown,
    ...sharedRows(before, docOf({...report, ...page, picture, givens})),
    changed,
    verdict
  };
}

/** Opens a base in an engine; gives what is shown of it. */
export async function openedIn(engine, base, page) {
  await engine.open(base.text, {history: HISTORY, background: base.background});
  const all = [...(base.lines ?? []), 'allow 0', 'report', 'verdict'];
  const answers = answersTo(all, await engine.say(all), null);
  const [report, verdict] = answers.slice(-2);
  if (report.kind !== 'report' || verdict.kind !== 'verdict')
    throw new EngineFault({kind: 'memory', text: report.name ?? verdict.name});
  return stateOf(report, verdict, null, page);
}
