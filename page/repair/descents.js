// Ways down to the goal, however many cells it takes: a dive by what the engine answers, and a
// climb by line logic alone. Needless cells are taken back at the end.

import {countLiving} from './search.js';

const LATEST = 96;        // witnesses of the pool by which a dive sorts
const OPEN_FOR_ONE = 70;  // open cells for each move that a climb makes at once
const MOST_NEAR = 100;    // moves that a climb tries at a step, about
const LOOSE = 0.5;        // how much the fillings of clues count beside open cells, in a climb
const UNDECIDED = 1.5;    // by how much the open cells of a candidate count that was not decided
const PATIENCE = 8;       // steps of a climb that may bring nothing
const OVER = 3;           // so many moves more than the best repair has are worth a try

/**
 * Goes move by move, each time to the candidate with fewest open cells, until the goal is met.
 * `top` candidates are judged at each step, `noise` is a share by which `draw` disturbs their
 * scores.
 */
export async function dive(search, {top = 20, steps, noise = 0, draw}) {
  let chosen = [];
  search.candidate.become(chosen);
  let finding = await search.evaluate();
  const seen = new Set();
  for (let step = 0; step < steps && step < search.size + OVER; step++) {
    search.pool.add(finding.witnesses);
    let next = null;
    for (const move of rankedMoves(search, finding, seen).slice(0, top)) {
      search.candidate.become([...chosen, move]);
      seen.add(search.candidate.key);
      const its = await search.evaluate();
      if (its.isGoal) {
        search.record();
        return search.shrink([...search.candidate.moves]);
      }
      if (its.isUndecided)
        its.witnesses = finding.witnesses.filter((witness) => witness.lives(search.candidate));
      else
        search.pool.add(its.witnesses);
      const score =
          its.open * (its.isUndecided ? UNDECIDED : 1) * (1 + noise * draw()) + 0.01 * move.pain;
      if (!next || score < next.score) next = {score, move, finding: its};
    }
    if (!next) return null;
    chosen = [...chosen, next.move];
    finding = next.finding;
    search.candidate.become(chosen);
  }
  return null;
}

// The moves at a candidate's witnesses, those first that leave fewest of them, and fewest of the
// latest of all, alive.
function rankedMoves({candidate, board, pool}, finding, seen) {
  const isTouched = new Uint8Array(board.lines);
  for (const {inLine} of finding.witnesses)
    for (const line of inLine.keys()) isTouched[line] = 1;
  if (finding.witnesses.length === 0)
    for (const index of finding.openCells)
      for (const line of board.linesOf(index)) isTouched[line] = 1;
  const latest = pool.latest(LATEST);
  const ranked = [];
  for (const move of board.moves) {
    if (candidate.has(move) || !move.lines.some((line) => isTouched[line])) continue;
    candidate.make(move);
    if (!seen.has(candidate.key) && candidate.isNeatAfter(move)) {
      ranked.push([
        countLiving(finding.witnesses, candidate) * 1000 + countLiving(latest, candidate) * 4 +
            move.pain,
        move
      ]);
    }
    candidate.takeBack(move);
  }
  return ranked.sort(([one], [other]) => one - other).map(([, move]) => move);
}

/**
 * Goes move by move among those near open cells, each time to the `width` candidates that line
 * logic leaves fewest open cells of, until the goal is met. Only the candidates gone to are judged.
 */
export async function climb(search, {width = 1, steps, draw}) {
  let front = [{moves: [], openCells: openCellsOf(search, [])}];
  const seen = new Set();
  let [least, waited] = [Infinity, 0];
  for (let step = 0;
       step < steps && waited < PATIENCE && step < search.size + OVER && front.length > 0;
       step++) {
    const next = front.flatMap(
                          (one) => further(search, one, seen, draw)
    ).sort((one, other) => one.score - other.score);
    front = width === 1 ? together(search, front[0], next) : next.slice(0, width);
    for (const {moves} of front) {
      search.candidate.become(moves);
      const finding = await search.evaluate();
      if (finding.isGoal) {
        search.record();
        return search.shrink(moves);
      }
      search.pool.add(finding.witnesses);
    }
    const open = front.length > 0 ? front[0].openCells.length : Infinity;
    waited = open < least ? 0 : waited + 1;
    least = Math.min(least, open);
  }
  return null;
}

// Of candidates with one move more each: where many cells are open, the best of these moves at
// once, none at another's lines.
function together(search, {moves, openCells}, next) {
  if (next.length === 0) return [];
  search.candidate.become(moves);
  const bar = openCells.length + LOOSE * search.candidate.looseness();
  const most = 1 + Math.floor(openCells.length / OPEN_FOR_ONE);
  const taken = [];
  for (const {moves: its, score} of next) {
    const move = its.at(-1);
    if (taken.length >= most || score >= bar) break;
    if (!taken.some(({lines}) => lines.some((line) => move.lines.includes(line)))) taken.push(move);
  }
  if (taken.length < 2) return [next[0]];
  const all = [...moves, ...taken];
  return [{moves: all, openCells: openCellsOf(search, all)}];
}

// A candidate with one neat move more, for moves near its open cells: some of them, where they are
// many.
function further(search, {moves, openCells}, seen, draw) {
  const {candidate, board} = search;
  const near = nearMoves(board, openCells);
  const share = MOST_NEAR / near.length;
  const found = [];
  for (const move of near) {
    if (draw() > share || moves.some((one) => overlap(one, move))) continue;
    search.limit.step();
    candidate.become([...moves, move]);
    if (seen.has(candidate.key) || !candidate.isNeatAfter(move)) continue;
    seen.add(candidate.key);
    const cells = openCellsOf(search, candidate.moves);
    found.push({
      moves: [...moves, move],
      openCells: cells,
      score: cells.length + LOOSE * candidate.looseness() + 0.01 * move.pain
    });
  }
  return found;
}

const overlap = (one, other) =>
    one.codes.some((code) => other.codes.some((its) => its >> 4 === code >> 4));

function openCellsOf(search, moves) {
  search.candidate.become(moves);
  return search.judge.settle(search.candidate).openCells();
}

// The moves at open cells or beside them.
function nearMoves(board, openCells) {
  const isNear = new Uint8Array(board.cells.length);
  for (const index of openCells) {
    isNear[index] = 1;
    for (const other of board.beside(index)) isNear[other] = 1;
  }
  return board.moves.filter((move) => move.codes.some((code) => isNear[code >> 4]));
}
