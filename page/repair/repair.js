// Repairs of a picture that is ambiguous, or that needs a guess: few cells to repaint until it is
// unique, or solved by line logic.
//
//     await repair({ board, goal: 'unique', say, seconds: 10 }, { found: (proposal) => ..., nearer:
//     (near) => ..., placed: (places) => ... })
//
// `say` puts lines to a proved session that shows the board's picture, and gives its text or a
// promise of it. Every proposal was judged by the session. `seconds` are of work, as work.js counts
// it. `give` looks for cells to give, `mix` for some of both, `aim` for a grade, and `delay` for
// what is known later.

import {chances} from '../base/chance.js';
import {Aiming, wordGoal} from './aiming.js';
import {Asker} from './asker.js';
import {climb, dive} from './descents.js';
import {Giving, givensForLines} from './givens.js';
import {Judge} from './judge.js';
import {Later} from './later.js';
import {Nearest, mixAll} from './mixing.js';
import {elsewhere, placesOf} from './places.js';
import {Search} from './search.js';
import {Allowance, SpentError} from './work.js';

const MOST_ONES = 24;     // repairs of one cell that are listed
const MOST_TWOS = 24;     // repairs of two
const STEPS = 40;         // of a dive
const ROUNDS = 12;        // of random dives
const DUSTY = 120;        // open cells from which on a picture is loose
const MOST_NEAR = 8;      // cells of what is told as nearer
const MOST_MIXED = 9;     // changes that a mixture stays below
const FOR_PLACES = 0.15;  // of the work, for repairs of one place each
const PLACE = 0.15;       // seconds of work for one place
const MOST_TOGETHER = 4;  // repairs of all places that are put together of theirs

// A descent: by the engine's second pictures, or where many cells are open by line logic alone.
async function descend(search, isDusty, options) {
  await (isDusty ? climb : dive)(search, {steps: STEPS, ...options});
  await search.improve(0.03);
}

async function forOneSolution(search, limit) {
  const draw = chances(11);
  await search.all(1, Infinity, MOST_ONES);
  if (search.isDone) return;
  await search.all(2, 0.45, MOST_TWOS);
  if (search.isDone) return;
  const isDusty = search.openAtFirst > DUSTY;
  await descend(search, isDusty, {draw});
  if (search.isDone) return;
  if (search.proved < 2) await search.all(2, 1, MOST_TWOS);
  if (search.isDone) return;
  await search.all(3, 0.3);
  if (search.isDone) return;
  await descend(search, !isDusty, {draw});
  await search.improve(0.05, 0.05);
  for (let round = 0; round < ROUNDS && !search.isDone && limit.isWithin(0.6); round++) {
    await descend(search, round % 2 === 1, {draw, top: 20 + 5 * (round % 4), noise: 0.1});
    await search.improve(0.03, 0.05);
  }
  if (search.proved < 3) await search.all(3, 0.3 * limit.seconds);
  await search.improve(0.5, 0.5, Infinity);
  for (let count = search.proved + 1; count <= 7 && !search.isDone; count++)
    await search.all(count, Infinity);
}

async function forLines(search, limit) {
  const draw = chances(11);
  await search.all(1, 1, MOST_ONES);
  if (search.isDone) return;
  await search.all(2, 0.3, MOST_TWOS);
  if (search.isDone) return;
  for (let round = 0; round < ROUNDS && !search.isDone && limit.isWithin(0.6); round++) {
    await climb(search, {width: round % 3 === 2 ? 3 : 1, steps: STEPS, draw});
    await search.improve(0.05, 0.05);
  }
  if (search.proved < 2) await search.all(2, 1, MOST_TWOS);
  await search.improve(0.3, 0.3, Infinity);
  for (let count = search.proved + 1; count <= 4 && !search.isDone; count++)
    await search.all(count, Infinity, 4);
}

/**
 * Some changes as they are shown, by their codes. `cells` are { index, colour }, `pain` how much
 * they are seen, whichever moves they are made of, `open` the cells that line logic leaves.
 */
function proposalOf(board, codes, goal, {open}) {
  const cells = codes.map((code) => ({index: code >> 4, colour: code & 15}));
  return {
    goal,
    cells,
    pain: cells.reduce((sum, {index, colour}) => sum + board.pain(index, colour), 0),
    open,
  };
}

// Where a picture has several places to mend, looks for repairs of each by itself; those of all
// together are repairs of the whole.
async function inPlaces(search, limit, goal, told) {
  const {board, judge: {asker}} = search;
  const places = placesOf(board, () => limit.isWithin(FOR_PLACES / 3));
  told?.(places);
  if (places.length < 2 || board.mirror) return;
  const repaints = places.map(() => []);
  const others = elsewhere(places);
  for (let at = 0; at < places.length && limit.isWithin(FOR_PLACES); at++) {
    const found = (candidate, finding) => {
      if (!candidate.codes.length) return;
      repaints[at].push([...candidate.moves]);
      told?.(places, {...proposalOf(board, candidate.codes, goal, finding), place: at});
    };
    const one = new Search(
        board.holding(others[at]),
        new Judge(asker, goal, new Set(others[at])),
        limit,
        {found, tried() {}}
    );
    if (!(await one.all(1, PLACE / 2, MOST_ONES))) await one.all(2, PLACE, MOST_TWOS);
  }
  for (const moves of togethers(repaints)) {
    search.candidate.become(moves);
    if (search.candidate.isNeat() && (await search.evaluate()).isGoal) search.record();
  }
}

// The smallest repaint of each place together, then the next ones of that size.
function togethers(repaints) {
  const smallest = repaints.map(
      (list) => list.filter((one) => one.length === Math.min(...list.map((moves) => moves.length)))
  );
  const turns = Math.min(MOST_TOGETHER, ...smallest.map((list) => list.length || 1));
  return Array.from(
                  {length: turns}, (_, turn) => smallest.flatMap((list) => list[turn] ?? [])
  ).filter((moves) => moves.length > 0);
}

// Runs a search until it is through or its allowance is spent; answers whether it came through. The
// session is then as before.
async function bounded(asker, work) {
  const isThrough = await work().then(() => true, (error) => {
    if (error instanceof SpentError) return false;
    throw error;
  });
  await asker.restore();
  return isThrough;
}

/**
 * Looks for repairs until the work is done or nothing smaller is left. Answers `{ best, proved,
 * isThrough, near }`: how many changes the smallest has (or null), up to how many were tried in
 * vain, and what `mix` may begin with. `placed` hears the places where line solving stalls, and
 * then what mends one of them: a proposal with the number of its `place`.
 */
export async function repair(
    {board, goal, say, seconds}, {found = null, nearer = null, placed = null} = {}
) {
  const limit = new Allowance(board.work, seconds);
  const asker = new Asker(board, say);
  const near = new Nearest();
  let nearest = Infinity;
  const tried = (finding, candidate) => {
    const far = goal === 'lines' ? finding.open : finding.differing;
    if (candidate.codes.length === 0) nearest = Math.min(nearest, far);
    if (candidate.codes.length === 0 || candidate.codes.length > MOST_NEAR || !candidate.isNeat())
      return;
    const one = {
      ...proposalOf(board, candidate.codes, goal, finding),
      differing: finding.differing
    };
    near.note(one, far);
    if (far >= nearest) return;
    nearest = far;
    nearer?.(one);
  };
  const search = new Search(board, new Judge(asker, goal), limit, {
    found: ({codes}, finding) => found?.(proposalOf(board, codes, goal, finding)),
    tried
  });
  const isThrough = await bounded(asker, async () => {
    await inPlaces(search, limit, goal, placed);
    await (goal === 'lines' ? forLines : forOneSolution)(search, limit);
  });
  return {best: search.best ? search.size : null, proved: search.proved, isThrough, near: near.all};
}

/**
 * Looks for few changes that repaint some cells and give others, beginning with `near` as `repair`
 * answers it: fewer than `bound` together, and fewer each time.
 */
export async function mix({board, goal, near, bound, say, seconds}, {found = null} = {}) {
  const limit = new Allowance(board.work, seconds);
  const asker = new Asker(board, say);
  await bounded(
      asker,
      () => mixAll(
          {board, goal, beginnings: near, bound: Math.min(bound, MOST_MIXED), asker, limit},
          (one) => found?.(one)
      )
  );
}

/**
 * Looks for few cells to be given. Answers `{ given, isLeast }`: the fewest found or null, and
 * whether fewer cannot do.
 */
export async function give({board, goal, say, seconds}, {found = null} = {}) {
  const limit = new Allowance(board.work, seconds);
  const asker = new Asker(board, say);
  let last = {given: null, isLeast: false};
  const hooks = {
    found(one) {
      last = one;
      found?.(one);
    },
  };
  await bounded(
      asker,
      () =>
          (goal === 'lines' ? givensForLines(board, asker, limit, hooks) :
                              new Giving(board, asker, limit, hooks).run())
  );
  return last;
}

// Repaints, as lists of moves, after which line logic solves a board's picture.
async function solvable(board, asker, limit) {
  const repaints = [];
  const search = new Search(board, new Judge(asker, 'lines'), limit, {
    found: ({moves}) => repaints.push([...moves]),
    tried() {}
  });
  await bounded(asker, () => forLines(search, limit));
  return repaints;
}

/**
 * Looks for few cells to repaint, or one to give, until line logic solves the puzzle and `word`
 * says how hard that is. `grade(cells, givens)` answers for the engine: `{ open, word, rounds, wait
 * }`, with a word where no cell is open; and `path()` the places of the cells that fall in the
 * session's picture, in that order. Answers `{ isThere, isThrough }`: whether the picture has
 * the word as it is, and whether the search came through.
 */
export async function aim({board, word, say, seconds, grade, path}, {found = null} = {}) {
  const limit = new Allowance(board.work, seconds);
  const asker = new Asker(board, say);
  const now = await grade(board.cells, board.givens);
  if (now.word === word) return {isThere: true, isThrough: true};
  const told = (one) => found?.(
      one.given ? {goal: word, given: one.given, isLeast: true} :
                  proposalOf(board, one.codes, word, {open: 0})
  );
  const goal = wordGoal(word, grade);
  const aiming = new Aiming({board, goal, limit, found: told});
  const isThrough = await bounded(asker, async () => {
    await aiming.give(path);
    const begun =
        now.open > 0 ? await solvable(board, asker, new Allowance(board.work, seconds / 2)) : [];
    await aiming.repaint(begun);
  });
  return {isThere: false, isThrough};
}

/**
 * Looks for few cells to repaint until half of some places is known later on the path of line
 * logic, which still solves the puzzle. `path(cells)` answers for the engine: `{ looks, open }` of
 * a picture's cells. `begun` hears at which share of the path it is known now, in percent; each
 * proposal has its own. Answers whether the search came through.
 */
export async function delay(
    {board, places, say, seconds, path}, {begun = null, found = null} = {}
) {
  const limit = new Allowance(board.work, seconds);
  const asker = new Asker(board, say);
  const goal = new Later({places, givens: board.givens, path});
  goal.share = (await goal.ask(board.cells)).share;
  begun?.(goal.share);
  const told = (one) =>
      found?.({...proposalOf(board, one.codes, 'later', one.figures), share: one.figures.share});
  const aiming = new Aiming({board, goal, limit, found: told});
  return {isThrough: await bounded(asker, () => aiming.repaint([]))};
}
