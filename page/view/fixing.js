// Fix it, Easier, Harder and Later, beside the picture: proposals of cells to repaint, to give, or
// some of both, until the picture needs no guessing or is at least the only solution, has a grade
// that is aimed for, or is later known where it is selected. They are seen side by side, place by
// place; one click takes one, and one undo takes it back.

import {$, buttonOf, choiceOf, make, say} from '../base/elements.js';
import {on, tell} from '../base/events.js';
import {gradeName} from '../base/names.js';
import {capital, number} from '../base/words.js';
import {placeOf, sameBenchPart} from '../document/document.js';
import {LETTERS} from '../document/limits.js';
import {cellsThatDiffer} from '../document/shapes.js';
import {withIcon} from '../draw/icons.js';
import {sheet} from '../draw/sheet.js';
import {bench} from '../engine/bench.js';
import {adviceOf} from '../repair/advice.js';
import {LINE_WORDS} from '../repair/aiming.js';
import {phrase} from '../texts/phrase.js';
import {actions, runAction} from './actions.js';
import {boardOf, keptSymmetry, limitChoices, showLocks} from './locking.js';
import {listProposals, placeText} from './proposals.js';
import {bySize, ideas, keyOf, mirrorOf, seenOf, sizeOf} from './ranking.js';
import {selectedPlaces, setDown} from './select.js';
import {useTool} from './tools.js';
import {searches, secondsChosen, verdictView} from './verdict.js';

const GOALS = [['lines', phrase('view.noGuessing')], ['unique', phrase('view.oneSolution')]];
const GRADES = LINE_WORDS.map((word) => [word, phrase('view.aGrade', {grade: gradeName(word)})]);
const isGrade = (goal) => LINE_WORDS.includes(goal);
const LATER = 'later';  // half of the selection is known later on the path
const isAim = (goal) => isGrade(goal) || goal === LATER;  // of what lines solve
const AS_LATER = [LATER, phrase('view.selectionKnownLater')];
const MOST_SHOWN = 24;
const MOST_OF_ALL = 4;  // proposals for all places together, where each is mended by itself
const MOST_MIXED = 2;
const QUICK = 0.2;     // seconds of work for given cells before repaints are looked for; where that
                       // is too little there is more behind them
const FEW = 8;         // cells: what needs more is too loose
const FALLBACK = 1.5;  // seconds of work for one solution, where no guessing is not to be had
const MIRRORED = 0.7;  // seconds of work for repairs that keep both halves of a picture alike
const MOST_WORK = 120;  // seconds: a search remembers what it has tried
const REST = 400;       // milliseconds between a stroke and the search for what mends it, while
                        // proposals are shown
const NO_PLACES = [];
const MOST_SECONDS = 2;  // for the grade of a picture that is aimed for
const howToSee = () =>
    (matchMedia('(hover: hover)').matches ? phrase('view.pointToSee') : phrase('view.holdToSee'));
const LONGER = phrase('view.longerSearchTimeMay');
const ADVICE = {
  dithered: phrase('view.adviceDithered'),
  thin: phrase('view.pictureTooLooseBolder'),
  sparse: phrase('view.adviceSparse'),
  colours: phrase('view.adviceColours'),
  areas: phrase('view.adviceAreas')
};

// What was found, for which picture (`of`) and goal (`by`), and what was asked for; `only` are the
// places that may change, null where all may; `part` are those that shall be known later, half of
// which is known `now` at that share of the path. It stays while a proposal is tried: an undo shows
// the list again.
const fixing = {
  goal: 'lines',
  by: 'lines',
  of: null,
  found: [],
  kept: new Set(),
  places: NO_PLACES,
  near: null,
  said: '',
  frame: 0,
  shown: null,
  taken: null,
  isWanted: false,
  only: null,
  part: null,
  now: null,
  turn: 0,
  waits: 0
};
const isOfThis = () =>
    fixing.of !== null && bench.state !== null && sameBenchPart(fixing.of, bench.state);

/** Whether there is something to mend. */
export const canFix = () =>
    bench.state !== null && (bench.state.verdict.word !== 'unique' || bench.state.open > 0);

/** Whether the panel has something to do: a grade may be aimed for by any picture. */
export const mayFix = () => canFix() || (bench.state !== null && isAim(fixing.goal));

/** Whether a part of the picture may be known later: lines solve it, and it is not blank. */
export const canDelay = () =>
    bench.state !== null && !canFix() && bench.state.clues.rows.some((blocks) => blocks.length);

const titleOf = (goal) =>
    (goal === LATER ? phrase('view.selectionKnownLater') :
                      phrase('view.aGrade', {grade: gradeName(goal)}));
const areSame = (one, other) => String([...one ?? []]) === String([...other ?? []]);

/**
 * Opens the panel, and looks for what mends the picture, or for what meets a goal, a grade or
 * 'later'; in some places only, where these are named.
 */
export function openFix(goal = null, only = null) {
  const isSamePart =
      areSame(only, fixing.only) && (goal !== LATER || areSame(selectedPlaces(), fixing.part));
  fixing.only = only;
  if (goal)
    fixing.goal = goal;
  else if (bench.state.verdict.word === 'unique' || isAim(fixing.goal))
    fixing.goal = 'lines';
  if (!mayFix()) return;
  fixing.isWanted = true;
  $('fix').hidden = false;
  $('fix').replaceChildren(
      make(
          'div',
          {id: 'fix-head'},
          make('h2', {}, goal ? capital(titleOf(goal)) : phrase('view.fixTitle')),
          withIcon(buttonOf('fix-close', '', closeFix), 'close', phrase('view.close'))
      ),
      make('div', {id: 'fix-list', role: 'group', 'aria-label': phrase('view.proposals')}),
      make('p', {id: 'fix-said', role: 'status'}),
      make(
          'div',
          {class: 'group', id: 'fix-ways'},
          choiceOf(
              {
                id: 'fix-goal',
                'aria-label': phrase('view.until'),
                title: phrase('view.until'),
                onchange: (event) => aimFor(event.target.value)
              },
              [...(canFix() ? GOALS : []), ...GRADES, ...(canDelay() ? [AS_LATER] : [])],
              fixing.goal
          ),
          make('span', {id: 'fix-symmetry', class: 'faint'}),
          buttonOf('fix-paint', phrase('view.findCellsRepaint'), findRepairs),
          buttonOf('fix-give', phrase('view.giveCells'), giveCells),
          buttonOf('fix-adjust', phrase('import.adjustImage'), () => runAction('adjust'))
      ),
      make(
          'details',
          {id: 'fix-more'},
          make('summary', {}, phrase('view.whatMayRepainted')),
          ...limitChoices(fixSays, showSymmetry)
      ),
  );
  $('fix-give').hidden = isAim(fixing.goal);
  showLocks();
  showSymmetry();
  showAdjust(false);
  showFound();
  tell('fixing', true);
  $('fix-close').focus({preventScroll: true});
  if (isOfThis() && isSamePart && fixing.by === fixing.goal && fixing.found.length)
    fixSays(fixing.said);
  else
    findRepairs();
}

/** Looks for what makes the selection known later; without one, the tool that selects is chosen. */
export function openLater() {
  if (selectedPlaces()) return openFix(LATER);
  useTool('select');
  return void say(phrase('view.selectForLater'));
}

// Says next to the goal which symmetry proposals keep, or that they keep to some cells.
function showSymmetry() {
  if ($('fix-symmetry') && bench.state)
    $('fix-symmetry').textContent =
        fixing.only ? phrase('view.onlyCellsOfStep') : keptSymmetry(bench.state);
}

// Offers the image that the picture was made of, where few repaints make no puzzle.
function showAdjust(isAdvised) {
  if ($('fix-adjust')) $('fix-adjust').hidden = !isAdvised || !actions.get('adjust').can();
}

function aimFor(goal) {
  fixing.goal = goal;
  $('fix-give').hidden = isAim(goal);  // of a grade, one given cell is among what is found
  findRepairs();
}

// ---- searching

/** Hides the panel; it comes again with the picture that its list is for. */
export function hideFix() {
  if ($('fix').hidden) return;
  $('fix').hidden = true;
  preview(null);
  showPlaces();
  tell('fixing', false);
}

/** Whether proposals are looked for or shown. */
export const isFixing = () => !$('fix').hidden;

function closeFix() {
  clearTimeout(fixing.waits);
  fixing.isWanted = false;
  hideFix();
}

const fixSays = (text) => {
  if ($('fix-said')) $('fix-said').textContent = text;
};

// Seconds of work, as many as the user lets a search take.
const workChosen = () => Math.min(secondsChosen(), MOST_WORK);

// Runs a call of the worker on the open picture; null where another picture is shown by then. It
// ends when its work is done, however long a busy machine takes for that.
async function searched(name, work) {
  setDown();
  await bench.rest();
  const {state} = bench;
  fixSays('');
  verdictView.ended = null;
  const {version} = searches;
  const done = await searches.job(name, Infinity, (copy) => work(copy, state));
  return version === searches.version && bench.state ? {done, state} : null;
}

// Gives the fewest cells that suffice, as one stroke.
async function giveCells() {
  clearTimeout(fixing.waits);
  const {goal} = Object.assign(fixing, {turn: fixing.turn + 1});
  const run = await searched(
      phrase('view.lookingCellsGive'),
      (copy, state) => copy.work(
          'give',
          {board: boardOf(state), goal, seconds: workChosen()},
          ({found}) => {
            copy.found = found;
            copy.note(phrase('view.cellsSuffice', {cells: found.given.length}));
          }
      )
  );
  if (!run) return;
  if (!run.done?.given)
    return fixSays(
        verdictView.ended === 'stopped' ? phrase('view.stoppedBeforeThereCells') :
                                          phrase('view.noCellsFoundTime', {longer: LONGER})
    );
  if (!run.done.given.length) return fixSays(phrase('view.oneSolutionThere'));
  await takeGivens(run.state, run.done);
}

// One stroke of commands; says whether it was made: none is once another picture has come than the
// one that they are for.
async function isMade(state, lines) {
  setDown();
  return (await bench.stroke((doc) => (sameBenchPart(state, doc) ? lines : []))).length > 0;
}

async function takeGivens(state, {given, isLeast}) {
  if (await isMade(state, given.map((index) => `pin ${placeOf(state, index)}`)))
    sayTaken(state, phrase('view.cellsGivenOneUndo', {
               cells: given.length,
               isLeast: isLeast ? phrase('view.noFewerDo') : ''
             }));
}

// Begins a new list, in which the proposals that are kept stay.
function beginList() {
  clearTimeout(fixing.waits);
  Object.assign(fixing, {
    found: fixing.found.filter((one) => fixing.kept.has(one) && isOfThis()),
    places: NO_PLACES,
    near: null,
    of: bench.state,
    by: fixing.goal,
    part: fixing.goal === LATER ? selectedPlaces() : null,
    now: null,
    said: '',
    turn: fixing.turn + 1
  });
  fixSays('');
  showAdjust(false);
  showFound();
  for (const id of ['fix', 'fix-list']) $(id).scrollTo(0, 0);  // the list is what is looked at
}

// Lists proposals, while they are found: the smallest and least seen first.
async function findRepairs() {
  beginList();
  const {goal, turn, of} = fixing;
  if (goal === 'unique' && of.verdict?.word === 'unique')
    return fixSays(phrase('view.oneSolutionThere'));
  if (goal === LATER && (!canDelay() || !fixing.part))
    return fixSays(canDelay() ? phrase('view.selectForLater') : phrase('view.solvedForLater'));
  const run = await searched(phrase('view.lookingRepairs'), (copy, state) => {
    fixing.of = state;
    const search = new RepairSearch(copy, state, goal);
    return goal === LATER ? search.ofPart() : isGrade(goal) ? search.ofGrade() : search.all();
  });
  if (run && turn === fixing.turn) tellFound(run.done);
}

// A search for proposals by a copy of the engine. Each is listed as it is found.
class RepairSearch {
  constructor(copy, state, goal) {
    this.copy = copy;
    this.state = state;
    this.goal = goal;
    this.board = boardOf(state, fixing.only);
  }

  /** Proposals that have a grade. */
  ofGrade() {
    return this.ask('aim', {word: this.goal, seconds: Math.max(1, workChosen() - 1)});
  }

  /** Proposals by which half of a part is known later. */
  ofPart() {
    return this.ask('delay', {places: [...fixing.part], seconds: Math.max(1, workChosen() - 1)});
  }

  /** Cells to give, repaints, and both together. */
  async all() {
    const part = Math.min(2, workChosen() / 4);  // of the work, for the givens, and for mixtures
    const isLeast = await this.give(QUICK);
    await this.mirrored();
    const seconds = Math.max(1, workChosen() - 2);
    this.copy.found = await this.ask('repair', {goal: this.goal, seconds});
    if (this.goal === 'lines' && this.state.verdict.word !== 'unique' && !this.hasSmall())
      await this.ask('repair', {goal: 'unique', seconds: FALLBACK}, this.addFound);
    if (!isLeast) await this.give(part);
    await this.mixed(part);
    return this.copy.found;
  }

  // Asks the copy, and hears what it finds meanwhile.
  ask(kind, fields, hear = this.hear) {
    return this.copy.work(kind, {board: this.board, ...fields}, (said) => hear.call(this, said));
  }

  hear({found, nearer, places, placed, now}) {
    if (places) fixing.places = places;
    if (now !== undefined) fixing.now = now;
    if (found ?? placed)
      add(this.state, found ?? placed);
    else if (nearer)
      fixing.near = {...nearer, far: farOf(this.state, this.goal, nearer), state: this.state};
    else
      showPlaces();
    this.copy.note(noteOf());
  }

  addFound({found}) {
    if (found) add(this.state, found);
  }

  // Lists the fewest cells to give that are found, and says whether no fewer do.
  async give(seconds) {
    const given = await this.ask('give', {goal: this.goal, seconds}, () => {});
    if (given.given?.length) add(this.state, given);
    return given.isLeast;
  }

  // First what keeps the picture's symmetry, where the pens have none.
  async mirrored() {
    const mirror = this.board.mirror || fixing.only ? null : mirrorOf(this.state.picture);
    if (!mirror) return;
    const board = {...this.board, mirror};
    await this.ask('repair', {board, goal: this.goal, seconds: MIRRORED}, this.addFound);
  }

  hasSmall() {
    return wholes()[0]?.cells.length <= FEW;
  }

  // Repaints and given cells together, if these are fewer than what was found.
  async mixed(seconds) {
    const sizes = fixing.found.filter(
                                  (one) => one.state === this.state && one.place === undefined
    ).map(sizeOf);
    const {near} = this.copy.found;
    await this.ask('mix', {goal: this.goal, near, bound: Math.min(...sizes, Infinity), seconds});
  }
}

// Looks for what mends another picture. Where it has the grade that was aimed for, the list stays
// for an undo.
async function findAgain() {
  const [{goal}, {state}] = [fixing, bench];
  fixing.only = null;
  showSymmetry();
  const said = LINE_WORDS.includes(goal) && state.verdict.word === 'unique' && state.open === 0 ?
      await searches.assess(MOST_SECONDS) :
      null;
  if (state !== bench.state || goal !== fixing.goal) return;
  if (said?.grade?.word === goal)
    fixSays(phrase('view.gradeThere', {grade: gradeName(goal)}));
  else
    findRepairs();
}

function add(state, one) {
  const isKnown = fixing.found.some(
      (other) =>
          other.place === one.place && other.isLeast === one.isLeast && keyOf(other) === keyOf(one)
  );
  if (!isKnown) fixing.found.push({...one, state, ...seenOf(state, one)});
  if (!fixing.frame) fixing.frame = requestAnimationFrame(showFound);
}

const repaints = () => fixing.found.filter(({cells, given}) => cells && !given).sort(bySize);
const wholes = () => repaints().filter(({place}) => place === undefined);
const ofPlace = (at) => repaints().filter(({place}) => place === at);
const mixtures = () => fixing.found.filter(({cells, given}) => cells && given).sort(bySize);
const givens = () => fixing.found.filter(({cells}) => !cells).sort(bySize);

// How far the picture is from the goal, and how far what came nearer, in words.
function farOf(state, goal, near) {
  if (goal === 'lines') return phrase('view.cellsGuess', {open: state.open, open2: near.open});
  const {other} = state.verdict;
  return phrase('view.otherSolutionsDifferCells', {
    other: other ? `${number(cellsThatDiffer(state.picture, other).length)} → ` : '',
    cells: near.differing
  });
}

// How far a search is, for the line that tells what runs.
function noteOf() {
  const [best] = [...mixtures(), ...wholes()].sort(bySize);
  return best ? phrase('view.cells', {cells: sizeOf(best)}) : fixing.near?.far ?? '';
}

function tellFound(done) {
  fixing.said = foundText(done);
  showFound();
  showAdjust(!isAim(fixing.goal) && !(wholes()[0]?.cells.length <= FEW));
  fixSays(fixing.said);
}

// What came of the search for a grade.
function aimedText(done) {
  const grade = gradeName(fixing.goal);
  if (done?.isThere) return phrase('view.gradeThere', {grade});
  const count = wholes().length + givens().length;
  if (!count)
    return `${phrase('view.noChangeForGrade', {grade})} ${
        done?.isThrough ? phrase('view.otherwiseForGrade') : LONGER}`;
  return phrase(
      'view.proposalsFoundChooseOne', {proposals: count, least: '', loose: '', see: howToSee()}
  );
}

// What came of the search for what is known later.
function delayedText(done) {
  const now = fixing.now === null ? '' : `${phrase('play.halfKnown', {share: fixing.now})} `;
  const proposals = wholes().length;
  const found = proposals ?
      phrase('view.proposalsFoundChooseOne', {proposals, least: '', loose: '', see: howToSee()}) :
      `${phrase('view.noneLater')} ${done?.isThrough ? '' : LONGER}`;
  return `${now}${found}`.trim();
}

// What came of the search for repaints. `done` is its result, or null if it was ended before that.
function foundText(done) {
  if (fixing.goal === LATER) return delayedText(done);
  if (isGrade(fixing.goal)) return aimedText(done);
  const [best] = wholes();
  const advice = ADVICE[adviceOf(fixing.of)];
  const [ended, mixed] = [verdictView.ended || !done?.isThrough, mixtures().length];
  if (!best) {
    const none = phrase('view.noRepaintFound', {
      ended: ended ? phrase('view.time') : phrase('view.noneUpCellsExists', {cells: done.proved})
    });
    const near = mixed ? phrase('view.whatListedGivesCells') :
        fixing.near    ? phrase('view.whatListedComesNearer') :
                         '';
    const kept = keptSymmetry(fixing.of) ? `${phrase('view.withoutSymmetry')} ` : '';
    return `${none}${near} ${kept}${ended ? `${LONGER} ` : ''}${advice}`;
  }
  if (best.goal !== fixing.goal && best.open > 0) return phrase('view.onlyOneSolution');
  const least = done?.proved >= best.cells.length - 1 ? phrase('view.noneSmaller') : '';
  const loose =
      best.cells.length > FEW ? phrase('view.moreCellsPictureToo', {few: FEW, advice}) : '';
  return phrase('view.proposalsFoundChooseOne', {
    proposals: groups().reduce((sum, {items}) => sum + items.length, 0),
    least,
    loose,
    see: howToSee()
  });
}

// ---- the list

function showFound() {
  cancelAnimationFrame(fixing.frame);
  fixing.frame = 0;
  if (!$('fix-list')) return;
  showPlaces();
  if (!isOfThis()) {
    preview(null);
    listProposals($('fix-list'), [], HEARS);
    return fixSays('');
  }
  if (![null, fixing.near, ...fixing.found].includes(fixing.shown)) preview(null);
  if ($('fix-list').querySelector('li :active'))
    fixing.frame = requestAnimationFrame(showFound);  // a press ends where it began
  else
    listProposals($('fix-list'), groups(), HEARS);
}

// The places where line solving stalls are marked in the picture, while they are those of the
// picture.
function showPlaces() {
  const places = isFixing() && isOfThis() ? fixing.places : NO_PLACES;
  if (places === sheet.places) return;
  sheet.places = places;
  sheet.redraw();
}

// What is shown: repaints of all places, and of each by itself; or what came nearer; then mixtures,
// and the fewest givens.
function groups() {
  const {places} = fixing;
  const near = !wholes().length && fixing.near ? [fixing.near] : [];
  const apart = places.length > 1 ?
      places.map(
          (place, at) => ({
            title: phrase('view.placeOnly', {at: at + 1, place: placeText(fixing.of, place[0])}),
            items: ideas(ofPlace(at), MOST_SHOWN, fixing.kept)
          })
      ) :
      [];
  const isApart = apart.some(({items}) => items.length);
  const all = {
    title: isApart ? (places.length === 2 ? phrase('view.bothPlaces') :
                                            phrase('view.allPlaces', {places: places.length})) :
                     '',
    items: [...ideas(wholes(), isApart ? MOST_OF_ALL : MOST_SHOWN, fixing.kept), ...near]
  };
  const others = {
    title: phrase('view.givesToo'),
    items: [...mixtures().slice(0, MOST_MIXED), ...givens().slice(0, 1)]
  };
  return [all, ...apart, others].filter(({items}) => items.length);
}

const keep = (one, is) => (is ? fixing.kept.add(one) : fixing.kept.delete(one));

/** Shows a proposal on the sheet, with a frame around each of its cells, or takes that back. */
function preview(one) {
  if (one === fixing.shown) return;
  const {cells = [], given = []} = one ?? {};
  if (cells.length || fixing.shown?.cells)
    sheet.preview(
        cells.length ? new Map(cells.map(({index, colour}) => [index, LETTERS[colour]])) : null
    );
  sheet.framed = [...cells.map(({index}) => index), ...given];
  if (one)
    sheet.reveal(
        Math.floor(sheet.framed[0] / one.state.columns), sheet.framed[0] % one.state.columns
    );
  sheet.redraw();
  fixing.shown = one;
}

// Says what was taken, until an undo brings the picture back from before.
const sayTaken = (before, text) => {
  fixing.taken = {before, unsay: say(text)};
};

async function take(one) {
  preview(null);
  if (!one.cells) return takeGivens(one.state, one);
  const {state, cells, given = []} = one;
  const paints =
      cells.map(({index, colour}) => `paint ${placeOf(state, index)} ${LETTERS[colour]}`);
  if (!(await isMade(state, [...paints, ...given.map((index) => `pin ${placeOf(state, index)}`)])))
    return;
  const more = given.length ? phrase('view.andGiven', {count: given.length}) : '';
  sayTaken(
      state, phrase('view.cellsRepaintedOneUndo', {cells: cells.length, more, count: sizeOf(one)})
  );
}

const HEARS = {
  take,
  keep,
  preview,
  isKept: (one) => fixing.kept.has(one)
};

/**
 * Shows the proposals with the picture that they are for; while they are shown, another picture
 * gets its own once the user rests.
 */
export function startFixing() {
  on('symmetry', showSymmetry);
  on('selected', () => {
    const part = isFixing() && fixing.goal === LATER ? selectedPlaces() : null;
    if (!part || areSame(part, fixing.part)) return;
    clearTimeout(fixing.waits);
    fixing.waits = setTimeout(findRepairs, REST);
  });
  on('shown', (state) => {
    if (fixing.taken && sameBenchPart(fixing.taken.before, state)) fixing.taken.unsay();
    if (!fixing.isWanted) return;
    showLocks();
    showSymmetry();
    if (isOfThis() && !isFixing() && mayFix()) {
      $('fix').hidden = false;
      fixSays(fixing.said);
      tell('fixing', true);
    }
    showFound();
    clearTimeout(fixing.waits);
    if (isFixing() && !isOfThis() && mayFix())
      fixing.waits = setTimeout(findAgain, REST);
    else if (isFixing() && isOfThis())
      fixSays(fixing.said);
  });
}
