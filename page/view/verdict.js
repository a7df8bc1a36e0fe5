// The panel that tells the verdict: its words, the second picture, hatching with its legend, the
// time of searches, and the line that tells what is searched.

import {$, choiceOf, fieldOf, make, say, write} from '../base/elements.js';
import {on} from '../base/events.js';
import {GRADES, verdictTitle} from '../base/names.js';
import {capital, linesText} from '../base/words.js';
import {cellsThatDiffer} from '../document/shapes.js';
import {iconOf, withIcon} from '../draw/icons.js';
import {sheet} from '../draw/sheet.js';
import {bench} from '../engine/bench.js';
import {startEngine} from '../engine/client.js';
import {Searches} from '../engine/searches.js';
import {keepChoice, keptChoice} from '../texts/language.js';
import {phrase} from '../texts/phrase.js';
import {actionButton, actions, addAction, sayWith} from './actions.js';
import {canFix, hideFix, isFixing, mayFix, openFix} from './fixing.js';

const TIMES = [['5', '5 s'], ['30', '30 s'], ['', phrase('view.untilStopped')]];
const HATCHINGS = [
  ['off', phrase('view.pictureAlone')],
  ['differing', phrase('view.cellsDiffer')],
  ['open', phrase('view.openCells')]
];

const KEPT = 'nonobench-seconds';

export const verdictView = {
  seconds: TIMES.find(([value]) => value === keptChoice(KEPT))?.[0] ?? '5',
  hatching: null,
  ended: null
};
export const secondsChosen = () => Number(verdictView.seconds) || Infinity;

export const searches = new Searches({
  start: startEngine,
  seconds: secondsChosen,
  progress: showTask,
  judged: (verdict) => bench.takeVerdict(bench.state, verdict),
  ended(_name, why) {
    verdictView.ended = why;
    if (why === 'time' || why === 'stopped') showVerdict(bench.state);
  },
  failed(name, fault) {
    say(phrase('view.ended', {name, text: fault.text ?? fault.message}), 'alarm');
    showVerdict(bench.state);
  },
});

// ---- the panel

// Pinned above all: the verdict, a sentence, the grade, and what is done next.
function makeVerdictPanel() {
  $('audit').append(
      make(
          'div',
          {id: 'verdict-line'},
          make('h2', {id: 'verdict'}),
          make(
              'p',
              {id: 'grade-shown', title: phrase('import.grade')},
              make('span', {id: 'grade-word'}),
              make(
                  'span',
                  {id: 'grade-dots', 'aria-hidden': 'true'},
                  ...Array.from({length: GRADES}, () => make('span', {class: 'dot'}))
              )
          )
      ),
      make('p', {id: 'verdict-short'}),
      make('div', {id: 'verdict-do', class: 'group'}),
      make('p', {id: 'verdict-heard', class: 'unseen', role: 'status'})
  );
  $('task').append(
      make('span', {id: 'task-name'}),
      make('span', {id: 'task-time', 'aria-hidden': 'true'}),
      make(
          'button',
          {
            type: 'button',
            id: 'stop',
            title: `${phrase('view.stopSearch')} (.)`,
            onclick: () => searches.stop()
          },
          phrase('view.stop')
      )
  );
}

// What is told and chosen besides. What changes its length stands at the end.
function makeDetails() {
  const fact = (name, id) => [make('dt', {}, name), make('dd', {id})];
  $('details').append(
      make('h2', {}, phrase('view.details')),
      make('div', {id: 'details-do', class: 'group'}),
      fieldOf(
          phrase('view.show'),
          choiceOf(
              {id: 'hatching', onchange: (event) => setHatching(event.target.value)}, HATCHINGS
          )
      ),
      fieldOf(
          phrase('view.searchTime'),
          choiceOf({id: 'seconds', onchange: (event) => setSeconds(event.target.value)}, TIMES)
      ),
      make('p', {id: 'verdict-why'}),
      make(
          'dl',
          {},
          ...fact(phrase('import.grade'), 'grade'),
          ...fact(phrase('view.fitToPublish'), 'publish'),
          ...fact(capital(phrase('view.openCells')), 'open'),
          ...fact(phrase('view.cluesChanged'), 'changed')
      ),
      make('p', {id: 'near', role: 'status'}),
      make('p', {id: 'legend', class: 'faint'})
  );
  $('seconds').value = verdictView.seconds;
}

// On small screens the panel stands in a line; the rest opens below it.
function turnMore() {
  const isOpen = $('panels').classList.toggle('open');
  $('verdict-open').setAttribute('aria-expanded', isOpen);
}

export function setSeconds(value) {
  verdictView.seconds = value;
  keepChoice(KEPT, value);
  if (bench.state?.verdict.word === 'undecided') searches.judge();
}

/** What is hatched: 'off', 'differing' or 'open'; null for what fits the verdict. */
export function setHatching(value) {
  verdictView.hatching = value;
  showHatching(bench.state);
}

function showHatching(state) {
  if (!state) return;
  const fitting = isFixing() && state.open ?
      'open' :
      {unique: 'off', ambiguous: 'differing', undecided: 'open'}[state.verdict.word];
  const hatching = verdictView.hatching ?? fitting;
  if (sheet.hatching !== hatching) sheet.redraw();
  sheet.hatching = $('hatching').value = hatching;
  write($('legend'), {
    off: '',
    differing: state.verdict.other ? phrase('view.framedCellsDiffer') :
                                     phrase('view.noOtherPictureKnown'),
    open: phrase('view.hatchedCells'),
  }[hatching]);
}

// In how many cells the other picture differs: counted once for each verdict.
const counted = {
  verdict: null,
  count: 0
};
function differCount({verdict, picture}) {
  if (counted.verdict !== verdict)
    Object.assign(
        counted,
        {verdict, count: verdict.other ? cellsThatDiffer(picture, verdict.other).length : 0}
    );
  return counted.count;
}

// Whether a picture is the only one with its clues because nothing is painted.
const isBlank = ({verdict, clues}) =>
    verdict.word === 'unique' && clues.rows.every((blocks) => !blocks.length);

// The verdict: its name, a sentence for the panel, and all that is said of it.
function verdictTexts(state) {
  const {verdict, givens, open} = state;
  const count = state.rows * state.columns;
  if (isBlank(state))
    return ['blank', phrase('view.nothingPainted'), phrase('view.blankOneSolution')];
  if (verdict.word === 'unique') {
    const with_ = givens.size ? phrase('view.andGivenCells', {cells: givens.size}) : '';
    const lines = open ? phrase('view.someNeedGuessing', {open, count}) :
                         phrase('view.lineLogicSolvesWithout');
    return [
      'unique',
      open ? phrase('view.stayOpen', {open, count}) : lines,
      phrase('view.noOtherPictureThese', {with: with_, open: lines})
    ];
  }
  if (verdict.word === 'ambiguous') {
    const cells = differCount(state);
    return [
      'ambiguous',
      phrase('view.otherDiffers', {cells}),
      phrase('view.anotherPictureTheseClues', {cells})
    ];
  }
  if (searches.running?.judges)
    return ['searching', phrase('view.noOtherPictureFound'), phrase('view.nothingFoundYet')];
  const why = {
    time: phrase('view.withinS', {secondsChosen: secondsChosen()}),
    stopped: phrase('view.beforeStopped')
  }[verdictView.ended];
  return [
    'undecided',
    phrase('view.neitherYet'),
    why ? phrase('view.nothingFound', {why}) : phrase('view.nothingFoundYet')
  ];
}

const TITLES = {
  blank: phrase('view.blank'),
  searching: phrase('view.searching')
};
const titleOf = (name) => TITLES[name] ?? verdictTitle(name);

function showVerdict(state) {
  if (!state) return;
  const [name, short, why] = verdictTexts(state);
  const {word} = state.verdict;
  $('audit').dataset.word = isBlank(state) ? '' : word;
  if ($('verdict').dataset.name !== name) {
    $('verdict').dataset.name = name;
    $('verdict').replaceChildren(iconOf(name), titleOf(name));
  }
  write($('verdict-why'), why);
  write($('verdict-short'), short);
  $('verdict-short').title = short;
  write(
      $('open'), phrase('view.openOfCells', {open: state.open, cells: state.rows * state.columns})
  );
  const changed = [state.changed.rows, state.changed.columns]
                      .map((lines, axis) => linesText(axis === 0, [...lines].map((at) => at + 1)))
                      .filter(Boolean)
                      .join('; ') ||
      phrase('view.none');
  write($('changed'), changed);
  $('changed').title = changed;
  if (word !== 'ambiguous') sheet.other = false;
  showVerdictButtons();
}

/** What is done next comes first, in the page's blue: a puzzle is mended, and then published. */
export function showVerdictButtons() {
  for (const button of $('verdict-do').querySelectorAll('[data-action]'))
    button.hidden = !actions.get(button.dataset.action).can() ||
        (button.dataset.action === 'publish' && !isWord('unique'));
  for (const button of $('details-do').children)
    button.disabled = !actions.get(button.dataset.action).can();
  const [fix, publish, other, search] = ['fix', 'publish', 'other', 'search'].map(
      (id) => $('verdict-do').querySelector(`[data-action="${id}"]`)
  );
  publish.disabled = isBlank(bench.state);
  const isReady = isWord('unique') && !publish.disabled;
  publish.classList.toggle('main', isReady);
  fix.classList.toggle('main', !isReady);
  const name = sheet.other ? phrase('view.backYourPicture') : phrase('view.showOtherPicture');
  withIcon(other, 'other', name, 'x').setAttribute('aria-pressed', sheet.other === true);
  withIcon(
      search,
      'search',
      verdictView.seconds === '' ? phrase('view.searchUntilStopped') :
                                   phrase('view.searchS', {seconds: verdictView.seconds})
  );
  if (!mayFix()) hideFix();
}

// ---- what runs

function showTask(task) {
  $('task').hidden = task === null;
  if (task === null) {
    showVerdict(bench.state);
    return;
  }
  write($('task-name'), task.name);
  const {seconds} = task;
  const of = Number.isFinite(seconds) ? phrase('view.of', {seconds}) : '';
  $('task-time').textContent =
      `${Math.floor(task.elapsed)}${of} s${task.note ? ` · ${task.note}` : ''}`;
  if (task.elapsed < 0.01) showVerdict(bench.state);
}

function showOther(other) {
  sheet.other = other;
  showVerdict(bench.state);
  sheet.redraw();
}

/**
 * A certificate of the present picture as a text, or null; what is found is reported as the
 * verdict.
 */
export async function certificateText() {
  if (isWord('ambiguous')) {
    sayWith(phrase('view.thereNoCertificateAnother'), 'alarm', 'fix');
    return null;
  }
  verdictView.ended = null;
  const text = await searches.prove();
  const why = {
    time: phrase('view.noCertificateFoundWithin', {secondsChosen: secondsChosen()}),
    stopped: phrase('view.searchCertificateStopped'),
    stroke: phrase('view.searchCertificateStopped'),
  }[verdictView.ended];
  if (text === null && why)
    say(why);
  else if (text === null && isWord('ambiguous'))
    sayWith(phrase('view.thereNoCertificateAnother'), 'alarm', 'fix');
  return text;
}

const isWord = (word) => bench.state?.verdict.word === word;
function nextHatching() {
  const names = HATCHINGS.map(([value]) => value);
  setHatching(names[(names.indexOf(sheet.hatching) + 1) % names.length]);
  say(phrase('view.shown', {hatching: HATCHINGS.find(([value]) => value === sheet.hatching)[1]}));
}

// For those who hear the page: the verdict, where it is another one. Those who see it read it in
// the panel, and what the line at the top says stays there.
let saidVerdict = '';
function sayVerdict(state) {
  const [name] = verdictTexts(state);
  if (name === saidVerdict || searches.running) return;
  saidVerdict = name;
  $('verdict-heard').textContent = `${titleOf(name)}.`;
}

/** The actions of the menu Check, and the listeners that keep the panel. */
export function startVerdict() {
  for (const action of
           [{
             id: 'other',
             name: phrase('view.showOtherPicture'),
             key: 'x',
             run: () => showOther(!sheet.other),
             can: () => isWord('ambiguous')
           },
            {id: 'fix', name: phrase('view.fixTitle'), run: () => openFix(), can: canFix},
            {
              id: 'search',
              name: phrase('view.searchAnotherPicture'),
              run: () => searches.judge(),
              can: () => isWord('undecided') && !searches.running
            },
            {
              id: 'stop',
              name: phrase('view.stopSearch'),
              key: '.',
              run: () => searches.stop(),
              can: () => searches.running !== null
            },
            {id: 'hatching', name: phrase('view.showOpenCellsThose'), key: 'h', run: nextHatching},
  ])
    addAction({place: 'check', ...action});
  on('stroke', () => searches.strokeBegun());
  on('opened', () => {
    verdictView.hatching = null;
  });
  on('fixing', (is) => {
    $('work').classList.toggle('fixing', is);
    if (is && $('panels').classList.contains('open'))
      turnMore();  // on a small screen it would cover the proposals
    showHatching(bench.state);
  });
  on('shown', () => {
    verdictView.ended = null;
  });
  for (const name of /** @type {['shown', 'judged']} */ (['shown', 'judged'])) {
    on(name, (state) => {
      searches[name](state);
      showVerdict(state);
      showHatching(state);
      sayVerdict(state);
    });
  }
}

/** Fills the panel. */
export function showVerdictPanel() {
  makeVerdictPanel();
  makeDetails();
  const button = (id) => actionButton(actions.get(id));
  const help = make(
      'button',
      {type: 'button', id: 'help-open', 'aria-haspopup': 'menu', popovertarget: 'menu-help'}
  );
  const more = make('button', {
    type: 'button',
    id: 'verdict-open',
    'aria-expanded': 'false',
    'aria-controls': 'panels',
    onclick: turnMore
  });
  $('verdict-do')
      .append(
          ...['publish', 'fix', 'play', 'other', 'search'].map(button),
          withIcon(help, 'help', phrase('view.help')),
          withIcon(more, 'more', phrase('view.more'))
      );
  $('details-do').append(...['easier', 'harder', 'later', 'walk'].map(button));
}
