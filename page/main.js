// Starts the page.

import {$, hush, say} from './base/elements.js';
import {on} from './base/events.js';
import {withIcon} from './draw/icons.js';
import {sheet, startSheet} from './draw/sheet.js';
import {startExporting} from './export/exporting.js';
import {startAdjusting} from './import/adjusting.js';
import {startPalettes} from './import/palettes.js';
import {hearFiles} from './import/taking.js';
import {startTracing} from './import/tracing.js';
import {keep} from './library/keep.js';
import {startSaving} from './library/saving.js';
import {showCoursePanel, startCourse} from './play/course.js';
import {startPlay} from './play/play.js';
import {openAgain, startLanguage} from './start/language.js';
import {startLinked} from './start/linked.js';
import {showStart, startStart} from './start/start.js';
import {startTours} from './start/tour.js';
import {DIRECTION, LANGUAGE, phrase} from './texts/phrase.js';
import {actionButton, actions, hearKeys, keyText, makeMenus} from './view/actions.js';
import {
  addColourActions,
  addEditActions,
  addPictureActions,
  addViewActions
} from './view/commands.js';
import {startCut} from './view/cut.js';
import {startFixing} from './view/fixing.js';
import {startGrading} from './view/grading.js';
import {cursor, gridCell, makeGrid} from './view/grid.js';
import {addHelpActions} from './view/help.js';
import {makeMinimap} from './view/minimap.js';
import {makePalette} from './view/palette.js';
import {keepStill, makeCellPanel, makeLinesPanel, makeToolBar} from './view/panels.js';
import {hearPointers} from './view/pointer.js';
import {startSafe} from './view/safe.js';
import {startSelection} from './view/select.js';
import {showTurningPanel, startTurning} from './view/turning.js';
import {showVerdictPanel, startVerdict} from './view/verdict.js';
import {startVision} from './view/vision.js';
import {showWhyPanel, startWhy} from './view/why.js';

document.body.classList.add('starting');
nameParts();
startSheet();
startSelection();
startVerdict();
startFixing();
startGrading();
startTurning();
startPlay();
startCourse();
startWhy();
startVision();
startSaving();
startStart();
startExporting();
makeMenus();
makeToolBar();
makePalette();
makeCellPanel();
makeLinesPanel();
keepStill();
makeGrid();
makeMinimap();
startCut();
addEditActions();
addPictureActions();
startPalettes();
addViewActions();
startSafe();
startTracing();
startAdjusting();
startLanguage();
addColourActions();
startTours();
addHelpActions();
makeQuickButtons();
hearKeys();
hearPointers();
$('said').addEventListener('click', () => say(''));
hearBench();
showVerdictPanel();
showCoursePanel();
showTurningPanel();
showWhyPanel();
keep.ready();
hearFiles();
showStart();
startLinked().then(openAgain);
keepOffline();

// ---- what the whole page has

// Parts of the page, by their names for who hears it.
function nameParts() {
  const names = {
    menus: phrase('main.menus'),
    quick: phrase('main.history'),
    start: phrase('main.start'),
    work: phrase('main.picture'),
    tools: phrase('main.tools'),
    stage: phrase('main.pictureClues'),
    fix: phrase('view.fixTitle'),
    panels: phrase('main.whatBenchSays'),
    audit: phrase('import.verdict'),
    colours: phrase('view.colours'),
    cell: phrase('view.cell'),
    lines: phrase('view.rowsColumns'),
    details: phrase('view.details'),
    zoom: phrase('view.view'),
  };
  for (const [id, name] of Object.entries(names)) $(id).setAttribute('aria-label', name);
  Object.assign(document.documentElement, {lang: LANGUAGE, dir: DIRECTION});
  document.body.dataset.drop = phrase('main.dropOpen');
}

// ---- what the whole page does with the bench

// Undo and redo in the header, and what is seen of the picture at its lower right, as icons.
function makeQuickButtons() {
  const bars = {quick: ['undo', 'redo'], zoom: ['bare', 'zoom-out', 'fit', 'zoom-in']};
  for (const [bar, ids] of Object.entries(bars)) {
    for (const id of ids) {
      const {name, key} = actions.get(id);
      const icon = {bare: 'picture', 'zoom-out': 'minus', 'zoom-in': 'plus'}[id] ?? id;
      $(bar).append(withIcon(actionButton(actions.get(id)), icon, name, keyText(key.split(' ')[0]))
      );
    }
  }
}

// A served page is kept by the browser, so that it opens without a network.
function keepOffline() {
  if (document.querySelector('link[rel="manifest"]'))
    navigator.serviceWorker?.register('offline.js').catch(() => {});
}

function hearBench() {
  on('opened', () => {
    Object.assign(cursor, {row: 0, col: 0});
    gridCell().focus({preventScroll: true}
    );  // what was used on the start screen is gone: the arrows go on here
  });
  on('shown', () => {
    for (const id of ['undo', 'redo'])
      $('quick').querySelector(`[data-action="${id}"]`).disabled = !actions.get(id).can();
  });
  on('moved',
     ({isBare}) =>
         $('zoom').querySelector('[data-action="bare"]').setAttribute('aria-pressed', isBare));
  on('stroke', hush);
  on('busy', (is) => sheet.stage.setAttribute('aria-busy', is));
  on('recovered', () => say(phrase('main.engineRestartedNothingLost')));
  on('lost',
     (fault) =>
         say(phrase('main.engineCouldNotStarted', {text: fault.text ?? fault.message}), 'alarm'));
}
