// The page with its objects by name in the window, for tests in browsers. It is no part of the page
// that is built.

import {say} from '../base/elements.js';
import {resized} from '../document/shapes.js';
import {sheet} from '../draw/sheet.js';
import {bench} from '../engine/bench.js';
import {fragmentOf} from '../formats/link.js';
import {takeFile} from '../import/taking.js';
import {keep} from '../library/keep.js';
import {openDoc} from '../library/open.js';
import {saving} from '../library/saving.js';
import '../main.js';
import {play} from '../play/play.js';
import {actions, runAction} from '../view/actions.js';
import {cursor} from '../view/grid.js';
import {selection, showSelection} from '../view/select.js';
import {tools, useColour} from '../view/tools.js';
import {certificateText, searches, setHatching, setSeconds} from '../view/verdict.js';

Object.assign(window, {
  bench,
  sheet,
  searches,
  tools,
  play,
  keep,
  takeFile,
  actions,
  runAction,
  useColour,
  certificateText,
  selection,
  showSelection,
  resized,
  cursor,
  openDoc,
  setHatching,
  setSeconds,
  saving,
  fragmentOf,
  say,
});
