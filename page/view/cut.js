// What the strips of clues cannot show is said in the corner between them; a press there shows
// more.

import {make} from '../base/elements.js';
import {behindFrame, on} from '../base/events.js';
import {sheet} from '../draw/sheet.js';
import {phrase} from '../texts/phrase.js';
import {runAction} from './actions.js';

const LEAST_ROOM = 48;  // the page's pixels at the left of the picture

// Fit makes room for clues; where it has, or cells are too small for numbers, larger cells do.
const showMore = () => runAction(sheet.geometry.isFitted ? 'zoom-in' : 'fit');
const note = make('button', {type: 'button', id: 'cut', hidden: true, onclick: showMore});

function showCut() {
  const {geometry: at, strips} = sheet;
  const hasNumbers = sheet.state !== null && strips.hasNumbers(sheet);
  const count = hasNumbers ? strips.countCut(sheet) : 0;
  const [width, height] = [at.originX / at.scale, at.originY / at.scale];
  note.hidden = !sheet.state || at.isBare || width < LEAST_ROOM || (hasNumbers && !count);
  if (note.hidden) return;
  note.textContent =
      hasNumbers ? phrase('view.cluesCut', {clues: count}) : phrase('view.zoomForNumbers');
  note.title = hasNumbers ? phrase('view.cluesCutMore') : '';
  Object.assign(note.style, {
    right: `${(at.width - at.originX) / at.scale + 8}px`,
    bottom: `${(at.height - at.originY) / at.scale + 8}px`,
    maxWidth: `${width - 12}px`
  });
  note.hidden = note.offsetHeight > height - 8;  // the room above ends there
}

/** Puts the note over the sheet. */
export function startCut() {
  sheet.stage.append(note);
  const show = behindFrame(showCut);
  for (const name of ['shown', 'moved']) on(name, show);
}
