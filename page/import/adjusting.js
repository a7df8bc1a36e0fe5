// The image that the open picture was made of, as long as the page is open: with what was chosen
// for it, so that its puzzle can be made anew, as one undo.

import {on} from '../base/events.js';
import {docOf} from '../document/document.js';
import {bench} from '../engine/bench.js';
import {phrase} from '../texts/phrase.js';
import {addAction} from '../view/actions.js';
import {asSeen, heard} from '../view/tools.js';

const made = {
  term: null,  // of the document that was made
  ask: null    // asks for another one of the same image; null where its user has none
};

/** Keeps how the open document is made of its image. */
export function keepMade(ask) {
  Object.assign(made, {term: bench.term, ask});
}

// Whether the picture that is open was made of an image here.
const isMade = () => made.ask !== null && made.term === bench.term;

const adjust = () => asSeen(async ({term}) => {
  const doc = await made.ask();
  if (!doc || bench.term !== term) return;
  await heard(bench.become(({about}) => ({...docOf(doc), about})));
});

/** Adds to the menu Picture what makes the puzzle anew of its image. */
export function startAdjusting() {
  addAction({
    id: 'adjust',
    name: phrase('import.adjustImage'),
    place: 'picture',
    group: 'colours',
    run: adjust,
    can: isMade
  });
  on('opened', () => {
    if (!isMade()) made.ask = null;
  });
}
