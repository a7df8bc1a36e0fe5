// The check of colours for the colour-blind: the picture as they see it, and the colours that look
// alike to them.

import {make} from '../base/elements.js';
import {opening} from '../base/words.js';
import {VISIONS, clashesWith, docSeenWith} from '../document/vision.js';
import {drawSmall} from '../draw/small.js';
import {bench} from '../engine/bench.js';
import {phrase} from '../texts/phrase.js';
import {addAction} from './actions.js';
import {openDialog} from './dialogs.js';
import {pairText} from './dress.js';

const KINDS = {
  protan: phrase('view.withoutRedCones'),
  deutan: phrase('view.withoutGreenCones'),
  tritan: phrase('view.withoutBlueCones')
};
const SHOWN_SIDE = 160;  // pixels

function figureOf(doc, kind) {
  const canvas = make('canvas', {role: 'img', 'aria-label': KINDS[kind]});
  drawSmall(canvas, docSeenWith(doc, kind), SHOWN_SIDE);
  const pairs = clashesWith(doc, kind).map(([one, other]) => pairText(doc, one, other));
  const text = pairs.length ? phrase('view.lookAlike', {pairs: pairs.join('; ')}) :
                              phrase('view.noTwoColoursLook');
  return make(
      'figure',
      {'data-kind': kind},
      make('figcaption', {}, KINDS[kind]),
      canvas,
      make('p', {class: pairs.length ? 'wrong' : 'faint'}, text)
  );
}

function showVisions() {
  const doc = bench.seen();
  return openDialog({
    title: phrase('view.coloursColourBlind'),
    wide: true,
    content:
        make('div', {class: 'visions'}, ...Object.keys(VISIONS).map((kind) => figureOf(doc, kind))),
    buttons: [{name: phrase('view.close'), value: null, main: true}]
  });
}

/** Adds the check to the menu. */
export const startVision = () => addAction({
  id: 'vision',
  name: opening(phrase('view.coloursColourBlind')),
  place: 'check',
  group: 'colours',
  run: showVisions
});
