// Colours of the document in the dialog for pictures that a solver may take for one another: said
// beside its verdict, and merged by one click.

import {make} from '../base/elements.js';
import {nearPairs} from '../document/near.js';
import {phrase} from '../texts/phrase.js';
import {nearText, swatchChip} from '../view/dress.js';

const MOST_SHOWN = 3;

/** The line that says what looks alike; `merge` hears its button. */
export class Alike {
  constructor(merge) {
    this.button = make(
        'button', {type: 'button', id: 'import-merge', onclick: merge}, phrase('import.merge')
    );
    this.element = make('div', {id: 'import-near', role: 'status'});
  }

  show(doc) {
    const text = nearText(doc);
    if (text === this.element.dataset.text) return;
    this.element.dataset.text = text;
    const pairs = nearPairs(doc);
    const chips =
        pairs.slice(0, MOST_SHOWN)
            .map(
                (pair) =>
                    make('span', {class: 'alike'}, ...pair.map((letter) => swatchChip(doc, letter)))
            );
    const more = pairs.length > MOST_SHOWN ?
        [phrase('import.morePairs', {pairs: pairs.length - MOST_SHOWN})] :
        [];
    this.element.replaceChildren(
        ...(text ? [phrase('import.lookAlike'), ...chips, ...more, this.button] : [])
    );
  }
}
