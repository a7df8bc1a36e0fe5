// A puzzle in the list of a book: what the engine says of it, and a box that takes it in.

import {make} from '../base/elements.js';
import {gradeName, verdictName, verdictRank} from '../base/names.js';
import {sizeText} from '../base/words.js';
import {docOf} from '../document/document.js';
import {iconOf} from '../draw/icons.js';
import {smallPicture} from '../draw/small.js';
import {Row} from '../import/rows.js';
import {phrase} from '../texts/phrase.js';
import {fitText, unfitText} from '../view/dress.js';

const THUMB = 40;  // pixels of the screen

/** A row whose box is ticked where the engine calls the puzzle fit, until the user decides. */
export class Page extends Row {
  id;
  source;            // the document, as it was before a repair
  isChosen = false;  // by the user
  label = make('label', {class: 'page', 'data-name': this.name});
  box = make('input', {
    type: 'checkbox',
    onchange:
        () => {
          this.isChosen = true;
        }
  });

  /** `id` is that of a picture of the library. */
  constructor(name, doc, id) {
    super(name, docOf(doc));
    Object.assign(this, {id, source: this.doc});
    this.show();
  }

  show() {
    if (!this.box) return;  // the row's own constructor shows it, too
    const {doc, word, said} = this;
    if (!this.isChosen) this.box.checked = said?.fit ?? false;
    this.label.title = said ? fitText(doc, said) : '';
    const icon = verdictRank(word) < 0 ? [] : [iconOf(word)];
    this.label.replaceChildren(
        this.box,
        make('span', {class: 'thumb'}, smallPicture(doc, THUMB)),
        make(
            'span',
            {},
            make('b', {}, this.name),
            make('span', {'data-verdict': word}, ...icon, this.factsText)
        )
    );
  }

  get factsText() {
    const {doc, word, grade, repainted, said} = this;
    return [
      verdictName(word),
      said?.flaws.length ? unfitText(doc, said) : '',
      grade ? gradeName(grade.word) : '',
      sizeText(doc),
      repainted ? phrase('import.cellsRepainted', {cells: repainted}) : ''
    ].filter(Boolean
    ).join(', ');
  }

  get isIn() {
    return this.box.checked;
  }

  /** The puzzle as a book has it. */
  get puzzle() {
    const {name, doc, grade, word} = this;
    return {name, doc, grade: grade?.word ?? null, verdict: word};
  }
}
