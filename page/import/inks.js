// The palette in the dialog for pictures: which colours there are and on how many cells, and what
// is done to one of them: it becomes the background, is locked, is replaced by another one, or is
// dropped. A palette from a file takes the place of the image's own.

import {make} from '../base/elements.js';
import {markRadio, radioGroup} from '../base/radios.js';
import {capital} from '../base/words.js';
import {hexOf, inkOn, isAmong, isSame, oklabOf, tripleOf} from '../document/colours.js';
import {LETTERS} from '../document/limits.js';
import {colourNamed} from '../document/named.js';
import {nameOf} from '../document/names.js';
import {mergedNumbers} from '../document/near.js';
import {iconOf} from '../draw/icons.js';
import {readPalette} from '../formats/palettes.js';
import {LANGUAGE, phrase} from '../texts/phrase.js';
import {LOCKED_FAR} from './quantise.js';
import {farness} from './spots.js';

const hasNear = (triples, triple) =>
    triples.some((one) => farness(oklabOf(...one), oklabOf(...triple)) <= LOCKED_FAR);
const shareText = (share) => share.toLocaleString(
    LANGUAGE, {style: 'percent', minimumFractionDigits: 1, maximumFractionDigits: 1}
);
const without = (triples, triple) => triples.filter((one) => !isSame(one, triple));
const noEdits = () => ({locked: [], dropped: [], replaced: [], background: null, palette: null});

export class Inks {
  changed;
  counts;
  doc = null;
  isClear;
  edits = noEdits();
  at = 0;
  wanted = null;
  row = make('div', {
    class: 'swatches',
    role: 'radiogroup',
    'aria-label': phrase('import.palette'),
    id: 'import-palette'
  });
  text = make('output', {class: 'faint', id: 'import-ink'});
  ground = make(
      'button',
      {type: 'button', onclick: () => this.edit({background: this.source})},
      capital(phrase('view.background'))
  );
  locked = make('input', {type: 'checkbox', id: 'import-lock'});
  dropped = make(
      'button',
      {type: 'button', id: 'import-drop', onclick: () => this.drop()},
      phrase('import.remove')
  );
  picker = make('input', {type: 'color', 'aria-label': phrase('import.replace')});
  named = make('input', {
    type: 'text',
    'aria-label': phrase('view.chosenColourName'),
    placeholder: phrase('view.name123abc'),
    list: 'colour-names',
    size: 12
  });
  file = make('input', {type: 'file', accept: '.gpl,.pal,.hex,.txt', hidden: true});
  said = make('p', {class: 'faint', role: 'status'});

  /** `changed` hears each edit; `counts` hears by how many there are more colours. */
  constructor(changed, counts) {
    Object.assign(this, {changed, counts});
    this.element = make(
        'div',
        {class: 'inks'},
        this.row,
        this.text,
        this.rowOfOne(),
        this.rowOfReplacing(),
        this.rowOfFiles(),
        this.said
    );
    this.hear();
  }

  // What makes the chosen colour the background, locks or drops it.
  rowOfOne() {
    const locked = make(
        'label',
        {title: phrase('import.staysHoweverManyColours')},
        this.locked,
        capital(phrase('view.locked'))
    );
    return make('div', {class: 'group'}, this.ground, locked, this.dropped);
  }

  // What replaces the chosen colour: a picker, and a field for its name.
  rowOfReplacing() {
    const label = make('label', {}, phrase('import.replace'), this.picker);
    return make('div', {class: 'group'}, label, this.named);
  }

  // What takes a palette of a file, and what goes back to that of the image.
  rowOfFiles() {
    const button = (id, name, onclick) => make('button', {type: 'button', id, onclick}, name);
    return make(
        'div',
        {class: 'group'},
        button('import-file', phrase('import.paletteFile'), () => this.file.click()),
        this.file,
        button('import-reset', phrase('play.startOver'), () => this.reset())
    );
  }

  hear() {
    radioGroup(this.row, (button) => this.choose(Number(button.dataset.at)));
    this.locked.addEventListener('input', () => this.edit({
      locked: this.locked.checked ? [...this.edits.locked, this.source] :
                                    without(this.edits.locked, this.source)
    }));
    this.picker.addEventListener('change', () => this.replace(tripleOf(this.picker.value)));
    this.named.addEventListener('change', () => {
      const triple = colourNamed(this.named.value);
      if (triple) this.replace(triple);
      this.said.textContent =
          triple || !this.named.value ? '' : phrase('view.noColourName', {text: this.named.value});
      this.named.value = '';
    });
    this.file.addEventListener('change', () => this.file.files[0] && this.read(this.file.files[0]));
  }

  /** What docOfCells is given. */
  get options() {
    return this.edits;
  }

  // The chosen colour as the image has it.
  get source() {
    return (this.doc.sources ?? this.doc.colours)[this.at];
  }

  edit(change) {
    Object.assign(this.edits, change);
    this.changed();
  }

  reset() {
    this.edits = noEdits();
    this.said.textContent = '';
    this.changed();
  }

  /**
   * Has the chosen colour shown as another one; it stays from then on, too. What is transparent is
   * shown by its background.
   */
  replace(triple) {
    const {source, edits} = this;
    if (this.isClear && this.at === 0) return this.edit({background: triple});
    const replaced = edits.replaced.filter(([from]) => !isSame(from, source));
    return this.edit({
      replaced: isSame(source, triple) ? replaced : [...replaced, [source, triple]],
      locked: [...without(edits.locked, source), source]
    });
  }

  drop() {
    const {source, edits} = this;
    this.at = Math.max(0, this.at - 1);
    this.counts(-1);
    this.edit({
      dropped: [...edits.dropped, source],
      locked: without(edits.locked, source),
      replaced: edits.replaced.filter(([from]) => !isSame(from, source))
    });
  }

  /**
   * Locks a triple of the image, and chooses it. With one that the palette does not have yet there
   * is one more, where there is room.
   */
  keep(triple) {
    if (!hasNear(this.doc.sources ?? this.doc.colours, triple)) this.counts(1);
    this.wanted = triple;
    this.edit({
      locked: [...without(this.edits.locked, triple), triple],
      dropped: without(this.edits.dropped, triple)
    });
  }

  /** Has each colour that looks like one with more cells shown as that one. */
  merge() {
    const {edits, doc} = this;
    const from = doc.sources ?? doc.colours;
    const pairs = mergedNumbers(doc).flatMap(
        (to, at) =>
            (to === at ? [] : [[from[at], doc.colours[to]], [doc.colours[at], doc.colours[to]]])
    );
    const target = (triple) => pairs.find(([one]) => isSame(one, triple))?.[1] ?? triple;
    const replaced =
        new Map([...edits.replaced.map(([one, to]) => [one, target(to)]), ...pairs].map(
            (pair) => [pair[0].join(), pair]
        ));
    this.edit({replaced: [...replaced.values()], background: this.isClear ? null : edits.background}
    );
  }

  async read(file) {
    try {
      const {colours} = readPalette(await file.text());
      this.said.textContent = phrase('import.coloursAlone', {name: file.name});
      this.edit({...noEdits(), palette: colours.map(({triple}) => triple)});
    } catch (fault) {
      this.said.textContent = phrase('import.fileNotRead', {name: file.name, fault: fault.message});
    }
    this.file.value = '';
  }

  choose(at) {
    this.at = at;
    this.mark();
  }

  /** Shows the colours of a document. */
  show(doc) {
    const wanted = this.wanted ?
        (doc.sources ?? doc.colours).findIndex((one) => isSame(one, this.wanted)) :
        -1;
    Object.assign(this, {
      doc,
      isClear: doc.isClear ?? false,
      at: wanted < 0 ? Math.min(this.at, doc.colours.length - 1) : wanted,
      wanted: null
    });
    const had = this.row.contains(document.activeElement);
    // The buttons stay, so that one that is pressed is there still when it is let go.
    while (this.row.children.length > doc.colours.length) this.row.lastChild.remove();
    for (let at = this.row.children.length; at < doc.colours.length; at++)
      this.row.append(make('button', {type: 'button', role: 'radio', 'data-at': at}));
    for (const [at, triple] of doc.colours.entries()) {
      const button = this.row.children[at];
      button.title = button.style.background = hexOf(triple, 255);
      const icon = at === 0 ? 'blank' : this.isLocked(at) ? 'lock' : null;
      button.replaceChildren(icon ? iconOf(icon) : '');
      button.style.color = inkOn(triple, 255);
    }
    this.mark();
    if (had) /** @type {any} */
      (this.row.children[this.at]).focus();
  }

  isLocked(at) {
    const source = (this.doc.sources ?? this.doc.colours)[at];
    return isAmong(this.edits.locked, source);
  }

  textOf(at) {
    const {doc} = this;
    const cells = doc.picture.join('').split(LETTERS[at]).length - 1;
    const share = shareText(cells / (doc.rows * doc.columns));
    return [
      `${nameOf(doc.colours[at], 255)} ${hexOf(doc.colours[at], 255)}`,
      share,
      at === 0 ? phrase('view.background') : '',
      this.isLocked(at) ? phrase('view.locked') : ''
    ].filter(Boolean
    ).join(', ');
  }

  mark() {
    const {doc, at} = this;
    markRadio(this.row, (button) => button === this.row.children[at]);
    [...this.row.children].forEach(
        (button, one) => button.setAttribute('aria-label', this.textOf(one))
    );
    this.text.value = this.textOf(at);
    this.picker.value = hexOf(doc.colours[at], 255);
    this.locked.checked = this.isLocked(at);
    const isGround = this.isClear && at === 0;
    this.ground.disabled = at === 0 || this.isClear;
    this.locked.disabled = isGround;
    this.dropped.disabled = isGround || doc.colours.length < 3;
  }
}
