// A row of the table of several files: a picture, or a file that none is read from, with what is
// known about it so far.

import {make} from '../base/elements.js';
import {gradeName, gradeRank, verdictName, verdictRank} from '../base/names.js';
import {sizeText} from '../base/words.js';
import {nameOf} from '../document/names.js';
import {iconOf} from '../draw/icons.js';
import {smallPicture} from '../draw/small.js';
import {gradeIn} from '../engine/assessing.js';
import {faultText} from '../library/open.js';
import {phrase} from '../texts/phrase.js';
import {fitText} from '../view/dress.js';

/** The heads of the table's columns. */
export const HEADS = [
  phrase('view.name'),
  phrase('import.size'),
  phrase('view.colours'),
  phrase('import.verdict'),
  phrase('import.grade'),
  phrase('view.fitToPublish')
];
const THUMB = 40;  // pixels of the screen

// Under what a verdict holds: the size of a document, how many cells are given, and a background
// that is not white.
function factsOf(doc) {
  const [ground] = doc.colours;
  const given = doc.givens.size ? phrase('import.given', {cells: doc.givens.size}) : '';
  const isWhite = ground.every((sample) => sample === doc.maxval);
  return [
    sizeText(doc),
    given,
    isWhite ? '' : phrase('export.background', {names: nameOf(ground, doc.maxval)})
  ].filter(Boolean
  ).join(', ');
}

// How many colours a document has, of more where the image had more.
const countOf = ({colours: {length}, all = 0}) =>
    (all > length ? phrase('import.ofAll', {count: length, all}) : String(length));

/** A picture out of a file, with what is known about it so far. */
export class Row {
  /** `fault` is why there is no document; of an image `convert` opens the dialog for pictures. */
  constructor(name, doc, fault = '', convert = null) {
    this.name = name;
    this.doc = doc;
    this.fault = fault;
    this.convert = convert;
    this.word = doc ? '…' : '';
    this.repainted = 0;  // cells
    /** @type {any} */
    this.said = null;  // by the engine
    this.element = make('tr', {tabindex: this.isOpened ? '0' : null, 'data-name': name});
    this.show();
  }

  /** The texts of the table's columns, as a report has them too. */
  get texts() {
    const {doc, word, grade, said} = this;
    const verdict = [
      verdictName(word),
      this.repainted ? phrase('import.cellsRepainted', {cells: this.repainted}) : ''
    ].filter(Boolean).join(', ');
    return doc ?
        [
          this.name,
          factsOf(doc),
          countOf(doc),
          verdict,
          grade ? gradeName(grade.word) : '–',
          said ? fitText(doc, said) : '–'
        ] :
        [this.name, this.fault, '', '', '', ''];
  }

  /** What the table is sorted by, for each of its columns. A file that is not read comes last. */
  get keys() {
    const {doc, word, grade, said} = this;
    return doc ?
        [
          this.name,
          doc.rows * doc.columns,
          doc.colours.length,
          verdictRank(word),
          gradeRank(grade?.word),
          said?.fit ? 0 : 1
        ] :
        [this.name, ...Array(HEADS.length - 1).fill(Infinity)];
  }

  // The cells of a picture's row: the verdict has its icon, and its colour by `data-verdict`.
  cellsOf(texts) {
    return texts.map((text, at) => {
      const isVerdict = HEADS[at + 1] === phrase('import.verdict') && verdictRank(this.word) >= 0;
      return isVerdict ? make('td', {'data-verdict': this.word}, iconOf(this.word), ` ${text}`) :
                         make('td', {}, text);
    });
  }

  show() {
    const {doc} = this;
    const [name, size, ...others] = this.texts;
    const cells = doc ? this.cellsOf([size, ...others]) :
                        [make('td', {colspan: HEADS.length - 1, class: 'wrong'}, size)];
    const picture = make('span', {class: 'thumb'}, ...(doc ? [smallPicture(doc, THUMB)] : []));
    this.element.replaceChildren(make('th', {scope: 'row'}, picture, name), ...cells);
  }

  async judge(judge) {
    const said = await judge.judge(this.doc).catch((fault) => ({verdict: faultText(fault)}));
    if (!said) return;
    Object.assign(this, {word: said.verdict, said: said.flaws ? said : null});
    this.show();
  }

  get grade() {
    return this.said && gradeIn(this.said);
  }

  /**
   * Whether its file has the picture as it is: it was neither repaired nor made of an image that
   * has it otherwise.
   */
  get isSaved() {
    return !this.repainted && !this.doc.isMade;
  }

  /** Whether a click on the row opens its picture. */
  get isOpened() {
    return this.doc !== null || this.convert !== null;
  }

  /** Whether a repair is looked for. */
  get isAmbiguous() {
    return this.doc !== null && this.word === 'ambiguous';
  }

  async mend(mender, judge) {
    const found = await mender.mend(this.doc);
    if (!found) return false;
    Object.assign(this, {doc: found.doc, word: '…', repainted: found.cells, said: null});
    await this.judge(judge);
    return true;
  }

  get facts() {
    return {
      verdict: ['unique', 'ambiguous', 'undecided'].includes(this.word) ? this.word : null,
      grade: this.grade?.word ?? null
    };
  }
}
