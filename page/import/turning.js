// Two colours by segments in the dialog for pictures: a swatch for each colour of the image, which
// a click turns from paper to ink and back; and a sheet of the best six choices.

import {buttonOf, make} from '../base/elements.js';
import {hexOf, inkOn} from '../document/colours.js';
import {nameOf} from '../document/names.js';
import {iconOf} from '../draw/icons.js';
import {Judge} from '../engine/judging.js';
import {phrase} from '../texts/phrase.js';
import {openDialog} from '../view/dialogs.js';
import {tellTile, tileOf} from './contacts.js';
import {
  CANDIDATES,
  SHOWN,
  bestOf,
  docInTwo,
  rankedChoices,
  segmentsOf,
  sidesNear
} from './segments.js';

const SECONDS = 5;  // for a verdict

export class Turning {
  changed;
  doc;

  /** `changed` hears each turn, and `best` the button for the best six. */
  constructor(changed, best) {
    Object.assign(this, {changed, sides: new Map(), doc: null});
    this.row = make('div', {
      class: 'swatches',
      role: 'group',
      'aria-label': phrase('import.inkOrPaper'),
      id: 'import-segments-row'
    });
    this.text = make('output', {class: 'faint'}, phrase('import.turnSwatch'));
    this.button = buttonOf('import-best', phrase('import.bestSix'), best);
    this.element = make('div', {class: 'inks'}, this.row, this.text);
  }

  /**
   * From here on these colours of a document are ink. What is shown and turned is of this document
   * and these sides alone.
   */
  choose(doc, isInk) {
    this.doc = doc;
    this.sides = new Map(segmentsOf(doc).map((triple, at) => [triple.join(), Boolean(isInk[at])]));
  }

  // Whether each colour of the document is ink.
  get isInk() {
    return segmentsOf(this.doc).map((triple) => this.sides.get(triple.join()));
  }

  /**
   * The document in two colours of one in several; `options` are those of docInTwo. With a colour
   * that was not there before, all are chosen anew: that which keeps most edges.
   */
  docOf(doc, options) {
    const isKnown = segmentsOf(doc).every((triple) => this.sides.has(triple.join()));
    if (isKnown)
      this.doc = doc;
    else
      this.choose(doc, rankedChoices(doc, 1)[0] ?? []);
    return docInTwo(doc, this.isInk, options);
  }

  /**
   * As docOf, of a sketch, whose colours are not quite those of the document: each is on the side
   * of the nearest one, and the choice stays as it is.
   */
  sketchOf(doc, options) {
    return docInTwo(doc, sidesNear(doc, this.sides), options);
  }

  turn(at) {
    this.choose(this.doc, this.isInk.map((one, place) => (place === at ? !one : one)));
    this.changed();
  }

  /** Shows the swatches of the document that is turned. */
  show() {
    if (!this.doc) return;
    const {isInk, doc: {colours, isClear = false}} = this;
    // The buttons stay, so that one that is pressed is there still when it is let go.
    while (this.row.children.length > colours.length) this.row.lastChild.remove();
    for (let at = this.row.children.length; at < colours.length; at++)
      this.row.append(make('button', {type: 'button', onclick: () => this.turn(at)}));
    for (const [at, triple] of colours.entries()) {
      const button = this.row.children[at];
      button.style.background = hexOf(triple, 255);
      button.style.color = inkOn(triple, 255);
      button.replaceChildren(iconOf(isInk[at] ? 'box' : 'rectangle'));
      button.disabled = isClear && at === 0;
      button.setAttribute('aria-pressed', isInk[at]);
      button.title =
          phrase(isInk[at] ? 'import.isInk' : 'import.isPaper', {name: nameOf(triple, 255)});
      button.setAttribute('aria-label', button.title);
    }
  }

  /** Lets the user choose among the best six of a document; a card is taken as it is clicked. */
  askBest(doc, options, taken) {
    const choices = rankedChoices(
                        doc, CANDIDATES
    ).map((isInk) => ({isInk, doc: docInTwo(doc, isInk, options)}));
    return bestSheet(choices, (isInk) => {
      this.choose(doc, isInk);
      taken();
    });
  }
}

// The sheet of the best of some choices, each with its verdict; `take` hears which one is clicked.
// Each card has its place from the start, so that none moves while others are judged.
async function bestSheet(choices, take) {
  const judge = new Judge({seconds: SECONDS});
  const places = choices.slice(0, SHOWN).map(awaited);
  const row = make('div', {class: 'contact-row', role: 'group', id: 'best-six'}, ...places);
  const count = make('p', {role: 'status'}, phrase('import.lookingAnotherSolution'));
  const closed = openDialog({
    title: phrase('import.bestSixTitle'),
    wide: true,
    content: make('div', {class: 'contacts'}, count, row),
    buttons: [{name: phrase('view.close'), value: null, main: true}]
  });
  const show = ({doc, said}) => {
    const tile = tileOf({doc}, phrase('import.inkShare', {share: shareOf(doc)}), () => {
      take(choices.find((one) => one.doc === doc).isInk);
      row.closest('dialog').close();
    });
    tellTile(tile, said);
    places.shift().replaceWith(tile.element);
  };
  const judged = (doc) => judge.judge(doc).catch(() => ({verdict: 'undecided', grade: null}));
  bestOf(choices.map(({doc}) => doc), judged, show).then((best) => {
    count.textContent = phrase('import.bestFirst', {pictures: best.length});
  });
  await closed;
  judge.end();
}

// A card's room, until it comes.
function awaited({doc}) {
  const {element} = tileOf({doc}, '…', null);
  element.classList.add('awaited');
  return element;
}

const shareOf = ({picture, rows, columns}) =>
    Math.round(((picture.join('').split('a').length - 1) * 100) / (rows * columns));
