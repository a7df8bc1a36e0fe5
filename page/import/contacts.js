// A contact sheet of an image: puzzles of some sizes and numbers of colours, each with its verdict
// and grade; one click takes one.

import {make} from '../base/elements.js';
import {gradeName, verdictName} from '../base/names.js';
import {sizeText} from '../base/words.js';
import {MOST_CELLS} from '../document/limits.js';
import {drawSmall} from '../draw/small.js';
import {gradeIn} from '../engine/assessing.js';
import {Judge} from '../engine/judging.js';
import {phrase} from '../texts/phrase.js';
import {openDialog} from '../view/dialogs.js';
import {docApart} from './proposing.js';

const SIDES = [15, 20, 25, 30, 40];  // cells of the longer side
const COUNTS = [2, 3, 4, 6, 8, 12];  // of colours with the background
const SECONDS = 5;                   // for a verdict
const TILE = 120;                    // pixels of the screen

/** The sizes for a part of an image, its own one among them. */
export function sizesFor({width, height}, own) {
  const longer = Math.max(width, height);
  const sizes = SIDES.filter((side) => side <= MOST_CELLS)
                    .map(
                        (side) => [width, height].map(
                            (length) => Math.max(1, Math.round((length * side) / longer))
                        )
                    );
  const all = [...sizes, own].sort((one, other) => one[0] * one[1] - other[0] * other[1]);
  return all.filter((size, at) => all.findIndex((one) => one.join() === size.join()) === at);
}

/**
 * For a size the documents with some numbers of colours, of which no two look alike; each number
 * and each picture once. `docOf(size, colours)` makes one.
 */
export function docsFor(size, docOf, counts = COUNTS) {
  const [docs, shown] = [[], new Set()];
  for (const count of counts) {
    const {colours, doc} = docApart(count, (number) => docOf(size, number));
    const letters = [...new Set(`.${doc.picture.join('')}`
    )];  // as they appear: another palette makes no other picture
    const keys = [
      doc.colours.length,
      doc.picture.map((row) => Array.from(row, (letter) => letters.indexOf(letter))).join()
    ];
    if (keys.some((key) => shown.has(key))) continue;
    docs.push({size, colours, doc});
    for (const key of keys) shown.add(key);
  }
  return docs;
}

/** A tile of a sheet: a document with a text; `take` hears a click. Its verdict is told later. */
export function tileOf({doc}, text, take) {
  const canvas = make('canvas', {'aria-hidden': 'true'});
  drawSmall(canvas, doc, TILE);
  const verdict = make('span', {class: 'verdict'}, '…');
  const element = make(
      'button',
      {type: 'button', class: 'contact', onclick: take},
      canvas,
      make('span', {}, text),
      verdict
  );
  return {element, verdict};
}

/** Tells on a tile what the engine said. */
export function tellTile({verdict, element}, said) {
  const grade = gradeIn(said);
  verdict.textContent =
      [verdictName(said.verdict), grade ? gradeName(grade.word) : ''].filter(Boolean).join(', ');
  element.dataset.word = said.verdict;
}

const sizeAndColours = (doc) =>
    phrase('import.sizeColours', {size: sizeText(doc), colours: doc.colours.length});

/**
 * Shows the sheet, filled size by size; gives `{ size, colours }` of what was taken, or null.
 * `own`, of that form, is marked.
 */
export async function contactSheet(sizes, docOf, own) {
  const judge = new Judge({seconds: SECONDS});
  let taken = null;
  const counts = [...new Set([...COUNTS, own.colours])].sort((one, other) => one - other);
  const rows = make('div', {class: 'contacts'});
  const chosen = openDialog({
    title: phrase('import.contactSheet'),
    wide: true,
    content: rows,
    buttons: [{name: phrase('view.close'), value: null, main: true}]
  });
  const take = (one) => {
    taken = one;
    rows.closest('dialog').close();
  };
  const fill = async () => {
    const tiles = [];
    for (const size of sizes) {
      const some = docsFor(
                       size, docOf, counts
      ).map((one) => ({...one, ...tileOf(one, sizeAndColours(one.doc), () => take(one))}));
      if (size.join() === own.size.join())
        some.findLast(
                ({colours}) => colours <= own.colours
        )?.element.setAttribute('aria-current', 'true');
      rows.append(make(
          'div',
          {class: 'contact-row', role: 'group', 'aria-label': sizeText(some[0].doc)},
          ...some.map(({element}) => element)
      ));
      tiles.push(...some);
      await new Promise((go) => setTimeout(go));  // so that each row is seen at once
      if (judge.isEnded) return;
    }
    for (const tile of tiles) {
      const said = await judge.judge(tile.doc).catch(() => ({verdict: 'undecided', grade: null}));
      if (!said) return;
      tellTile(tile, said);
    }
  };
  const filled = fill();
  await chosen;
  judge.end();
  await filled;
  return taken;
}
