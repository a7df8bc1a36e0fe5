// Publish: one dialog for all exports. It shows the puzzle as a sheet, asks for title and author
// once, and leads to files, paper, a link and images.

import {fieldOf, make} from '../base/elements.js';
import {iconOf} from '../draw/icons.js';
import {bench} from '../engine/bench.js';
import {keepChoice, keptChoice} from '../texts/language.js';
import {phrase} from '../texts/phrase.js';
import {actions, addAction, runAction} from '../view/actions.js';
import {openDialog} from '../view/dialogs.js';
import {asSeen, heard} from '../view/tools.js';
import {firstSheet, notesOfPuzzle, puzzleOf} from './printing.js';

const AUTHOR = 'nonobench-author';  // as it was typed last
const TEXTS = ['title', 'author', 'copyright', 'description', 'note'];
const REST = 200;  // milliseconds between a key and the sheet with what was typed

// The exports by what they are for, with an icon each.
const EXPORTS = [
  [
    phrase('export.forSites'),
    ['export-xml', 'save'],
    ['export-site', 'save'],
    ['certificate', 'check']
  ],
  [phrase('export.forPlayers'), ['share', 'link'], ['print', 'print']],
  [
    phrase('export.asImage'),
    ['export-empty', 'picture'],
    ['export-picture', 'picture'],
    ['export-path', 'walk']
  ]
];
const MAIN_EXPORT = 'export-xml';

/** The author that is proposed: that of the last time, for a puzzle that has no texts yet. */
export const authorFor = (about) =>
    (TEXTS.some((name) => about[name]) ? about.author : keptChoice(AUTHOR)) ?? '';

/** Remembers an author for the next puzzle. */
export const keepAuthor = (author) => keepChoice(AUTHOR, author);

// The dialog's fields, as texts about the puzzle.
function textFields(about) {
  const field = (id, value, isFirst = false) =>
      make('input', {type: 'text', id, value: value ?? '', maxlength: '500', autofocus: isFirst});
  const [title, author] =
      [field('publish-title', about.title, true), field('publish-author', authorFor(about))];
  return {
    rows: [fieldOf(phrase('export.title'), title), fieldOf(phrase('export.author'), author)],
    texts: () => ({title: title.value.trim(), author: author.value.trim()})
  };
}

// Has the puzzle the texts of the dialog, if they are others.
async function take({title, author}) {
  const {about} = bench.state;
  keepAuthor(author);
  if ((about.title ?? '') === title && (about.author ?? '') === author) return;
  const texts = (old) =>
      Object.fromEntries(Object.entries({...old, title, author}).filter(([, text]) => text));
  await heard(bench.become((doc) => ({...doc, about: texts(doc.about)})));
}

// A button of the dialog that leads to an export, or to what mends the puzzle.
const buttonTo = (id, {isMain, choose}, ...parts) => make(
    'button',
    {
      type: 'button',
      class: isMain ? 'main' : null,
      'data-export': id,
      title: actions.get(id).hint,
      onclick: (event) => {
        choose(id);
        event.target.closest('dialog').close();
      }
    },
    ...parts,
    make('span', {}, actions.get(id).name)
);

// All exports, each group below its name.
const exportsBy = (button) => EXPORTS.flatMap(
    ([head, ...exports]
    ) => [make('h3', {}, head), ...exports.map(([id, icon]) => button(id, iconOf(icon)))]
);

const publish = () => asSeen(async (seen) => {
  const own = puzzleOf(seen);
  const isAmbiguous = own.verdict === 'ambiguous';
  const {rows, texts} = textFields(own.doc.about);
  const sheetNow = () =>
      firstSheet({...own, doc: {...own.doc, about: {...own.doc.about, ...texts()}}});
  const preview = make('figure', {class: 'preview', 'aria-hidden': 'true'}, sheetNow());
  let [chosen, timer] = [null, 0];
  const drawLater = () => {
    clearTimeout(timer);
    timer = setTimeout(() => preview.replaceChildren(sheetNow()), REST);
  };
  const choose = (id) => {
    chosen = id;
  };
  const main = isAmbiguous ? 'fix' : MAIN_EXPORT;
  const button = (id, ...parts) => buttonTo(id, {isMain: id === main, choose}, ...parts);
  const notes = [...notesOfPuzzle(own), ...(isAmbiguous ? [button('fix')] : [])];
  const side = make(
      'div',
      {class: 'rows'},
      make('div', {id: 'publish-notes', role: 'status', class: 'rows'}, ...notes),
      ...rows,
      make('div', {class: 'exports'}, ...exportsBy(button))
  );
  const done = await openDialog({
    title: phrase('export.publish'),
    wide: true,
    content: make('div', {class: 'publishing', oninput: drawLater}, preview, side),
    buttons: [{name: phrase('export.done'), value: true, main: true, isPlain: true}]
  });
  clearTimeout(timer);
  if (!done && !chosen) return;
  await take(texts());
  if (chosen) runAction(chosen);
});

/** Adds Publish to the menu File. */
export const startPublishing = () => addAction({
  id: 'publish',
  name: `${phrase('export.publish')} …`,
  place: 'file',
  group: 'export',
  run: publish
});
