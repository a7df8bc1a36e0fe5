// Saving: Ctrl+S writes the document under the file's name, by the browser's file access where it
// has one, else as a download. A new document is saved as Web Paint-by-Number's XML, which holds
// all of it; what was opened as PPM or .non is saved as that.

import {$, choiceOf, fieldOf, make, say, write} from '../base/elements.js';
import {behindFrame, on} from '../base/events.js';
import {bareName} from '../base/words.js';
import {docOf, eightBitDoc, isLocked, unlocked} from '../document/document.js';
import {hasUnused, withoutUnused} from '../document/used.js';
import {bench} from '../engine/bench.js';
import {leftOutOfPpm, ppmTextOf} from '../formats/ppm_notes.js';
import {leavesOut, webpbnText} from '../formats/webpbn.js';
import {phrase} from '../texts/phrase.js';
import {openDialog} from '../view/dialogs.js';
import {asSeen, whileOpen} from '../view/tools.js';
import {keep} from './keep.js';

export const saving = {
  handle: null,
  form: 'xml',
  asks: true
};  // whether it asks before an unsaved picture is left
export const SAVE_TYPES = {
  xml: {type: 'application/xml', ending: '.xml', what: phrase('library.webPaintNumberXml')},
  ppm: {
    type: 'image/x-portable-pixmap',
    ending: '.ppm',
    what: phrase('library.plainPpmPictureRest')
  },
  non: {type: 'text/plain', ending: '.non', what: phrase('library.nonTwoColourPuzzle')},
  cert: {type: 'text/plain', ending: '.cert'},
  svg: {type: 'image/svg+xml', ending: '.svg'},
  png: {type: 'image/png', ending: '.png'},
  gif: {type: 'image/gif', ending: '.gif'},
  zip: {type: 'application/zip', ending: '.zip'},
};
const DOCUMENT_FORMS = ['xml', 'ppm', 'non'];

/** Gives a text or blob to the user as a download. */
export function download(content, file, type) {
  const link = make('a', {
    href: URL.createObjectURL(content instanceof Blob ? content : new Blob([content], {type})),
    download: file
  });
  link.click();
  setTimeout(() => URL.revokeObjectURL(link.href), 10000);
}

async function writeHandle(handle, content) {
  const stream = await handle.createWritable();
  await stream.write(content);
  await stream.close();
}

// The lines of a .non text that say what the puzzle is. The format has no way to write a double
// quote.
const nonHead = ({title, author, copyright}
) => [['title', title], ['by', author], ['copyright', copyright]]
         .filter(([, text]) => text)
         .map(([word, text]) => `${word} "${text.replaceAll('"', '\'').replace(/\s+/g, ' ')}"\n`)
         .join('');

// A document whose title is the file's name where it has none.
const titled = (doc, name) =>
    (doc.about.title ? doc : {...doc, about: {...doc.about, title: name}});

/**
 * The text of what is seen in one of the forms that hold it, for others without what is locked and
 * without colours that no cell has; or null, reported, where it has none.
 */
async function textAs(form, {state, term, name}, forOthers = false) {
  const {doc, clues} = forOthers ? withoutUnused(unlocked(docOf(state)), state.clues) :
                                   {doc: state, clues: state.clues};
  if (form === 'ppm') return ppmTextOf(eightBitDoc(doc));
  if (form === 'xml') return webpbnText(forOthers ? titled(doc, name) : doc, clues);
  const [answer] = bench.term === term ? await bench.ask('write non').catch(() => []) : [];
  if (answer?.kind === 'text') return nonHead(state.about) + answer.text;
  say(answer?.name === 'TwoColoursOnly' ?
          phrase('view.notDone', {meaning: phrase('view.nonPuzzleOneColour')}) :
          phrase('library.nonTextNotMade'),
      'alarm');
  return null;
}

// What a .non text has no place for, in words.
function leftOutOfNon(doc) {
  const {colours, inks, about} = eightBitDoc(doc);
  return [
    String(colours) === '255,255,255,0,0,0' ? '' : phrase('library.colours'),
    doc.givens.size ? phrase('library.givenCells') : '',
    isLocked(doc) ? phrase('library.locked') : '',
    inks.some((ink) => ink?.name && !['white', 'black'].includes(ink.name)) ?
        phrase('library.namesColours') :
        '',
    ['authorid', 'description', 'id', 'note'].some((name) => about[name]) ?
        phrase('library.description') :
        '',
  ].filter(Boolean
  ).join(', ');
}

/** What a form has no place for of a document, in words; '' where it holds all of it. */
function leftOut(form, doc) {
  if (form === 'xml') return leavesOut(doc) ? phrase('library.solutionsDoNotFit') : '';
  return form === 'ppm' ? leftOutOfPpm(doc) : leftOutOfNon(doc);
}

// A puzzle that was opened as .non and has become more than that is saved as XML.
function checkForm() {
  if (saving.form === 'non' && leftOutOfNon(bench.state))
    Object.assign(saving, {form: 'xml', handle: null});
}

/** Saves where it was saved before, else asks where. */
export const save = () => asSeen(async (seen) => {
  checkForm();
  const {handle, form} = saving;
  if (!handle) return globalThis.showSaveFilePicker ? saveByPicker(seen) : saveDownload(form, seen);
  const content = await textAs(form, seen);
  if (content === null) return false;
  try {
    await writeHandle(handle, content);
  } catch (fault) {
    say(phrase('library.notWritten', {name: handle.name, message: fault.message}), 'alarm');
    return false;
  }
  saved(seen, handle.name, form);
  return true;
});

/**
 * Notes that a file has what was seen, and says so; what the file has no place for is reported, and
 * is not saved by that.
 */
function saved({state, term}, file, form, {more = '', forOthers = false} = {}) {
  const lost = leftOut(form, state);
  const locked = forOthers && form !== 'non' && isLocked(state) ? phrase('library.locked') : '';
  const without = [lost, locked].filter(Boolean).join(', ');
  const isWhole = !without && !(forOthers && hasUnused(state));
  if (isWhole && bench.term === term) bench.saved(docOf(state));
  keep.now();
  showFileName();
  say(without ? phrase('library.savedWithoutXmlKeeps', {file, without}) + more :
                phrase('library.saved', {file, more}),
      lost || more ? 'alarm' : '');
}

const formOfFile = (name) =>
    (/\.(ppm|pnm)$/i.test(name) ? 'ppm' :
         /\.non$/i.test(name)   ? 'non' :
                                  'xml');

async function saveByPicker(seen) {
  const forms = [saving.form, ...DOCUMENT_FORMS.filter((one) => one !== saving.form)];
  const types = forms.map((form) => ({
                            description: SAVE_TYPES[form].what,
                            accept: {[SAVE_TYPES[form].type]: [SAVE_TYPES[form].ending]}
                          }));
  try {
    const handle =
        await showSaveFilePicker({suggestedName: seen.name + SAVE_TYPES[saving.form].ending, types}
        );
    const form = formOfFile(handle.name);
    const content = await textAs(form, seen);
    if (content === null) return false;
    await writeHandle(handle, content);
    if (bench.term === seen.term) {
      Object.assign(saving, {handle, form});
      keep.named(bareName(handle.name));
    }
    saved(seen, handle.name, form);
    return true;
  } catch (fault) {
    return fault.name === 'AbortError' ? false : saveDownload(forms[0], seen);
  }
}

/**
 * Saves what is seen in a form as a download, and tells `more` with it; `forOthers` has nothing
 * that is locked. Says whether it did.
 */
export async function saveDownload(form, seen, how = {}) {
  const {type, ending} = SAVE_TYPES[form];
  const content = await textAs(form, seen, how.forOthers);
  if (content === null) return false;
  download(content, seen.name + ending, type);
  saved(seen, seen.name + ending, form, how);
  return true;
}

/** Saves under a name and in a form that are chosen. */
export const saveAs = () => asSeen(async (seen) => {
  checkForm();
  if (globalThis.showSaveFilePicker) return saveByPicker(seen);
  const name = make('input', {type: 'text', value: seen.name, maxlength: '80'});
  const form = choiceOf({}, DOCUMENT_FORMS.map((one) => [one, SAVE_TYPES[one].what]), saving.form);
  const content = make(
      'div',
      {class: 'rows'},
      fieldOf(phrase('view.name'), name),
      fieldOf(phrase('library.form'), form)
  );
  if (!(await whileOpen(openDialog({
        title: phrase('library.saveAs'),
        content,
        buttons: [{name: phrase('library.save'), value: true, main: true}]
      }))))
    return false;
  keep.named(bareName(name.value));
  saving.form = form.value;
  return saveDownload(form.value, {...seen, name: bench.name});
});

/**
 * Writes something beside a document: a download under its name. `more` is what is to be told with
 * it.
 */
export function exportAs(name, form, content, suffix = '', more = '') {
  const file = name + suffix + SAVE_TYPES[form].ending;
  download(content, file, SAVE_TYPES[form].type);
  say(phrase('library.saved', {file, more}), more ? 'alarm' : '');
}

/** Shows the document's name, and whether it is in a file. */
export function showFileName() {
  const isOpen = bench.state !== null;
  const {isSaved} = bench;
  const where = isSaved ? '' :
      keep.isKept       ? phrase('library.libraryNotFile') :
                          phrase('library.notKept');
  write($('title'), isOpen ? bench.name + where : '');
  document.title = isOpen ? `${isSaved ? '' : '• '}${bench.name} – nonobench` : 'nonobench';
}

const tellFileName = behindFrame(showFileName);

/** Keeps each stroke, shows the name, and asks before an unsaved picture is left. */
export function startSaving() {
  on('shown', () => {
    keep.changed();
    tellFileName();
  });
  for (const name of ['judged', 'graded']) on(name, () => keep.now({mayRest: true}));
  for (const name of ['opened', 'kept']) on(name, showFileName);  // of another picture at once
  addEventListener('beforeunload', (event) => {
    if (!bench.state || bench.isSaved || !saving.asks) return;
    event.preventDefault();
    event.returnValue = 'unsaved';  // what older browsers ask for
  });
  // A tab that goes to the background may be ended without a further word.
  addEventListener('visibilitychange', () => {
    if (document.visibilityState === 'hidden' && !bench.isSaved) keep.now();
  });
}
