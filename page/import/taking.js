// Files that come in by choice, drop or paste: read by the browser alone, bounded, and opened as
// documents. A picture with too many cells or colours goes through the dialog of importing.js.

import {chooseFiles, say} from '../base/elements.js';
import {tell} from '../base/events.js';
import {bareName} from '../base/words.js';
import {FileFault} from '../document/limits.js';
import {startEngine} from '../engine/client.js';
import {kindOfPalette} from '../formats/palettes.js';
import {MOST_BYTES_READ} from '../formats/ppm.js';
import {keep} from '../library/keep.js';
import {faultText, openDoc} from '../library/open.js';
import {recordOfDoc} from '../library/records.js';
import {phrase} from '../texts/phrase.js';
import {isTyping} from '../view/actions.js';
import {openDialogs} from '../view/dialogs.js';
import {Progress, withProgress} from '../view/progress.js';
import {mayAdd, takeArchive} from './archives.js';
import {MOST_AT_ONCE, grouped} from './beside.js';
import {takeCertificate} from './certificates.js';
import {HEAD, IMAGES, MOST_IMAGE, imageOfFile, mustHold} from './decoding.js';
import {unitsIn} from './folders.js';
import {kindOfFile} from './images.js';
import {importImage, takesPalette} from './importing.js';
import {takePalette} from './palettes.js';
import {docAmongSeveral} from './proposing.js';
import {NOT_READ, aboutNon, docOfNon, isNonText, readPpmFile, readXmlFile} from './reading.js';
import {takeSeveral} from './several.js';

/** What a chooser of files offers. */
export const TAKEN_KINDS =
    '.ppm,.pnm,.pbm,.non,.xml,.givens,.background,.cert,.zip,.gpl,.pal,.hex,.png,.jpg,.jpeg,.gif,.webp,.bmp,.avif,.svg,image/*';
const MOST_ARCHIVE = 1 << 30;  // bytes

/** Takes a file (or a blob that was pasted); `handle` is the browser's own for writing it again. */
export async function takeFile(file, handle = null) {
  say('');  // what was said of another file
  try {
    const head = new Uint8Array(await file.slice(0, HEAD).arrayBuffer());
    const kind = kindOfFile(head);
    mustHold(file, kind === 'zip' ? MOST_ARCHIVE : IMAGES.has(kind) ? MOST_IMAGE : MOST_BYTES_READ);
    if (IMAGES.has(kind)) {
      say(phrase('import.opening', {name: bareName(file.name)}));  // a large one takes a while
      const image = await imageOfFile(file, head, kind);
      say('');
      return await importImage(image, bareName(file.name));
    }
    return await takeBytes(new Uint8Array(await file.arrayBuffer()), file, handle);
  } catch (fault) {
    say(phrase('import.couldNotOpened', {
          name: file.name ? phrase('import.quoted', {name: file.name}) :
                            phrase('import.whatPasted'),
          fault: faultText(fault)
        }),
        'alarm');
    return false;
  }
}

async function takeBytes(bytes, file, handle) {
  const kind = kindOfFile(bytes);
  const name = bareName(file.name);
  const text = () => new TextDecoder().decode(bytes);
  if (kind === 'ppm') return takePpm(bytes, name, handle);
  if (kind === 'xml') return takeXml(text(), name, handle);
  if (kind === 'non' && kindOfPalette(text())) return takePalette(text(), file.name ?? 'palette');
  if (kind === 'non') return takeNon(text(), name, handle);
  if (kind === 'cert') return takeCertificate(bytes, file.name ?? 'certificate');
  if (kind === 'zip') {
    await takeArchive(bytes, file.name ?? 'archive');
    tell('library', null);
    return true;
  }
  throw new FileFault(NOT_READ);
}

async function takePpm(bytes, name, handle) {
  const {image, isText, doc} = readPpmFile(bytes);
  return doc ? openDoc(doc, {name, handle: isText ? handle : null, form: isText ? 'ppm' : 'xml'}) :
               importImage(image, name);
}

// A set of several puzzles: the first is opened, the others go to the library.
async function takeXml(text, name, handle) {
  const [first, ...others] = readXmlFile(text);
  if (first.fault) throw first.fault;
  const isOpen = first.non ?
      await openNon(first.non, name, first.page) :
      await openDoc(first.doc, {name, handle: others.length ? null : handle, form: 'xml'});
  const title = phrase('import.addManyPuzzles', {puzzles: others.length});
  if (!isOpen || !others.length || !(await mayAdd(others.length, name, title))) return isOpen;
  const keeper = await keep.ready();
  let added = 0;
  for (const [at, {doc}] of others.entries()) {
    if (doc && await keeper.put(recordOfDoc(doc, doc.about.title || `${name} ${at + 2}`, true)))
      added++;
  }
  const left = others.length - added;
  say(phrase('import.firstPuzzlesOpenOthers', {
        count: others.length + 1,
        others: added,
        left: left ? phrase('import.othersNotRead', {left}) : ''
      }),
      left ? 'alarm' : '');
  return isOpen;
}

function takeNon(text, name, handle) {
  if (!isNonText(text)) throw new FileFault(NOT_READ);
  return openNon(text, name, {about: aboutNon(text)}, handle);
}

// Of clues without a goal a picture is searched for, in a worker of its own, which the user can
// stop.
async function openNon(text, name, page, handle = null) {
  const doc = await withProgress(
      phrase('import.opening', {name}),
      (progress) => docOfNon(text, page, progress.held(startEngine())),
      phrase('import.searchingPictureTheseClues')
  );
  return openDoc(doc, {name, handle, form: 'non'});
}

/**
 * Lets the user choose files: one opens, with a handle to write it again where the browser gives
 * one; several come as a table.
 */
export async function chooseFile() {
  if (globalThis.showOpenFilePicker) {
    try {
      const handles = await showOpenFilePicker({multiple: true});
      const files = await Promise.all(handles.map((handle) => handle.getFile()));
      return takeAll(files, handles[0]);
    } catch (fault) {
      if (fault.name === 'AbortError') return false;
    }
  }
  chooseFiles(TAKEN_KINDS, takeAll, true);
  return true;
}

// One file is opened, several come as a table.
const takeAll = (files, handle = null) =>
    (files.length > 1 ? takeSeveral(grouped(files, MOST_AT_ONCE), imageDocs, takeFile) :
                        files.length === 1 && takeFile(files[0], handle));

// A dialog that is open gives way to a file: it is left as by Cancel.
async function closeDialogs() {
  for (const dialog of openDialogs()) {
    const closed = new Promise((go) => dialog.addEventListener('close', go, {once: true}));
    dialog.close();
    await closed;
  }
}

async function takeDropped(files, handle) {
  if (files.length === 1 && await takesPalette(files[0])) return true;
  await closeDialogs();
  return takeAll(files, handle);
}

/**
 * The document of an image file that needs no dialog, none of a large one; null for a file that is
 * no image.
 */
export async function imageDocs(file, bytes, ground) {
  const kind = kindOfFile(bytes);
  if (!IMAGES.has(kind)) return null;
  const image = await imageOfFile(file, bytes, kind);
  const doc = docAmongSeveral(image, ground && (await ground(image, 255)));
  return doc ? [doc] : [];
}

// A file that is dragged over the page may be dropped. Both events are taken: where what is under
// the pointer changes, a browser asks by the first, and would refuse the drop behind it.
function hearDragging() {
  for (const name of /** @type {['dragenter', 'dragover']} */ (['dragenter', 'dragover']))
    addEventListener(name, (event) => {
      if (![...event.dataTransfer.types].includes('Files')) return;
      event.preventDefault();
      event.dataTransfer.dropEffect = 'copy';
      document.body.classList.add('dropping');
    });
  addEventListener('dragleave', (event) => {
    if (!event.relatedTarget) document.body.classList.remove('dropping');
  });
}

async function takeFolders(folders, files) {
  const {name} = folders.find((entry) => entry?.isDirectory);
  const progress = new Progress(phrase('import.opening', {name}));
  const units = await unitsIn(folders, files, progress).catch(() => null);
  progress.end();
  if (!units) say(phrase('import.folderNotRead'), 'alarm');
  if (!units || progress.isStopped) return;
  await closeDialogs();
  await takeSeveral(units, imageDocs, takeFile);
}

async function hearDrop(event) {
  document.body.classList.remove('dropping');
  const items = [...event.dataTransfer.items].filter((one) => one.kind === 'file');
  if (!items.length) return;
  event.preventDefault();  // else the browser would leave the page for the file
  const folders = items.map((item) => item.webkitGetAsEntry?.() ?? null);
  const files = items.map((item) => item.getAsFile());
  if (folders.some((entry) => entry?.isDirectory)) {
    await takeFolders(folders, files);
    return;
  }
  // the file itself is there already
  const late = new Promise((go) => setTimeout(go, 1000, null));
  const handle = await Promise.race([late, items[0].getAsFileSystemHandle?.().catch(() => null)]);
  takeDropped(files, handle?.kind === 'file' ? handle : null);
}

// Whether a text begins like a puzzle.
const isLikePuzzle = (text) =>
    /^\s*(P3\s|<\?xml|<puzzle|<svg[\s>]|nonocert|nonolemma)/.test(text) ||
    /^width [0-9]/m.test(text);

function hearPaste(/** @type {any} */ event) {
  const file = [...event.clipboardData.files][0];
  const text = event.clipboardData.getData('text/plain');
  if (isTyping(event.target) && (!file || text)) return;  // a field takes a text itself
  if (file)
    takeDropped([file], null);
  else if (isLikePuzzle(text))
    takeDropped([new File([text], 'pasted')], null);
  else if (text && !event.defaultPrevented)
    say(phrase('import.couldNotOpened', {name: phrase('import.whatPasted'), fault: NOT_READ}),
        'alarm');
  else
    return;
  event.preventDefault();
}

/** Hears files that are dropped or pasted anywhere, and puzzles that are pasted as texts. */
export function hearFiles() {
  hearDragging();
  addEventListener('drop', hearDrop);
  addEventListener('paste', hearPaste);
}
