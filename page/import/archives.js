// Archives of the library: all pictures as XML in one zip, and back.

import {say} from '../base/elements.js';
import {cleanName, freeName} from '../base/words.js';
import {webpbnText} from '../formats/webpbn.js';
import {ZipWriter, zipEntries} from '../formats/zip.js';
import {keep} from '../library/keep.js';
import {faultText, withClues} from '../library/open.js';
import {recordOfDoc} from '../library/records.js';
import {SAVE_TYPES, download} from '../library/saving.js';
import {phrase} from '../texts/phrase.js';
import {confirmDialog} from '../view/dialogs.js';
import {UNSEEN, withProgress} from '../view/progress.js';
import {asSeen} from '../view/tools.js';
import {grouped, puzzlesIn} from './beside.js';

const MANY = 200;  // files: more are asked for first

/**
 * A zip of records, each as an XML file, and of what else goes with them. Null where a record does
 * not open, which is reported, or where it is stopped.
 */
export async function archiveOf(records, others = [], start = undefined, progress = UNSEEN) {
  const [zip, taken] = [new ZipWriter(), new Map()];
  for (const other of others) zip.add(other);
  const add = ({name, doc, clues}) => zip.add({
    name: `${freeName(cleanName(name), taken)}.xml`,
    bytes: new TextEncoder().encode(webpbnText(doc, clues))
  });
  return (await withClues(records, start, progress, add)) && zip.bytes;
}

/**
 * Gives records to the user as an archive under a name, and says a text of it; answers whether
 * that was stopped.
 */
export const saveArchive = (records, {file, text, kind = '', others = []}) =>
    withProgress(phrase('import.saveAllZip'), async (progress) => {
      const bytes = await archiveOf(records, others, undefined, progress);
      if (!bytes) return progress.isStopped;
      download(bytes, file, SAVE_TYPES.zip.type);
      say(text, kind, null, true);
      return false;
    });

/**
 * All pictures of the library, null where one is damaged; the open one is as it is seen, also
 * where the storage does not take that.
 */
export async function allRecords() {
  const keeper = await keep.ready();
  await asSeen();
  await keep.now();
  const [own, cards] = [keep.atHand(), await keeper.cards()];
  const others = cards.filter(({id}) => id !== own?.id).map(({id}) => keeper.record(id));
  return Promise.all([...(own ? [own] : []), ...others]);
}

/** Gives all pictures of the library to the user as one archive. */
export const exportAll = () => keep.tried(async () => {
  const records = await allRecords();
  const sound = records.filter(Boolean);
  if (!sound.length) return say(phrase('import.libraryNoPictures'));
  const ones = records.length - sound.length;
  return saveArchive(sound, {
    file: 'nonobench library.zip',
    text: phrase(
        'import.picturesSavedNonobenchLibrary',
        {pictures: sound.length, count: ones ? phrase('import.onesLeftOut', {ones}) : ''}
    ),
    kind: ones ? 'alarm' : ''
  });
});

// The files of an archive by their folders, as grouped() takes them. Each is unpacked when it is
// read, so they are not in memory together.
function foldersOf(entries) {
  const folders = new Map();
  for (const {name: path, size, read} of entries) {
    const from = path.lastIndexOf('/') + 1;
    const folder = path.slice(0, from);
    folders.set(folder, folders.get(folder) ?? [])
        .get(folder)
        .push({path, name: path.slice(from), size, arrayBuffer: read});
  }
  return [...folders.values()];
}

const filesIn = (bytes) => zipEntries(bytes).filter(({name}) => !name.endsWith('/'));

/**
 * The documents of an archive as `{ docs: [{ name, doc }], unread: [name], why }`, where `why` is
 * what is wrong with the first unread. `progress` hears how far it is, and answers whether to go
 * on.
 */
export async function readArchive(bytes, progress = UNSEEN) {
  const [docs, unread] = [[], new Set()];
  let why = '';
  for await (const {name, file, doc, fault} of puzzlesIn(
      foldersOf(filesIn(bytes)).flatMap((files) => grouped(files)), progress
  )) {
    if (doc)
      docs.push({name, doc});
    else
      unread.add(file.path);
    if (fault) why ||= faultText(fault);
  }
  return {docs, unread: [...unread], why};
}

// Adds documents to the library, but for those that are there: how many were added, and how many
// were known.
async function addAll(docs, progress) {
  const keeper = await keep.ready();
  const take = keeper.takerOf(
      await keeper.cards(), webpbnText
  );  // each of them is one picture of the archive at most
  let [added, known] = [0, 0];
  for (const {name: title, doc} of docs) {
    if (!(await progress.goesOn(phrase('import.picturesAddedOf', {at: added, count: docs.length}))))
      break;
    if (await take(doc))
      known++;
    else if (await keeper.put(recordOfDoc(doc, title, !doc.isMade)))
      added++;
    else
      break;
  }
  return {added, known};
}

/**
 * Whether so many files or puzzles may go to the library: of many the user is asked first, by a
 * title.
 */
export const mayAdd = async (count, name, title) => count <= MANY ||
    confirmDialog(title, phrase('import.pictureGoesLibrary', {name}), phrase('import.addLibrary'));

/**
 * Adds the pictures of an archive to the library, but for those that are there; of many files the
 * user is asked first. Answers how many of it are there then.
 */
export async function takeArchive(bytes, name) {
  const files = filesIn(bytes).length;
  if (!(await mayAdd(files, name, phrase('import.addManyFiles', {files})))) return 0;
  return withProgress(phrase('import.opening', {name}), async (progress) => {
    const {docs, unread, why} = await readArchive(bytes, progress);
    const {added, known} = await addAll(docs, progress);
    tellAdded(name, {docs, unread, why, added, known, isStopped: progress.isStopped});
    return added + known;
  });
}

// Says what came of an archive. Where the library took no more, it has said why.
function tellAdded(name, {docs, unread, why, added, known, isStopped}) {
  const missing = docs.length - added - known;
  if (missing && !isStopped) return;
  const left = [
    known ? phrase('import.picturesThereAlready', {pictures: known}) : '',
    unread.length ? phrase('import.filesNotRead', {files: unread.length}) +
            (why && `: ${why.replace(/\.$/, '')}`) :
                    '',
    missing ? phrase('import.picturesNotTaken', {pictures: missing}) : '',
    isStopped ? phrase('import.stopped') : ''
  ].filter(Boolean).join(', ');
  say(phrase('import.picturesFromArchive', {name, pictures: added, left: left ? `; ${left}` : ''}),
      unread.length || isStopped ? 'alarm' : '',
      null,
      true);
}
