// What lies beside a picture and goes with it: it is called as the picture, with one ending more,
// as heart.ppm.givens and heart.ppm.background are. heart.ppm.cert goes with it too, and is not
// checked here; nor is heart.ppm.txt, which says what the engine said of it.

import {bareName} from '../base/words.js';
import {FileFault} from '../document/limits.js';
import {MOST_BYTES_READ} from '../formats/ppm.js';
import {readGivens, readGround} from '../formats/published.js';
import {faultText} from '../library/open.js';
import {phrase} from '../texts/phrase.js';
import {mustHold} from './decoding.js';
import {docOfPuzzle, docsOfBytes} from './reading.js';

/** Files that are taken at once, folders that are looked into for them, and puzzles in a table. */
export const MOST_AT_ONCE = 2000;

const PICTURES = /\.(p[pgbn]m|png|gif|bmp|webp|non|xml|avif|svg|jpe?g)$/i;
const BESIDE = /\.(givens|background|cert)$/;

const isPicture = (file) => !file.isDirectory && PICTURES.test(file.name);
const isBeside = (file) => !file.isDirectory && BESIDE.test(file.name);

// A picture with what goes with it. If several files have one name, it is not known which of them
// go together.
function unitOf(file, named) {
  const found = ['givens', 'background', 'cert', 'txt'].map(
      (ending) => named.get(`${file.name}.${ending}`) ?? []
  );
  const [[givens], [background]] = found;
  const beside = found.flat();
  const isClear =
      !beside.length || [named.get(file.name), ...found].every(({length}) => length < 2);
  return {file, givens, background, beside, fault: isClear ? '' : phrase('import.severalOfName')};
}

// A file with such an ending that is of no picture: how it would have to be called.
const strayOf = (file) =>
    ({file, beside: [], fault: phrase('import.callIt', {ending: BESIDE.exec(file.name)[0]})});

/**
 * The files of one folder as units `{ file, givens, background, beside, fault }`: each with those
 * that go with it, and with what is wrong with their names; no more than `most`.
 */
export function grouped(files, most = files.length) {
  const named = new Map();
  for (const file of files.filter(({isDirectory}) => !isDirectory)) {
    const twins = named.get(file.name) ?? [];
    // Two are enough to say that it is not known which of them go together.
    if (twins.length < 2) named.set(file.name, [...twins, file]);
  }
  const all = files.filter(
                       (file) => !isBeside(file)
  ).slice(0, most).map((file) => (isPicture(file) ? unitOf(file, named) : {file, beside: []}));
  const used = new Set(all.flatMap(({beside}) => beside));
  const strays = files.filter((file) => isBeside(file) && !used.has(file));
  return [...all.filter(({file}) => !used.has(file)), ...strays.map(strayOf)].slice(0, most);
}

/** Whether a certificate goes with the file of a unit. */
export const hasCertificate = ({beside}) => beside.some(({name}) => name.endsWith('.cert'));

async function bytesOf(file) {
  mustHold(file, MOST_BYTES_READ);
  return new Uint8Array(await file.arrayBuffer());
}

const textOf = async (file) => new TextDecoder('latin1').decode(await bytesOf(file));

// What comes of a file beside a picture; what is wrong names the file.
async function naming(file, work) {
  try {
    return await work();
  } catch (fault) {
    throw new FileFault(
        phrase('import.fileNotRead', {name: file.name, fault: faultText(fault).replace(/\.$/, '')})
    );
  }
}

/**
 * The documents of a unit as `{ docs, left }`. What lies beside the file holds in place of what the
 * file itself tells. Of several puzzles in a file each tells it itself: then that is `left`, and
 * the puzzles are as docsOfBytes gives them. `imageDocs(file, bytes, ground)` gives the documents
 * of an image, or null where the file is none.
 */
export async function docsOfUnit(
    {file, fault, givens, background}, imageDocs = async (..._image) => null, progress = null
) {
  if (fault) throw new FileFault(fault);
  const read =
      background && (await naming(background, async () => readGround(await textOf(background))));
  const ground = read ? (image, maxval) => naming(background, () => read(image, maxval)) : null;
  const bytes = await bytesOf(file);
  const docs =
      (await imageDocs(file, bytes, ground)) ?? (await docsOfBytes(bytes, ground, progress));
  if (docs.length > 1) return {docs, left: [givens, background].filter(Boolean)};
  if (docs.length && givens)
    docs[0] = {
      ...docs[0],
      givens: await naming(givens, async () => readGivens(await textOf(givens), docs[0]))
    };
  return {docs, left: []};
}

// The puzzles of a unit, as puzzlesIn gives them: from the one on that `isOver`, they are left out.
async function* puzzlesOf(unit, progress, imageDocs, isOver) {
  const {file} = unit;
  const own = bareName(file.name);
  const {docs, left} = await docsOfUnit(unit, imageDocs, progress);
  if (!docs.length)
    throw Object.assign(new FileFault(phrase('import.notPuzzleImageScaled')), {isImage: true});
  for (const [at, one] of docs.entries()) {
    if (at && !(await progress.goesOn(phrase('import.certificateSays', {
          name: own,
          text: phrase('import.ofAll', {count: at, all: docs.length})
        }))))
      return;
    if (isOver(one)) {
      yield {
        name: own,
        file,
        fault: new FileFault(phrase('import.othersLeftOut', {most: MOST_AT_ONCE}))
      };
      break;
    }
    const name = at ? `${own} ${at + 1}` : own;
    yield await docOfPuzzle(
        one, progress
    ).then((doc) => ({name, file, doc}), (fault) => ({name, file, fault}));
  }
  for (const other of left)
    yield {name: other.name, file: other, fault: new FileFault(phrase('import.noPictureGoes'))};
}

/**
 * The puzzles of units one after the other, until the user stops it: each as `{ name, file, doc }`,
 * and what is not read as `{ name, file, fault }`, where the fault of an image for the dialog says
 * `isImage`. With `imageDocs`, as for a table, there are 2,000 at most; without, as
 * many whose picture is searched for.
 * @returns {AsyncGenerator<any>}
 */
export async function* puzzlesIn(units, progress, imageDocs = undefined) {
  let room = MOST_AT_ONCE;
  const isOver = (one) => Boolean(imageDocs ?? one.non) && room-- <= 0;
  for (const [at, unit] of units.entries()) {
    if (!(await progress.goesOn(phrase('import.filesRead', {at, count: units.length})))) return;
    try {
      yield* puzzlesOf(unit, progress, imageDocs, isOver);
    } catch (fault) {
      yield {name: unit.fault ? unit.file.name : bareName(unit.file.name), file: unit.file, fault};
    }
  }
}
