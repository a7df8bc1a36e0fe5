// Files of puzzles as documents: what is read without asking anything of the user.

import {eightBits} from '../document/colours.js';
import {docOf, pageOf} from '../document/document.js';
import {FileFault, LETTERS} from '../document/limits.js';
import {answersTo} from '../engine/answers.js';
import {startEngine} from '../engine/client.js';
import {stateOf} from '../engine/opening.js';
import {readPpm} from '../formats/ppm.js';
import {docOfNotes} from '../formats/ppm_notes.js';
import {readWebpbn, readWebpbnSet} from '../formats/webpbn_reading.js';
import {phrase} from '../texts/phrase.js';
import {docOfImage, kindOfFile} from './images.js';
import {docByItself} from './proposing.js';

// milliseconds, for the picture of clues that stand alone among several files
const MOST_SEARCH = 10000;

export const NOT_READ = phrase('import.noPictureNoPuzzle');

/**
 * What the bytes of a PPM picture are: `image`, `doc` where it opens cell by cell, else null, and
 * whether it is a text.
 */
export function readPpmFile(bytes) {
  const image = readPpm(bytes);
  const isText = bytes[1] === 51;  // P3
  const text = isText ? new TextDecoder('latin1').decode(bytes) : '';
  return {image, isText, doc: docOfNotes(text, image) ?? docOfImage(image)};
}

/**
 * The puzzles of an XML text, each as readWebpbn gives it; one that is damaged as `{ fault }`.
 * @returns {any[]}
 */
export function readXmlFile(text) {
  const all = readWebpbnSet(text);
  return all.puzzles.map((_, at) => {
    try {
      return readWebpbn(all, at);
    } catch (fault) {
      return {fault};
    }
  });
}

/** The texts about a .non puzzle, by its keyword lines. */
export function aboutNon(text) {
  const value = (word) =>
      new RegExp(`^[ \\t]*${word}[ \\t]+"?([^"\\n\\r]*)`, 'm').exec(text)?.[1].trim() ?? '';
  return Object.fromEntries([
    ['title', value('title')],
    ['author', value('by')],
    ['copyright', value('copyright')]
  ].filter(([, one]) => one));
}

export const isNonText = (text) => /^[ \t]*(width|height|rows|columns)\b/m.test(text);

/**
 * The document of a .non text, in an engine of its own: of clues without a goal a picture is
 * searched for, for `most` milliseconds where that is not 0. `page` is what stands beside it.
 */
export async function docOfNon(text, page = {}, engine = startEngine(), most = 0) {
  const late = most ? setTimeout(() => engine.end('stopped'), most) : undefined;
  try {
    await engine.open(text, {history: 1, background: null});
    const lines = ['allow 0', 'report'];
    const [, report] = answersTo(lines, await engine.say(lines), null);
    if (report.kind !== 'report') throw new FileFault(phrase('library.thereNotEnoughMemory'));
    return docOf(stateOf(report, null, null, pageOf(page)));
  } finally {
    clearTimeout(late);
    engine.end();
  }
}

// The document of a PPM picture without the dialog; null where it has none. `ground` holds in place
// of the background in its notes.
async function docOfPpm(bytes, ground) {
  const {image, doc} = readPpmFile(bytes);
  const background = ground && (await ground(image, image.maxval));
  if (doc && (!background || doc.colours[0].join() === background.join())) return doc;
  const own = docByItself(image, background);
  return own && doc ? {...own, ...pageOf(doc), inks: [], givens: doc.givens} : own;
}

// A text that tells its background has its clues for that one: another beside it is an error.
async function checkGround({colours, picture, maxval}, ground) {
  const first = eightBits(colours[LETTERS.indexOf(picture[0][0])], maxval);
  const background = await ground({data: Uint8ClampedArray.of(...first, 255)}, 255);
  if (background.join() !== eightBits(colours[0], maxval).join())
    throw new FileFault(phrase('import.otherBackground'));
}

/** The document of a puzzle as docsOfBytes gives it: of clues alone a picture is searched for. */
export async function docOfPuzzle(one, progress) {
  if (one.fault) throw one.fault;
  return one.non ? docOfNon(one.non, one.page, progress.held(startEngine()), MOST_SEARCH) : one;
}

/**
 * The documents that a file of puzzles holds; none where it is a picture that does not open by
 * itself. Of several puzzles one that is not read stands as `{ fault }`, and clues alone as `{ non,
 * page }`. `ground(image, maxval)` gives the background that is told beside the file.
 */
export async function docsOfBytes(bytes, ground, progress) {
  const kind = kindOfFile(bytes);
  if (kind === 'ppm') return [await docOfPpm(bytes, ground)].filter(Boolean);
  const text = new TextDecoder().decode(bytes);
  if (kind !== 'xml' && !(kind === 'non' && isNonText(text))) throw new FileFault(NOT_READ);
  const puzzles = kind === 'xml' ? readXmlFile(text) : [{non: text, page: {about: aboutNon(text)}}];
  const docs = puzzles.map((one) => one.doc ?? one);
  if (docs.length !== 1) return docs;
  const doc = await docOfPuzzle(docs[0], progress);
  if (ground) await checkGround(doc, ground);
  return [doc];
}
