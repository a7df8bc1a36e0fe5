// Records: what the library keeps of a picture, as a plain value. A record has the document and the
// documents that its strokes lead back and forth to; a card is what the list shows of it.

import {cleanName} from '../base/words.js';
import {docOf, packedDoc, patchOf, patched, sameDoc, unpackedDoc} from '../document/document.js';

const MOST_SIGNS = 200000;  // of the strokes of one record; older ones are left out

export const newId = () =>
    `${Date.now().toString(36)}-${Math.floor(Math.random() * 2 ** 40).toString(36)}`;

// Patches that were made before, by the document that they lead to: of a stroke they stay the same.
const known = new WeakMap();

// What leads from a document to another, with how much room it takes.
function patchTo(from, to) {
  const before = known.get(to);
  if (before?.from === from) return before;
  const patch = patchOf(from, to);
  const made = {from, patch, size: JSON.stringify(patch).length};
  known.set(to, made);
  return made;
}

// What leads from a document to others, one after the other, as far as there is room.
function patchesTo(doc, others, room) {
  const patches = [];
  let [from, left] = [doc, room];
  for (const to of others) {
    const {patch, size} = patchTo(from, to);
    left -= size;
    if (left < 0) break;
    patches.push(patch);
    from = to;
  }
  return {patches, left};
}

// The documents that patches lead to, up to the first patch that is none.
function docsOf(doc, patches) {
  const docs = [];
  try {
    for (const patch of Array.isArray(patches) ? patches : [])
      docs.push(patched(docs.at(-1) ?? doc, patch));
  } catch { /* those before it are sound */
  }
  return docs;
}

/**
 * The record of an open document: `open` has its state, name, isSaved, past and future, as a bench
 * does.
 */
export function recordOf(open, id, when = Date.now()) {
  const last = open.past.at(-1)?.after;
  const doc = last && sameDoc(last, open.state) ? last : docOf(open.state);
  const past = patchesTo(doc, [...open.past].reverse().map((stroke) => stroke.before), MOST_SIGNS);
  const future =
      patchesTo(doc, [...open.future].reverse().map((stroke) => stroke.after), past.left);
  return {
    version: 2,
    id,
    name: cleanName(open.name),
    when,
    isSaved: open.isSaved,
    doc: packedDoc(doc),
    past: past.patches,
    future: future.patches
  };
}

/** The record of a document without strokes. */
export const recordOfDoc = (doc, name, isSaved) =>
    recordOf({state: doc, name, isSaved, past: [], future: []}, newId());

/**
 * A record out of the shelf, read: its document, and `strokes` as a bench opens them. Null where it
 * is none. One of the first version has its document under `now`, the texts about it beside that,
 * and its strokes as commands, which are left out.
 */
export function readRecord(value) {
  try {
    if (typeof value.id !== 'string' || ![1, 2].includes(value.version)) return null;
    const doc = unpackedDoc(value.version === 1 ? {...value.now, about: value.about} : value.doc);
    const [past, future] = value.version === 1 ?
        [[], []] :
        [docsOf(doc, value.past).reverse(), docsOf(doc, value.future)];
    return {
      id: value.id,
      name: cleanName(String(value.name)),
      when: Number(value.when) || 0,
      isSaved: value.isSaved === true,
      isNamed: value.isNamed === true,
      doc,
      strokes: {past, future}
    };
  } catch {
    return null;
  }
}

/** What the list shows of a record; `facts` are {verdict, grade}, each a text or null. */
export function cardOf(record, {verdict = null, grade = null} = {}) {
  const {id, name, when, isSaved} = record;
  const {rows, columns, maxval, colours, picture} = record.doc ?? record.now;
  return {
    id,
    name: cleanName(String(name)),
    when,
    isSaved: isSaved === true,
    verdict,
    grade,
    size: JSON.stringify(record).length,
    doc: {rows, columns, maxval, colours, picture, givens: []}
  };
}

/** A card out of the shelf, or null where it is none. */
export function readCard(value) {
  try {
    if (typeof value.id !== 'string') return null;
    const text = (one) => (typeof one === 'string' ? one.slice(0, 80) : null);
    return {
      ...value,
      name: cleanName(String(value.name)),
      when: new Date(value.when).getTime() || 0,
      size: Number(value.size) || 0,
      verdict: text(value.verdict),
      grade: text(value.grade),
      doc: unpackedDoc(value.doc)
    };
  } catch {
    return null;
  }
}
