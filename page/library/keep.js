// The open document in the library: after each stroke it is kept with its strokes, under a name
// that this tab alone has. What could not be kept is reported.

import {say} from '../base/elements.js';
import {tell} from '../base/events.js';
import {opening} from '../base/words.js';
import {docOf, sameDoc} from '../document/document.js';
import {FileFault} from '../document/limits.js';
import {bench} from '../engine/bench.js';
import {phrase} from '../texts/phrase.js';
import {presentGrade} from '../view/grading.js';
import {Keeper} from './keeper.js';
import {newId, recordOf} from './records.js';
import {claim, openShelf, reasonOf} from './shelf.js';

export const keep = {
  keeper: null,
  opening: null,
  id: null,
  term: null,
  free: null,
  untouched: null,
  when: 0,
  isNamed: false,
  isKept: false,
  withdraw: null,  // takes back what was said of a failure
  isAsked: false,
  makeRoom: null,
  names: null
};

const WRITTEN = 1000;  // milliseconds in which it is known whether the first record is kept

/** Opens the library, once. What was painted before that is kept then. */
keep.ready = (home = globalThis) => {
  keep.opening ??= openShelf(home, () => {
                     tell('library', null);
                     keep.now();
                   }).then((shelf) => {
    keep.keeper = new Keeper(shelf, keep.said);
    keep.names = home.BroadcastChannel ?
        Object.assign(new home.BroadcastChannel('nonobench:names'), {
          onmessage: ({data: {id, name}}) => keep.named(name, id)
        }) :
        null;
    keep.now();
    return keep.keeper;
  });
  return keep.opening;
};

/**
 * Renames a picture of the library, also where it is open, here or in another tab: there the next
 * stroke would keep the old name.
 */
keep.rename = async (id, name) => {
  keep.named(name, id);
  await keep.keeper.rename(id, name);
  keep.names?.postMessage({id, name});
};

/**
 * Takes a picture of the library away; resolves to what brings it back, or to null where a tab has
 * it open.
 */
keep.drop = async (id) => {
  const free = await claim(id, globalThis);
  return free && keep.keeper.drop(id).finally(free);
};

/** Does something to the library; what its storage refuses is reported. */
keep.tried = async (act) => {
  try {
    await act();
  } catch (fault) {
    say(fault instanceof FileFault ? fault.message : `${REASONS[reasonOf(fault)]}.`,
        'alarm',
        null,
        true);
  }
};

/**
 * Gives the open picture, if it is that of an id, a name that its user chose: no title takes
 * its place.
 */
keep.named = (name, id = keep.id) => {
  if (id !== keep.id) return;
  bench.name = name;
  keep.isNamed = true;
  keep.now();
};

const REASONS = {
  full: phrase('library.browsersStorageFull'),
  late: phrase('library.browsersStorageLate'),
  none: phrase('library.browserKeepsNothingPage'),
  refused: phrase('library.browsersStorageDoesNot')
};

keep.said = ({kind, why, record}) => {
  const isKept = kind === 'kept';
  if (record.id === keep.id) {
    keep.isKept = isKept;
    tell('kept', isKept);
    if (isKept) {
      keep.withdraw?.();
      keep.withdraw = null;
    }
  }
  if (isKept || keep.withdraw) return;
  keep.withdraw =
      say(phrase('library.yourWorkTabAlone', {why: REASONS[why]}),
          'alarm',
          why === 'full' ? {name: opening(phrase('start.makeRoom')), run: () => keep.makeRoom?.()} :
                           null,
          true);
};

/**
 * Keeps what is open under a name of its own; `id` where it was kept before. Where another tab has
 * that picture, this one has a copy. What is blank, or such a copy, is kept from the first stroke
 * on. Where another picture opens meanwhile, nothing begins.
 */
keep.begin = async (id = null, isBlank = false) => {
  const {term, state} = bench;
  const own = id !== null && id === keep.id ? keep.free : null;  // opened again in this tab
  if (!own) keep.end();
  let free = own ?? (id === null ? null : await claim(id, globalThis));
  const isElsewhere = id !== null && !free;
  const name = isElsewhere || id === null ? newId() : id;
  free ??= await claim(name, globalThis);
  if (bench.term !== term) return void free?.();
  Object.assign(keep, {
    id: name,
    term,
    free,
    when: Date.now(),
    untouched: isBlank || isElsewhere ? docOf(state) : null
  });
  keep.isKept ||= id !== null;  // as it was
  if (isElsewhere) say(phrase('library.pictureOpenAnotherTab'), 'alarm');
  keep.now();
};

keep.end = () => {
  keep.free?.();
  Object.assign(keep, {id: null, free: null, untouched: null});
};

/** Keeps the document as a stroke has left it: it is the newest of the library now. */
keep.changed = () => {
  keep.when = Date.now();
  return keep.now({mayRest: true});
};

/** The open picture, where it belongs to the library, as a record has it; else null. */
keep.atHand = () =>
    (keep.id && bench.term === keep.term && !keep.untouched ?
         {id: keep.id, name: bench.name, doc: docOf(bench.state)} :
         null);

/**
 * Another document comes: what rests is kept before that. Where nothing was kept so far, resolves
 * once that is known.
 */
keep.leave = async () => {
  keep.keeper?.hurry();
  if (!keep.isKept)
    await Promise.race([keep.keeper?.writing, new Promise((go) => setTimeout(go, WRITTEN))]);
};

/**
 * Keeps the document as it is now, or a moment later. What is found out about it later makes it no
 * newer.
 */
keep.now = ({mayRest = false} = {}) => {
  const {id, term} = keep;
  if (!id || !keep.keeper || bench.term !== term) return Promise.resolve();
  if (keep.untouched && sameDoc(keep.untouched, bench.state)) return Promise.resolve();
  keep.untouched = null;
  if (bench.past.length && !keep.isAsked) {
    keep.isAsked = true;  // that the browser does not clear it away by itself
    navigator.storage?.persist?.().catch(() => {});
  }
  const made = () => ({
    record: {...recordOf(bench, id, keep.when), isNamed: keep.isNamed},
    facts: {verdict: bench.state.verdict.word, grade: presentGrade()?.word ?? null}
  });
  return keep.keeper.note(() => (keep.id === id && bench.term === term ? made() : null), mayRest);
};
