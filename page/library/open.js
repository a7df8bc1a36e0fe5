// Opens documents in place of the open one, or beside it for their clues alone, and tells what
// is refused.

import {hushOther, say} from '../base/elements.js';
import {baseOf} from '../document/cover.js';
import {pageOf} from '../document/document.js';
import {FileFault, MOST_CELLS} from '../document/limits.js';
import {bench} from '../engine/bench.js';
import {startEngine} from '../engine/client.js';
import {openedIn} from '../engine/opening.js';
import {phrase} from '../texts/phrase.js';
import {confirmDialog} from '../view/dialogs.js';
import {UNSEEN, eachInTurn} from '../view/progress.js';
import {keep} from './keep.js';
import {saving, showFileName} from './saving.js';

const turns = {
  last: Promise.resolve(false),
  what: null
};  // openings are one at a time: the last one, and what it opens

// Opens in its turn. What is to be opened just so already is opened once.
function inTurn(what, open) {
  if (turns.what !== what) {
    turns.what = what;
    turns.last = turns.last.then(open, open).finally(() => {
      if (turns.what === what) turns.what = null;
    });
  }
  return turns.last;
}

/**
 * Opens a document in place of the present one, and keeps it under a name of its own. `id` is that
 * of a record of the library, `strokes` are as the bench has them; `isNamed` tells that its user
 * chose the name; `leave` is called once the present one may go. Answers whether it is open; what
 * is refused is reported.
 */
export const openDoc = (doc, how) => inTurn(doc, () => openNow(doc, how));

async function openNow(doc, {
  name,
  isSaved = true,
  id = null,
  strokes = undefined,
  handle = null,
  form = 'xml',
  isBlank = false,
  isNamed = handle !== null,
  leave = () => {}
}) {
  await keep.leave();
  const isLost = bench.state && !keep.isKept && !bench.isSaved;
  if (isLost &&
      !(await confirmDialog(
          phrase('library.openAnotherPicture'),
          phrase('library.notBeenSavedBrowser', {name: bench.name}),
          phrase('library.open')
      )))
    return false;
  leave();
  try {
    await bench.open(baseOf(doc), {name, page: pageOf(doc), strokes, isSaved});
  } catch (fault) {
    say(phrase(
            'import.couldNotOpened',
            {name: phrase('import.quoted', {name}), fault: faultText(fault)}
        ),
        'alarm');
    return false;
  }
  hushOther();
  Object.assign(saving, {handle, form});
  keep.isNamed = isNamed;
  await keep.begin(id, isBlank);
  showFileName();
  return true;
}

/**
 * What `take` makes of puzzles that are not open, each `{ doc, name, .. }`, as an engine has them:
 * with the document that it reports, and its `clues`. One worker opens them, one after the other.
 * Null, reported, where one does not open, or where it is stopped: then nothing may leave the page.
 */
export async function withClues(
    puzzles, start = startEngine, progress = UNSEEN, take = (puzzle) => puzzle
) {
  if (!puzzles.length) return [];
  const engine = progress.held(start());
  let name = '';
  try {
    const made = await eachInTurn(puzzles, progress, async (one) => {
      ({name} = one);
      const doc = await openedIn(engine, baseOf(one.doc), pageOf(one.doc));
      return take({...one, doc, clues: doc.clues});
    });
    return made.length === puzzles.length ? made : null;
  } catch (fault) {
    if (!progress.isStopped)
      say(phrase('library.nothingSavedPrinted', {name, fault: faultText(fault)}), 'alarm');
    return null;
  } finally {
    engine.end();
  }
}

/** Goes on with a picture of the library; says whether it is open. */
export const openRecord = (id) => inTurn(id, async () => {
  const record = await keep.keeper.record(id);
  if (record) return openNow(record.doc, record);
  say(phrase('library.pictureLibraryDamagedCould'), 'alarm');
  return false;
});

const OPEN_FAULTS = {
  BadSize: phrase('library.widthHeightNotFrom', {most: MOST_CELLS}),
  BadCount: phrase('library.tooFewTooMany'),
  BadClue: phrase('library.clueNoListNumbers'),
  ClueTooLong: phrase('library.clueLongerLine'),
  BadGoal: phrase('library.goalDoesNotFit'),
  GoalDisagrees: phrase('library.goalOtherClues'),
  MissingSize: phrase('library.noWidthHeight'),
  Repeated: phrase('library.partStandsThereTwice'),
};

/** What a fault says to the user, without names of the bench's own. */
export function faultText(fault) {
  if (fault instanceof FileFault) return fault.message;
  const text = String(fault?.text ?? fault?.message ?? fault);
  if (text === 'stopped') return phrase('import.stopped');
  if (/memory/i.test(text) || fault?.kind === 'memory')
    return phrase('library.thereNotEnoughMemory');
  if (/no picture has these clues/.test(text)) return phrase('library.noPictureTheseClues');
  const name = Object.keys(OPEN_FAULTS).find((one) => text.includes(one));
  return name ? OPEN_FAULTS[name] : text.replace(/^nonobench: /, '').slice(0, 200);
}
