// The language of the page, chosen in the menu View. Texts are made when the page starts: another
// language starts it again, with the same picture and its undo, by the library.

import {say} from '../base/elements.js';
import {sheet} from '../draw/sheet.js';
import {bench} from '../engine/bench.js';
import {keep} from '../library/keep.js';
import {openRecord} from '../library/open.js';
import {saving} from '../library/saving.js';
import {LANGUAGE, LANGUAGES, keepLanguage} from '../texts/language.js';
import {phrase} from '../texts/phrase.js';
import {addAction} from '../view/actions.js';
import {confirmDialog} from '../view/dialogs.js';
import {setDown} from '../view/select.js';
import {searches} from '../view/verdict.js';

const OPEN = 'nonobench-open';  // what is open again in this tab
// the file that it is saved to; only a database keeps the browser's handle of it
const FILE = 'file:';

// Keeps what is open, also where nothing was painted yet; gives its id, or null where the browser
// does not keep it.
async function keptId() {
  setDown();
  await bench.rest();
  keep.untouched = null;
  await keep.now();
  return keep.isKept && keep.keeper?.isDone ? keep.id : null;
}

async function changeLanguage(language) {
  if (language === LANGUAGE) return;
  if (bench.state && sheet.underlay &&
      !(await confirmDialog(
          phrase('start.changeLanguage'),
          phrase('start.languageLoses'),
          phrase('start.changeLanguage')
      )))
    return;
  searches.stop();
  const id = bench.state ? await keptId() : null;
  keepLanguage(language);
  if (bench.state && !id) return void say(phrase('start.languageNotKept'), 'alarm');
  if (id) {
    sessionStorage.setItem(OPEN, id);
    await keep.keeper.shelf.put(
                               FILE + id, {handle: saving.handle, form: saving.form}
    ).catch(() => {});
  }
  keep.end();
  saving.asks = false;
  if (location.hash) location.hash = '';  // what it held is open and may have been changed
  location.reload();
}

/** Opens the picture again that was open before the page started again. */
export async function openAgain() {
  const id = sessionStorage.getItem(OPEN);
  if (!id) return;
  sessionStorage.removeItem(OPEN);
  const {shelf} = await keep.ready();
  const {handle, form} = await shelf.get(FILE + id).catch(() => null) ?? {};
  await shelf.drop(FILE + id);
  if (await openRecord(id))
    Object.assign(
        saving, {handle: handle?.createWritable ? handle : null, form: form ?? saving.form}
    );
}

/** The languages in the menu View. */
export function startLanguage() {
  for (const [language, name] of Object.entries(LANGUAGES)) {
    addAction({
      id: `language-${language}`,
      name,
      place: 'view',
      group: 'language',
      needs: false,
      isOn: () => language === LANGUAGE,
      run: () => changeLanguage(language)
    });
  }
}
