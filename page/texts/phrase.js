// What the page says, in the language of its user: a table for each language has all texts under
// the same names. A text has places for values, `{name}`, and for what goes with a number,
// `{cells|# cell|# cells}`: the forms stand in the order in which Intl.PluralRules names them for
// the language, and # is the number.

import {DE} from './de.js';
import {EN} from './en.js';
import {FR} from './fr.js';
import {DIRECTION, LANGUAGE, MIRRORED} from './language.js';
import {mirrored} from './mirrored.js';

export {DIRECTION, LANGUAGE};

/** @typedef {keyof typeof EN} Phrase */
/**
 * The names of texts without places.
 * @typedef {{ [Name in Phrase]: ValuesOf<(typeof EN)[Name]> extends [] ? Name : never }[Phrase]}
 * PlainPhrase
 */

/**
 * The tables of all languages: `tsc -p page` refuses one that lacks a text.
 * @type {Record<string, Record<Phrase, string>>}
 */
const TABLES = {
  en: EN,
  de: DE,
  fr: FR
};

/** @type {() => Record<Phrase, string>} */
const tableOfPage = () => JSON.parse((document.querySelector(`[data-texts="${LANGUAGE}"]`) ??
                                      document.querySelector('[data-texts="en"]')
).textContent);

// The build (web/join.mjs) leaves the tables out of the script, and puts them beside it.
const TEXTS = globalThis.HAS_TEXTS_APART ? tableOfPage() : TABLES[LANGUAGE] ?? EN;

const ORDER = ['zero', 'one', 'two', 'few', 'many', 'other'];

// What of Intl is asked for is made when it is first needed: the first of it takes a browser 20 ms.
let made = null;
function plurals() {
  if (!made) {
    const rules = new Intl.PluralRules(LANGUAGE);
    made = {
      rules,
      forms: rules.resolvedOptions().pluralCategories.sort(
          (one, other) => ORDER.indexOf(one) - ORDER.indexOf(other)
      )
    };
  }
  return made;
}

let digits = null;
// below it, whole numbers have the same digits in each language of the page
const UNGROUPED = 1000;

/** A number as the language writes it. */
export const number = (count) =>
    (Number.isInteger(count) && count >= 0 && count < UNGROUPED ?
         String(count) :
         (digits ??= new Intl.NumberFormat(LANGUAGE)).format(count));

const shown = (value) => (typeof value === 'number' ? number(value) : String(value));

/** A text with its places filled. */
export const filled = (text, values) =>
    text.replace(/\{(\w+)(?:\|([^}]*))?\}/g, (_, name, choices) => {
      const value = values[name];
      if (choices === undefined) return shown(value);
      const all = choices.split('|');
      const {rules, forms} = plurals();
      return (all[forms.indexOf(rules.select(value))] ?? all.at(-1)).replaceAll('#', shown(value));
    });

/**
 * The text of a name. The values are those that it has places for (`tsc -p page` checks it).
 * @template {Phrase} Name
 * @param {Name} name
 * @param {ValuesOf<(typeof EN)[Name]>} values
 * @returns {string}
 */
export const phrase = (name, ...values) =>
    filled(LANGUAGE === MIRRORED ? mirrored(TEXTS[name]) : TEXTS[name], values[0] ?? {});
