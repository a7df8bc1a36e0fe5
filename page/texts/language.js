// The language of the page: what its user has chosen, else the first that the browser asks for and
// the page has, else English.

/** The languages of the page, as BCP 47 names them, each by its own name. */
export const LANGUAGES = {
  en: 'English',
  de: 'Deutsch',
  fr: 'Français'
};

/** English from right to left, and longer (./mirrored.js): for tests, in no menu. */
export const MIRRORED = 'en-x-mirrored';

const KEPT = 'nonobench-language';

/** A choice that the browser keeps, by its name; null where it keeps none. */
export function keptChoice(name) {
  try {
    return localStorage.getItem(name);
  } catch {
    return null;
  }
}

/** Keeps a choice for the next start of the page, where the browser can. */
export function keepChoice(name, value) {
  try {
    localStorage.setItem(name, value);
  } catch { /* it holds until the page is closed */
  }
}

/** Keeps the language for the next start of the page. */
export const keepLanguage = (language) => keepChoice(KEPT, language);

/** The language of a choice, or else of the wishes of a browser. */
export function languageOf(kept, wishes) {
  if (kept === MIRRORED || Object.hasOwn(LANGUAGES, kept ?? '')) return kept;
  return wishes.map(
                   (wish) => wish.toLowerCase().split('-')[0]
         ).find((wish) => Object.hasOwn(LANGUAGES, wish)) ??
      'en';
}

/** The language of the page; without a document, as in tests, English. */
export const LANGUAGE =
    globalThis.document ? languageOf(keptChoice(KEPT), navigator.languages ?? []) : 'en';

/** The direction in which it is written. */
export const DIRECTION = LANGUAGE === MIRRORED ? 'rtl' : 'ltr';
