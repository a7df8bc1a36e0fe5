// Links: the open puzzle in an address, to be solved or to be changed. Nothing is sent anywhere.

import {choiceOf, fieldOf, make, say} from '../base/elements.js';
import {docOf, unlocked} from '../document/document.js';
import {withoutUnused} from '../document/used.js';
import {fragmentOf} from '../formats/link.js';
import {keepChoice, keptChoice} from '../texts/language.js';
import {phrase} from '../texts/phrase.js';
import {addAction} from '../view/actions.js';
import {openDialog} from '../view/dialogs.js';
import {asSeen} from '../view/tools.js';
import {WARNINGS} from './printing.js';

const LONG = 2000;                    // characters; some programs cut longer links
const ADDRESS = 'nonobench-address';  // where the page is published, as it was typed last
const [PLAY, EDIT, FRAME] = ['play', 'edit', 'frame'];
const KINDS = {
  [PLAY]: phrase('export.solve'),
  [EDIT]: phrase('export.edit'),
  [FRAME]: phrase('export.htmlSite')
};
const ownAddress = () => (/^https?:$/.test(location.protocol) ? location.href.split('#')[0] : '');

// An address as it was meant: without what it begins with, a browser takes it for a file beside the
// page.
const withScheme = (address) =>
    (!address || /^[a-z][a-z\d+.-]*:\/\//i.test(address) ?
         address :
         `https://${address.replace(/^\/+/, '')}`);

// Whether a text is an address that a browser opens as it stands.
function isAddress(text) {
  try {
    return !/\s/.test(text) && Boolean(new URL(text));
  } catch {
    return false;
  }
}

const attributeOf = (text) =>
    text.replaceAll('&', '&amp;').replaceAll('"', '&quot;').replaceAll('<', '&lt;');

/**
 * What is handed out: the link itself, or the HTML of a frame that shows it, whose title gives
 * nothing away.
 */
function linkText(kind, address, fragment) {
  if (kind !== FRAME) return address + fragment;
  return `<iframe src="${attributeOf(address + fragment)}" title="${
      attributeOf(phrase('play.puzzle'))}" width="600" height="600"></iframe>`;
}

// What a link does not tell by itself.
function notesOn({verdict}, kind, address, length) {
  return [
    kind === FRAME ? phrase('export.htmlHolds') : '',
    address ? '' : phrase('export.pageOpenedFromFile'),
    kind === EDIT ? '' : phrase('export.linkHoldsSolutionThough'),
    length > LONG ? phrase('export.linkCharactersSomePrograms', {count: length, long: LONG}) : '',
    kind === EDIT ? '' : WARNINGS[verdict.word] ?? '',
  ].filter(Boolean
  ).join(' ');
}

// Copies a link; what is wrong, or ''. Where it leads to a file, it works nowhere else.
async function copied(field, base) {
  try {
    await navigator.clipboard.writeText(field.value);
  } catch {  // without the clipboard, as in a page from a file
    field.select();
    if (!document.execCommand('copy')) return phrase('export.browserDidNotCopy');
  }
  say(/^file:/i.test(base) ? phrase('export.linkCopiedHere') : phrase('export.linkCopied'));
  return '';
}

const share = () => asSeen(async ({state}) => {
  const doc = docOf(state);
  const fragments = {
    [PLAY]: await fragmentOf(withoutUnused(unlocked(doc)).doc, PLAY),
    [EDIT]: await fragmentOf(doc, EDIT)
  };
  const kind = choiceOf({id: 'share-kind'}, Object.entries(KINDS));
  const address = make('input', {
    type: 'url',
    id: 'share-address',
    value: keptChoice(ADDRESS) || ownAddress(),
    placeholder: 'https://example.org/nonobench.html'
  });
  const field = make('textarea', {id: 'share-link', readonly: true, rows: 4, cols: 60});
  const fieldName = make('span');
  const note = make('p', {id: 'share-note', class: 'faint', role: 'status'});
  const base = () => withScheme(address.value.trim()) || location.href.split('#')[0];
  const fill = () => {
    fieldName.textContent = kind.value === FRAME ? 'HTML' : phrase('export.linkField');
    field.value = isAddress(base()) ?
        linkText(kind.value, base(), fragments[kind.value === EDIT ? EDIT : PLAY]) :
        '';
    note.textContent = field.value ?
        notesOn(state, kind.value, address.value.trim(), field.value.length) :
        phrase('export.noAddress', {address: address.value.trim()});
  };
  kind.addEventListener('change', fill);
  address.addEventListener('input', () => keepChoice(ADDRESS, address.value.trim()));
  address.addEventListener('input', fill);
  note.textContent = notesOn(state, FRAME, '', LONG + 1);
  const content = make(
      'div',
      {class: 'rows'},
      fieldOf(phrase('export.linkKind'), kind),
      fieldOf(phrase('export.addressPage'), address),
      make('label', {class: 'field'}, fieldName, field),
      note
  );
  openDialog({
    title: phrase('export.share'),
    content,
    buttons: [{
      name: phrase('export.copy'),
      value: true,
      main: true,
      test: () => (field.value ? copied(field, base()) : note.textContent)
    }]
  });
  note.style.minHeight =
      `${note.offsetHeight + 1}px`;  // room for all that it can say: the button below stays
  fill();
});

/** Adds sharing to the menu File. */
export function startSharing() {
  addAction({
    id: 'share',
    name: phrase('export.shareLink'),
    place: 'file',
    group: 'export',
    run: share,
    hint: phrase('export.shareHolds')
  });
}
