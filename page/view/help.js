// Help: a tour, what a certificate is for, the keys, and which page this is.

import {make} from '../base/elements.js';
import {built} from '../engine/client.js';
import {capital} from '../base/words.js';
import {phrase} from '../texts/phrase.js';
import {MENUS, actionButton, actions, addAction, keyText} from './actions.js';
import {openDialog} from './dialogs.js';

const CERTIFICATE = [
  phrase('view.certificateProvesYourPuzzle'),
  phrase('view.exportFileExportCertificate'),
  phrase('view.checkOneHereOpen'),
];

const part = (title, ...content) => make('section', {}, make('h3', {}, title), ...content);
const paragraphs = (texts) => texts.map((text) => make('p', {}, text));

/**
 * What this page is: its version, the last commit that changed it, and the names that git has for
 * the folders that it was made of.
 */
function versionText() {
  const {version, commit, trees = {}} = built();
  const made =
      Object.entries(trees).map(
                               ([folder, name]) => `${folder} ${String(name).slice(0, 12)}`
      ).join(', ');
  return `nonobench ${version ?? ''}${commit ? phrase('view.commit', {commit}) : ''}. ${
      phrase('view.runsAlone')}${made ? phrase('view.madeGitsNamesThese', {made}) : ''}`;
}

function showGuide() {
  openDialog({
    title: phrase('view.guide'),
    wide: true,
    buttons: [{name: phrase('view.close'), value: null, main: true}],
    content: make(
        'div',
        {class: 'help'},
        part(phrase('view.shortTour'), actionButton(actions.get('tour'), {class: 'main'})),
        part(phrase('view.fitToPublish'), make('p', {}, phrase('view.fitMeans'))),
        part(phrase('view.whatCertificate'), ...paragraphs(CERTIFICATE)),
        part(
            phrase('view.whereYourPictures'), make('p', {}, phrase('view.yourPicturesStayLibrary'))
        ),
        part(phrase('view.page'), make('p', {id: 'version'}, versionText()))
    ),
  });
}

const FIXED_KEYS = [
  [phrase('view.arrows'), phrase('view.moveShiftTheyDraw')],
  [phrase('view.spaceEnter'), phrase('view.useToolCell')],
  [keyText('Ctrl+C, X, V'), phrase('view.copyCutPasteAlso')],
  [phrase('view.spaceDrag'), phrase('view.moveViewAlsoTwo')],
  [phrase('view.wheel'), phrase('view.zoomShiftAcross')],
  [phrase('view.rightButtonAlt'), phrase('view.pickColourHelp')],
  [phrase('view.homeEndPage'), phrase('view.jump')],
  [phrase('view.digits'), phrase('view.chooseColour0Background')],
];

// Keys as they are on a keyboard, with a text between them.
const keysOf = (keys, between) =>
    keys.flatMap((key, at) => [...(at ? [between] : []), make('kbd', {}, keyText(key))]);

// The keys of some actions, and others before them, under a head.
function keysPart(head, list, others = []) {
  const keys = [
    ...others.map(([key, name]) => [keysOf(key.split(', '), ', '), name]),
    ...list.map(({key, name}) => [keysOf(key.split(' '), phrase('view.or')), name])
  ];
  const rows =
      keys.flatMap(([key, name]) => [make('dt', {}, ...key), make('dd', {}, capital(name))]);
  return part(head, make('dl', {}, ...rows));
}

function showKeys() {
  const keyed = [...actions.values()].filter(({id, key}) => key && !/^colour-[0-9]/.test(id));
  const of = (place) => keyed.filter((action) => action.place === place);
  const content = make(
      'div',
      {class: 'keys'},
      keysPart(phrase('view.drawing'), keyed.filter(({place}) => !MENUS[place]), FIXED_KEYS),
      ...Object.entries(MENUS).map(([place, name]) => keysPart(name, of(place)))
  );
  openDialog({
    title: phrase('view.keyboardShortcuts'),
    content,
    wide: true,
    buttons: [{name: phrase('view.close'), value: null, main: true}]
  });
}

/** What the menu Help has. */
export function addHelpActions() {
  addAction({
    id: 'guide',
    name: phrase('view.guide'),
    key: 'F1',
    place: 'help',
    group: 'help',
    needs: false,
    run: showGuide
  });
  addAction({
    id: 'keys',
    name: phrase('view.keyboardShortcuts'),
    key: '?',
    place: 'help',
    group: 'help',
    needs: false,
    run: showKeys
  });
}
