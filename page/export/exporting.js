// Out of the page: Web Paint-by-Number's XML, PNG of the picture and of the empty puzzle, P3, .non
// and the certificate. Each is a download.

import {$, fieldOf, make, say} from '../base/elements.js';
import {gradeLine, isGradeLine} from '../base/names.js';
import {bareName, clamp, cleanName} from '../base/words.js';
import {eightBitDoc, unlocked} from '../document/document.js';
import {canvasPaper} from '../draw/papers.js';
import {withoutUnused} from '../document/used.js';
import {drawSmall} from '../draw/small.js';
import {bench} from '../engine/bench.js';
import {Judge} from '../engine/judging.js';
import {ppmTextOf} from '../formats/ppm_notes.js';
import {writeZip} from '../formats/zip.js';
import {keep} from '../library/keep.js';
import {exportAs, saveDownload, saving, showFileName} from '../library/saving.js';
import {phrase} from '../texts/phrase.js';
import {addAction} from '../view/actions.js';
import {openDialog} from '../view/dialogs.js';
import {nearText, unfitText} from '../view/dress.js';
import {presentGrade} from '../view/grading.js';
import {asSeen, heard, whileOpen} from '../view/tools.js';
import {certificateText, secondsChosen} from '../view/verdict.js';
import {exportPath} from './animation.js';
import {startBooks} from './books.js';
import {WARNINGS, startPrinting} from './printing.js';
import {authorFor, keepAuthor, startPublishing} from './publishing.js';
import {startSharing} from './sharing.js';

const MOST_SECONDS = 30;  // for what the engine says of a puzzle
const PNG_SIDE = 1600;    // pixels that the longer side of a PNG comes near to
const pngCell = ({rows, columns}) => clamp(Math.floor(PNG_SIDE / Math.max(rows, columns)), 8, 32);

function exportPng(name, canvas, suffix, more = '') {
  canvas.toBlob(
      (blob) =>
          (blob ? exportAs(name, 'png', blob, suffix, more) :
                  say(phrase('export.browserMadeNoPng'), 'alarm')),
      'image/png'
  );
}

// The warning that goes with a puzzle that leaves the page, after a blank; '' where it has one
// solution.
const warningText = ({verdict}) => (WARNINGS[verdict.word] ? ` ${WARNINGS[verdict.word]}` : '');

/** The picture, some pixels a cell, without lines. */
const exportPicture = (sideOf, suffix) => asSeen(({state, name}) => {
  const canvas = make('canvas');
  drawSmall(canvas, state, sideOf(state) * Math.max(state.rows, state.columns));
  exportPng(name, canvas, suffix);
});

const exportEmpty = () => asSeen(({state, name}) => {
  const near = nearText(state);
  if (near) return say(phrase('export.coloursPuzzleCannotTold', {near}), 'alarm');
  const puzzle = withoutUnused(state, state.clues);
  return exportPng(
      name, canvasPaper(puzzle, pngCell(state)).pen.canvas, '-puzzle', warningText(state)
  );
});

const exportText = (form) =>
    asSeen((seen) => saveDownload(form, seen, {more: warningText(seen.state), forOthers: true}));

const exportCertificate = () => asSeen(async ({name}) => {
  const text = await certificateText();
  if (text) exportAs(name, 'cert', text, `.${saving.form}`);
});

// What a site checks a puzzle by, as nonobench-audit calls it: the picture, its certificate, what
// lies beside it, and what the engine says of it.
const exportForSite = () => asSeen(async ({state, name}) => {
  const {doc} = withoutUnused(eightBitDoc(state));
  const text = await certificateText();
  if (!text) return;
  const ground = doc.colours[0].join(',');
  const judge = new Judge({seconds: Math.min(MOST_SECONDS, secondsChosen())});
  const said = await judge.judge(doc);  // whose text is '' where there is none in the time
  judge.end();
  const parts = {
    'ppm': ppmTextOf(unlocked(doc)),
    'ppm.cert': text,
    'ppm.txt': said.text,
    'ppm.givens': (text.match(/^given .*\n/gm) ?? []).join(''),
    'ppm.background': ground === '255,255,255' ? '' : `${ground}\n`
  };
  const files = Object.entries(parts).filter(
                                         ([, part]) => part
  ).map(([ending, part]) => ({name: `${name}.${ending}`, bytes: new TextEncoder().encode(part)}));
  exportAs(
      name,
      'zip',
      writeZip(files),
      '-site',
      said.text && !said.fit ? phrase('export.savedUnfit', {why: unfitText(doc, said)}) : ''
  );
});

const ABOUT_FIELDS = {
  title: phrase('export.title'),
  author: phrase('export.author'),
  copyright: phrase('export.copyright'),
  description: phrase('export.description'),
  note: phrase('export.note')
};
const LONG_FIELDS = ['description', 'note'];

// A description with a grade as its last line, in place of an earlier one.
const withGrade =
    (text,
     {word}) => [...text.split('\n').filter((line) => line && !isGradeLine(line)), gradeLine(word)]
                    .join('\n');

// The fields for the texts about the puzzle, by name.
function aboutFields(shown) {
  const field = (name) =>
      (LONG_FIELDS.includes(name) ?
           make('textarea', {rows: 3, maxlength: '5000'}, shown[name] ?? '') :
           make('input', {type: 'text', value: shown[name] ?? '', maxlength: '500'}));
  return Object.fromEntries(Object.keys(ABOUT_FIELDS).map((name) => [name, field(name)]));
}

// The field for the puzzle's name: it follows the title, until the user chooses another one.
function nameField(title) {
  const field = make('input', {type: 'text', value: bench.name, maxlength: '80'});
  let isOwn = keep.isNamed;
  field.addEventListener('input', () => {
    isOwn = true;
  });
  title.addEventListener('input', () => {
    if (!isOwn) field.value = title.value.trim() ? cleanName(title.value) : bench.name;
  });
  return {field, isOwn: () => isOwn};
}

function gradeButton(grade, description) {
  const add = () => {
    description.value = withGrade(description.value, grade);
  };
  const text = phrase('export.putGradeIntoDescription');
  return make('button', {type: 'button', id: 'about-grade', onclick: add}, text);
}

// Gives the puzzle these texts, and its name.
async function takeAbout(texts, name, isOwn) {
  if (name !== bench.name) saving.handle = null;
  bench.name = name;
  keep.isNamed = isOwn;
  const others = ({about}) =>
      Object.fromEntries(Object.entries(about).filter(([one]) => !(one in ABOUT_FIELDS)));
  await heard(bench.become((doc) => ({...doc, about: {...others(doc), ...texts}})));
  keep.now();
  showFileName();
}

/**
 * Asks for the texts about the puzzle, which go into its files and on the printed sheet, and for
 * its name: the title, unless the user chose another one.
 */
async function askAbout() {
  const {about} = bench.state;
  const shown = {...about, author: authorFor(about)};
  const fields = aboutFields(shown);
  const name = nameField(fields.title);
  const grade = presentGrade();
  const content = make(
      'div',
      {class: 'rows'},
      ...Object.entries(fields).map(([one, input]) => fieldOf(ABOUT_FIELDS[one], input)),
      fieldOf(phrase('export.nameFile'), name.field),
      ...(grade ? [gradeButton(grade, fields.description)] : [])
  );
  const title = phrase('export.aboutPuzzle');
  const buttons = [{name: 'OK', value: true, main: true}];
  if (!(await whileOpen(openDialog({title, content, buttons})))) return;
  const typed = Object.entries(fields).map(([one, input]) => [one, input.value.trim()]);
  const texts = Object.fromEntries(typed.filter(([, text]) => text));
  if ((texts.author ?? '') !== shown.author) keepAuthor(texts.author ?? '');
  const {value} = name.field;
  await takeAbout(texts, name.isOwn() ? bareName(value) : cleanName(value), name.isOwn());
}

/** What the menu File exports: first for whom it is, then as what. */
export function startExporting() {
  const add = (id, name, run, more = {}) =>
      addAction({id, name, place: 'file', group: 'export', run, ...more});
  add('about', phrase('export.titleAuthor'), askAbout, {group: 'save'});
  Object.assign($('title'), {onclick: askAbout, title: phrase('export.titleAuthor')});
  startPublishing();
  add('export-xml', phrase('export.webpbnXml'), () => exportText('xml'));
  add('export-site', phrase('export.siteZip'), exportForSite, {hint: phrase('export.siteServes')});
  startPrinting();
  startBooks();
  startSharing();
  add('export-empty', phrase('export.puzzlePng'), exportEmpty);
  add('export-picture', phrase('export.picturePng'), () => exportPicture(pngCell, '-picture'));
  add('export-cells', phrase('export.pngPixelCell'), () => exportPicture(() => 1, '-cells'));
  add('export-path', phrase('export.pathGif'), exportPath);
  add('certificate', phrase('library.certificate'), exportCertificate);
  add('export-ppm', phrase('export.plainPpm'), () => exportText('ppm'));
  add('export-non', phrase('export.nonTwoColours'), () => exportText('non'), {
    can: () => bench.state.colours.length <= 2 || !/[b-o]/.test(bench.state.picture.join(''))
  });
}
