// Several files at once: what each holds, with its verdict and grade, in a table that is sorted by
// a click on its heads; then all that are ambiguous repaired, all of them to the library, or out as
// one zip.

import {make, say} from '../base/elements.js';
import {tell} from '../base/events.js';
import {opening, valueText} from '../base/words.js';
import {iconOf} from '../draw/icons.js';
import {Judge, Mender} from '../engine/judging.js';
import {keep} from '../library/keep.js';
import {faultText, openDoc} from '../library/open.js';
import {recordOfDoc} from '../library/records.js';
import {download} from '../library/saving.js';
import {LANGUAGE, phrase} from '../texts/phrase.js';
import {openDialog} from '../view/dialogs.js';
import {Progress} from '../view/progress.js';
import {secondsChosen} from '../view/verdict.js';
import {saveArchive} from './archives.js';
import {hasCertificate, puzzlesIn} from './beside.js';
import {HEADS, Row} from './rows.js';

const MOST_SECONDS = 30;  // for a picture

const valuesText = (rows) => [HEADS, ...rows.map((row) => row.texts)]
                                 .map((texts) => texts.map(valueText).join(','))
                                 .join('\r\n');

/** Adds the pictures of rows to the library. */
export async function keepAll(rows) {
  const keeper = await keep.ready();
  let added = 0;
  for (const row of rows) {
    if (!(await keeper.put(recordOfDoc(row.doc, row.name, row.isSaved), row.facts))) break;
    added++;
  }
  tell('library', null);
  if (added === rows.length) say(phrase('import.picturesAdded', {pictures: added}));
}

const csvOf = (rows) => new TextEncoder().encode(`\ufeff${valuesText(rows)}\r\n`);

// Opens the row that was chosen, and closes the table by that, unless what is open is not left.
function hearRow(row, dialogOf) {
  const leave = () => dialogOf().close();
  const open = () => {
    if (row.doc) return openDoc(row.doc, {name: row.name, isSaved: row.isSaved, leave});
    leave();
    return row.convert();
  };
  row.element.addEventListener('click', open);
  row.element.addEventListener('keydown', (event) => {
    if (event.key !== 'Enter') return;
    event.preventDefault();
    open();
  });
}

// The heads of a table, each a button that sorts its rows: once more turns them.
function headsOf(rows) {
  const {compare} = new Intl.Collator(LANGUAGE, {numeric: true});
  const order = (one, other) => (typeof one === 'string' ? compare(one, other) : one - other || 0);
  const heads = HEADS.map(
      (text, at) => make(
          'th',
          {scope: 'col'},
          make('button', {type: 'button', onclick: () => sort(at)}, text, iconOf('sort'))
      )
  );
  const sort = (at) => {
    const way = heads[at].getAttribute('aria-sort') === 'ascending' ? -1 : 1;
    const show = (head, icon) => head.querySelector('svg').replaceWith(iconOf(icon));
    for (const head of heads) {
      head.removeAttribute('aria-sort');
      show(head, 'sort');
    }
    heads[at].setAttribute('aria-sort', way > 0 ? 'ascending' : 'descending');
    show(heads[at], way > 0 ? 'above' : 'below');
    rows[0].element.parentElement.append(
        ...[...rows].sort(
                        (one, other) => way * order(one.keys[at], other.keys[at])
        ).map((row) => row.element)
    );
  };
  return heads;
}

/** The table of rows with what is done to all of them, while it is open. */
class Table {
  constructor(rows, notes) {
    this.rows = rows;
    this.puzzles = rows.filter((row) => row.doc);
    this.judge = new Judge({seconds: Math.min(MOST_SECONDS, secondsChosen())});
    /** @type {Mender | null} */
    this.mender = null;
    /** @type {Promise<boolean> | null} */
    this.saving = null;
    const table = make(
        'table',
        {id: 'several'},
        make('thead', {}, make('tr', {}, ...headsOf(rows))),
        make('tbody', {}, ...rows.map((row) => row.element))
    );
    for (const row of rows.filter((one) => one.isOpened))
      hearRow(row, () => table.closest('dialog'));
    this.count = make('p', {id: 'several-count', role: 'status'});
    this.repair = make(
        'button',
        {type: 'button', id: 'several-repair', disabled: true, onclick: () => this.turnRepair()},
        phrase('import.repairAll')
    );
    const csv = make(
        'button',
        {
          type: 'button',
          id: 'several-csv',
          onclick: () => download(csvOf(rows), 'nonobench puzzles.csv', 'text/csv')
        },
        phrase('import.saveTable')
    );
    this.element = make(
        'div',
        {class: 'rows'},
        make('div', {class: 'group'}, this.count, this.repair, csv),
        ...notes,
        make('div', {class: 'scrolls'}, table)
    );
  }

  async judgeAll() {
    const {puzzles} = this;
    const told = (at) => {
      this.count.textContent =
          phrase('import.picturesJudgedRowOpens', {pictures: at, count: puzzles.length});
    };
    told(0);
    for (const [at, row] of puzzles.entries()) {
      await row.judge(this.judge);
      told(at + 1);
    }
    this.repair.disabled = !puzzles.some((row) => row.isAmbiguous);
  }

  // Repairs the pictures that are ambiguous, one after the other; the button stops that.
  async turnRepair() {
    if (this.mender) return this.mender.end();
    const wanted = this.puzzles.filter((row) => row.isAmbiguous);
    this.mender = new Mender();
    this.repair.textContent = phrase('view.stop');
    let done = 0;
    try {
      for (const [at, row] of wanted.entries()) {
        this.count.textContent = phrase('import.repairsTried', {at, count: wanted.length});
        if (await row.mend(this.mender, this.judge)) done++;
      }
    } catch { /* it was stopped */
    }
    this.mender.end();
    this.mender = null;
    this.count.textContent = phrase('import.repairsDone', {pictures: done, count: wanted.length});
    this.repair.textContent = phrase('import.repairAll');
    this.repair.disabled = !this.puzzles.some((row) => row.isAmbiguous);
  }

  // Gives all pictures to the user, with a report; answers whether that was stopped.
  saveZip() {
    const {puzzles, rows} = this;
    const what = {
      file: 'nonobench puzzles.zip',
      text: phrase('import.picturesSavedNonobenchPuzzles', {pictures: puzzles.length}),
      others: [{name: 'report.csv', bytes: csvOf(rows)}]
    };
    this.saving ??= saveArchive(puzzles, what).finally(() => {
      this.saving = null;
    });
    return this.saving;
  }

  end() {
    this.judge.end();
    this.mender?.end();
  }
}

/**
 * Shows the units of several files in a table, up to where the user stops it; `imageDocs` is as
 * for docsOfUnit, and `convert` opens the dialog for the file of an image that has no document.
 */
export async function takeSeveral(units, imageDocs, convert) {
  const progress = new Progress(phrase('import.files', {files: units.length}));
  const rows = [];
  for await (const {name, file, doc = null, fault = null} of puzzlesIn(units, progress, imageDocs))
    rows.push(new Row(
        name, doc, fault ? faultText(fault) : '', fault?.isImage ? () => convert(file) : null
    ));
  progress.end();
  return showRows(
      rows,
      units.some(hasCertificate) ?
          [make('p', {class: 'faint'}, phrase('import.certificatesNotChecked'))] :
          []
  );
}

/**
 * Shows rows in a table. Judging goes on while it is open, and it stays where a zip of them is
 * stopped.
 */
export async function showRows(rows, notes = []) {
  const table = new Table(rows, notes);
  const {puzzles} = table;
  const chosen = openDialog({
    title: phrase('import.puzzles', {puzzles: puzzles.length}),
    wide: true,
    content: table.element,
    buttons: [
      {name: phrase('view.close'), value: null},
      ...(puzzles.length ?
              [
                {name: phrase('import.saveAllZip'), value: 'zip', test: () => table.saveZip()},
                {name: opening(phrase('export.makeBook')), value: 'book'},
                {name: phrase('import.addLibrary'), value: 'library', main: true}
              ] :
              [])
    ],
  });
  const judged = table.judgeAll();
  const way = await chosen;
  table.end();
  await judged;
  if (way === 'library') await keepAll(puzzles);
  if (way === 'book') tell('book', rows);
  return true;
}
