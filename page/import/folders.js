// The files of a folder that is dropped on the page, and of the folders in it, each with what goes
// with it.

import {phrase} from '../texts/phrase.js';
import {MOST_AT_ONCE, grouped} from './beside.js';

// All entries of a folder by name, but for those that are hidden: a browser gives them in parts.
// None where the user stops that.
async function entriesOf(folder, goesOn) {
  const reader = folder.createReader();
  const all = [];
  while (await goesOn()) {
    const some = await new Promise((resolve, reject) => reader.readEntries(resolve, reject));
    if (!some.length) return all.sort((a, b) => a.name.localeCompare(b.name));
    for (const one of some)
      if (isShown(one)) all.push(one);
  }
  return [];
}

const isShown = (file) => !file.name.startsWith('.');
const fileOf = (entry) =>
    entry?.file && new Promise((resolve, reject) => entry.file(resolve, reject));

/**
 * What was dropped, as units: `files` as they are, and for each entry that is a folder what is in
 * it, by name, until the user stops it. Each folder is grouped by itself: the files of a name in
 * one have nothing to do with those in another.
 */
export async function unitsIn(entries, files, progress = {
  goesOn: async (_text) => true
}) {
  const units = grouped(
      files.filter((file, at) => file && !entries[at]?.isDirectory && isShown(file)), MOST_AT_ONCE
  );
  const waiting = entries.filter((entry) => entry?.isDirectory).map((file) => ({file})).reverse();
  const goesOn = () => progress.goesOn(phrase('import.files', {files: units.length}));
  let folders = 0;
  while (waiting.length && units.length < MOST_AT_ONCE && (await goesOn())) {
    const unit = waiting.pop();
    if (!unit.file.isDirectory)
      units.push({
        ...unit,
        file: await fileOf(unit.file),
        givens: await fileOf(unit.givens),
        background: await fileOf(unit.background)
      });
    else if (folders++ < MOST_AT_ONCE)
      for (const one of grouped(await entriesOf(unit.file, goesOn), 2 * MOST_AT_ONCE).reverse())
        waiting.push(one);
  }
  return units;
}
