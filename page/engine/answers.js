// The texts that a session answers with, as docs/SESSION.md tells them. No mark ends an answer:
// which lines are its own follows from the line that asked and, for rows, from the picture's size.
// So a text is read beside the lines that asked.

import {LETTERS} from '../document/limits.js';

/** A text that no session writes for the lines that asked. */
export class TextFault extends Error {}

const PICTURE_ROW = /^[.a-o]+$/;
const MAP_ROW = /^[.a-o?]+$/;
const NUMBER = '(0|[1-9][0-9]*)';
const pattern = (text) => new RegExp(`^${text.replaceAll('N', NUMBER)}$`);
const REFUSED = /^refused: ([A-Za-z]+)$/;
const SIZE = pattern('size N N');
const COLOURS = pattern('colours N maxval N');
const COLOUR = pattern('([.a-o]) N N N');
const GIVEN = pattern('given N N');
const OPEN = pattern('open N');
const WORD = /^verdict (unique|ambiguous|undecided)$/;
const HISTORY = pattern('history N N');
const UNDECIDED = pattern('undecided N');
const CLUE = pattern('([rc]) N: (0|[0-9]+[a-o](?: [0-9]+[a-o])*)');
const BLOCK = /^([1-9][0-9]*)([a-o])$/;
const REASON = pattern('by ([rc]) N( given(?: [1-9][0-9]*=[.a-o]+)+)?');
const LOOK =
    pattern('([rc]) N N N((?: [1-9][0-9]*=[.a-o])*)( stands)?( given(?: [1-9][0-9]*=[.a-o]+)+)?');
const CERT_LINE =
    /^(?:line [rc] \d{1,3}|dead [rc] \d{1,3}|split \d{1,3} \d{1,3}|given \d{1,3} \d{1,3}|done)$/;

class Reader {
  constructor(text) {
    if (text !== '' && !text.endsWith('\n')) throw new TextFault('the last line has no end');
    this.lines = text.split('\n').slice(0, -1);
    this.at = 0;
  }

  // The next line, or the empty text at the end: no line of an answer is empty.
  peek() {
    return this.lines[this.at] ?? '';
  }

  line() {
    if (this.at >= this.lines.length) throw new TextFault('the text ends too soon');
    return this.lines[this.at++];
  }

  match(wanted, what) {
    const line = this.line();
    const found = wanted.exec(line);
    if (!found)
      throw new TextFault(`${what} was wanted in line ${this.at}, not '${line.slice(0, 60)}'`);
    return found;
  }

  word(text) {
    if (this.line() !== text) throw new TextFault(`'${text}' was wanted in line ${this.at}`);
  }

  rows(size, wanted) {
    if (!size) throw new TextFault('rows were asked for while the size is not known');
    const rows = [];
    while (rows.length < size.rows) {
      const row = this.match(wanted, 'a row')[0];
      if (row.length !== size.columns)
        throw new TextFault(`row ${rows.length + 1} has another length`);
      rows.push(row);
    }
    return rows;
  }

  // All lines from a place up to here, as they came.
  since(at) {
    return this.lines.slice(at, this.at).join('\n') + '\n';
  }
}

const numbers = (found, from) => found.slice(from).map(Number);
const must = (holds, what) => {
  if (!holds) throw new TextFault(what);
};

// Clues by their text, so that those that a stroke leaves as they are need not be read again, and
// are the same arrays.
const MOST_KNOWN = 5000;
const knownClues = new Map();

function blocksOf(text) {
  const known = knownClues.get(text);
  if (known) return known;
  const blocks = text === '0' ? [] : text.split(' ').map((word) => {
    const found = BLOCK.exec(word);
    must(found, `'${word}' is no block`);
    return {length: Number(found[1]), letter: found[2]};
  });
  if (knownClues.size >= MOST_KNOWN) knownClues.clear();
  knownClues.set(text, blocks);
  return blocks;
}

// Clue lines of one axis, numbered from 1; `count` where it is known.
function readAxis(reader, letter, count) {
  const clues = [];
  while (count === undefined ? reader.peek().startsWith(`${letter} ${clues.length + 1}: `) :
                               clues.length < count) {
    const begin = `${letter} ${clues.length + 1}: `;
    const text = reader.peek().slice(begin.length);
    if (knownClues.has(text) && reader.peek().startsWith(begin)) {
      clues.push(blocksOf(text));
      reader.line();
      continue;
    }
    const found = reader.match(CLUE, 'a clue');
    must(
        found[1] === letter && Number(found[2]) === clues.length + 1,
        `clue ${letter} ${clues.length + 1} is missing`
    );
    clues.push(blocksOf(found[3]));
  }
  must(clues.length > 0, 'there is no clue');
  return clues;
}

const readClues = (reader, size) =>
    ({rows: readAxis(reader, 'r', size?.rows), columns: readAxis(reader, 'c', size?.columns)});

function readColours(reader) {
  const [count, maxval] = numbers(reader.match(COLOURS, 'the colours'), 1);
  const colours = [];
  while (colours.length < count) {
    const found = reader.match(COLOUR, 'a colour');
    must(found[1] === LETTERS[colours.length], 'the colours are not in their order');
    colours.push(numbers(found, 2));
  }
  return {maxval, colours};
}

function readReport(reader) {
  const from = reader.at;
  const [rows, columns] = numbers(reader.match(SIZE, 'the size'), 1);
  const size = {rows, columns};
  const {maxval, colours} = readColours(reader);
  reader.word('picture');
  const picture = reader.rows(size, PICTURE_ROW);
  const givens = [];
  while (reader.peek().startsWith('given '))
    givens.push(numbers(reader.match(GIVEN, 'a given'), 1));
  reader.word('clues');
  const clues = readClues(reader, size);
  reader.word('map');
  const map = reader.rows(size, MAP_ROW);
  const [open] = numbers(reader.match(OPEN, 'the open cells'), 1);
  const word = reader.match(WORD, 'the verdict')[1];
  const [past, future] = numbers(reader.match(HISTORY, 'the history'), 1);
  return {
    kind: 'report',
    ...size,
    maxval,
    colours,
    picture,
    givens,
    clues,
    map,
    open,
    word,
    past,
    future,
    text: reader.since(from)
  };
}

function readVerdict(reader, size) {
  const word = reader.line();
  if (word === 'unique') return {kind: 'verdict', word};
  if (word === 'ambiguous') return {kind: 'verdict', word, other: reader.rows(size, PICTURE_ROW)};
  const found = UNDECIDED.exec(word);
  must(found, `'${word.slice(0, 60)}' is no verdict`);
  return {kind: 'verdict', word: 'undecided', splits: Number(found[1])};
}

function readWhy(reader) {
  if (reader.peek() === 'possible' || reader.peek() === 'given')
    return {kind: 'why', word: reader.line()};
  const [text, axis, at, given] = reader.match(REASON, 'a reason');
  return {kind: 'why', word: 'by', axis, at: Number(at), premises: premisesOf(given), text};
}

// The premises behind the word `given`, each with its place along the line and the letters left.
function premisesOf(given) {
  return (given ?? '').split(' ').slice(2).map((word) => {
    const [place, letters] = word.split('=');
    return {at: Number(place), letters};
  });
}

// The looks of line logic that exclude something, each with the line (rows first), the round, the
// cells that fell, whether all blocks of the line stood, and the premises; and how many cells stay
// open.
function readPath(reader, size) {
  must(size, 'a path was asked for while the size is not known');
  const {rows, columns} = size;
  const looks = [];
  while (!reader.peek().startsWith('open ')) {
    const [, axis, number, round, excluded, fallen, stands, given] = reader.match(LOOK, 'a look');
    const at = Number(number) - 1;
    const indexOf = (place) => (axis === 'r' ? at * columns + place : place * columns + at);
    const falls = fallen.split(' ').slice(1).map(
                                                (word) => word.split('=')
    ).map(([place, letter]) => ({index: indexOf(Number(place) - 1), letter}));
    looks.push({
      line: axis === 'r' ? at : rows + at,
      round: Number(round),
      excluded: Number(excluded),
      falls,
      stands: stands !== undefined,
      needs: premisesOf(given).map(({at, letters}) => ({index: indexOf(at - 1), letters}))
    });
  }
  return {kind: 'path', looks, open: numbers(reader.match(OPEN, 'the open cells'), 1)[0]};
}

// A certificate ends where no line of one follows. A row of a map may look like such a line
// ('done'): so nothing that begins with rows may be asked behind `certify` in one text.
function readCertificate(reader) {
  const from = reader.at;
  if (reader.peek() === 'ambiguous') return {kind: reader.line()};
  reader.match(/^nonocert [12]$/, 'a certificate');
  while (CERT_LINE.test(reader.peek())) reader.line();
  return {kind: 'text', text: reader.since(from)};
}

function readPpm(reader) {
  const from = reader.at;
  reader.word('P3');
  const [columns, rows] = numbers(reader.match(pattern('N N'), 'width and height'), 1);
  reader.match(pattern('N'), 'the maxval');
  for (let cell = 0; cell < rows * columns; cell++) reader.match(pattern('N N N'), 'a cell');
  return {kind: 'text', text: reader.since(from)};
}

function readNon(reader) {
  const from = reader.at;
  const [columns] = numbers(reader.match(pattern('width N'), 'the width'), 1);
  const [rows] = numbers(reader.match(pattern('height N'), 'the height'), 1);
  for (const [word, count] of [['rows', rows], ['columns', columns]]) {
    reader.word(word);
    for (let line = 0; line < count; line++) reader.match(/^[0-9]+(?:,[0-9]+)*$/, 'a clue');
  }
  reader.match(/^goal "[01]+"$/, 'the goal');
  return {kind: 'text', text: reader.since(from)};
}

function readOk(reader) {
  reader.word('ok');
  return {kind: 'ok'};
}

const READERS = {
  clues: (reader, size) => ({kind: 'clues', ...readClues(reader, size)}),
  map: (reader, size) => ({kind: 'map', map: reader.rows(size, MAP_ROW)}),
  verdict: readVerdict,
  why: readWhy,
  path: readPath,
  certify: readCertificate,
  report: readReport,
  'write ppm': readPpm,
  'write non': readNon,
};

// The size behind an answer: a report tells it, and an accepted line inserted or deleted changes
// it. An undo may change it in a way that no text says.
function sizeBehind(words, answer, size) {
  if (answer.kind === 'report') return {rows: answer.rows, columns: answer.columns};
  if (answer.kind !== 'ok' || !size) return size;
  if (words[0] === 'undo' || words[0] === 'redo') return null;
  const more = {insert: 1, delete: -1}[words[0]];
  if (!more) return size;
  return words[1] === 'row' ? {...size, rows: size.rows + more} :
                              {...size, columns: size.columns + more};
}

/**
 * The answers in a text to the lines that asked, one for each line with a word. `size` is that of
 * the picture before the first line, or null where it is not known. Throws a TextFault where the
 * text is not one for these lines.
 */
export function answersTo(lines, text, size = null) {
  const reader = new Reader(text);
  const answers = [];
  for (const line of lines) {
    const words = line.split(/[ \t]+/).filter((word) => word !== '');
    if (words.length === 0) continue;
    const refused = REFUSED.exec(reader.peek());
    const read = READERS[words[0] === 'write' ? `write ${words[1]}` : words[0]] ?? readOk;
    const answer = refused ? {kind: 'refused', name: refused[1]} : read(reader, size);
    if (refused) reader.line();
    size = sizeBehind(words, answer, size);
    answers.push(answer);
  }
  must(reader.at === reader.lines.length, 'the text goes on behind the last answer');
  return answers;
}
