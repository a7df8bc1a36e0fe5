// Palette files, read and written: GIMP's .gpl, JASC's .pal, and .hex, one colour a line. A palette
// is {name, colours: [{triple, name}]} with samples of eight bits.

import {isSame, plainHexOf} from '../document/colours.js';
import {FileFault, MOST_NAME} from '../document/limits.js';
import {phrase} from '../texts/phrase.js';

const MOST_COLOURS = 1024;   // in a file
const MOST_SIGNS = 2 ** 20;  // of a file, with names and comments
const FAULTS = {
  NoPalette: () => phrase('formats.paletteNotRead'),
  BadColour: (line) => phrase('formats.paletteBadColour', {line}),
  BadCount: (line) => phrase('formats.paletteBadCount', {line}),
  NoColours: () => phrase('formats.paletteNoColours'),
  TooMany: () => phrase('formats.paletteTooMany', {most: MOST_COLOURS}),
};

/** A palette that is not read; `kind` names why. */
export class PaletteFault extends FileFault {
  constructor(kind, line = 0) {
    super(FAULTS[kind](line));
    this.kind = kind;
  }
}

const linesOf = (text) => text.replace(/^\ufeff/, '').split(/\r\n|\r|\n/);
const hexLine = /^#?([0-9a-f]{6})$/i;

/**
 * What a text is: 'gpl', 'pal', 'hex' or null. A .hex has no mark: it has colours, comments and
 * blank lines alone.
 */
export function kindOfPalette(text) {
  const [first] = linesOf(text.slice(0, 80));
  if (first.trim() === 'GIMP Palette') return 'gpl';
  if (first.trim() === 'JASC-PAL') return 'pal';
  if (text.length > MOST_SIGNS) return null;
  const filled =
      linesOf(text).map((line) => line.trim()).filter((line) => line && !line.startsWith(';'));
  return filled.length > 0 && filled.every((line) => hexLine.test(line)) ? 'hex' : null;
}

// Three samples and what follows them, in a line with its number from 1.
function colourOfLine(line, number) {
  const found = /^(\d{1,3})\s+(\d{1,3})\s+(\d{1,3})(?:\s([^]*))?$/.exec(line.trim());
  const triple = found ? found.slice(1, 4).map(Number) : [];
  if (!found || triple.some((sample) => sample > 255)) throw new PaletteFault('BadColour', number);
  const name = (found[4] ?? '').trim();
  return {triple, name: name.length > MOST_NAME ? '' : name};
}

function readGpl(lines) {
  let name = '';
  const colours = [];
  for (const [at, line] of lines.entries()) {
    if (at === 0 || !line.trim() || line.startsWith('#')) continue;
    const head = /^(Name|Columns):([^]*)$/.exec(line);
    if (head?.[1] === 'Name') name = head[2].trim();
    if (!head) colours.push(colourOfLine(line, at + 1));
  }
  return {
    name,
    colours: colours.map(
        (one) => (/^(Untitled|#?[0-9a-f]{6})$/i.test(one.name) ? {...one, name: ''} : one)
    )
  };
}

// Version and count stand before the colours.
function readPal(lines) {
  if ((lines[1] ?? '').trim() !== '0100') throw new PaletteFault('NoPalette');
  const colours = lines.flatMap(
      (line, at) => (at > 2 && line.trim() ? [{...colourOfLine(line, at + 1), name: ''}] : [])
  );
  if (Number((lines[2] ?? '').trim() || NaN) !== colours.length)
    throw new PaletteFault('BadCount', 3);
  return {name: '', colours};
}

// Lines that are no colours are left out; none is refused.
function readHex(lines) {
  const digits = lines.map((line) => hexLine.exec(line.trim())?.[1]).filter(Boolean);
  return {
    name: '',
    colours: digits.map(
        (one) => ({triple: [0, 2, 4].map((at) => parseInt(one.slice(at, at + 2), 16)), name: ''})
    )
  };
}

/** The palette in a text; colours that are there twice count once. Throws a PaletteFault. */
export function readPalette(text) {
  const kind = kindOfPalette(text);
  if (!kind) throw new PaletteFault('NoPalette');
  if (text.length > MOST_SIGNS) throw new PaletteFault('TooMany');
  const {name, colours} = {gpl: readGpl, pal: readPal, hex: readHex}[kind](linesOf(text));
  if (!colours.length) throw new PaletteFault('NoColours');
  if (colours.length > MOST_COLOURS) throw new PaletteFault('TooMany');
  return {
    name,
    kind,
    colours: colours.filter(
        ({triple}, at) => colours.findIndex((one) => isSame(one.triple, triple)) === at
    )
  };
}

const oneLine = (text) => text.replace(/\s+/g, ' ').trim();

/** A palette as a text of a kind: 'gpl', 'pal' or 'hex'. */
export function paletteText({name = '', colours}, kind) {
  if (kind === 'hex') return colours.map(({triple}) => `${plainHexOf(triple)}\n`).join('');
  if (kind === 'pal')
    return `JASC-PAL\r\n0100\r\n${colours.length}\r\n${
        colours.map(({triple}) => `${triple.join(' ')}\r\n`).join('')}`;
  const line = ({triple, name: own}) =>
      `${triple.map((sample) => String(sample).padStart(3)).join(' ')}\t${
          oneLine(own ?? '') || 'Untitled'}\n`;
  return `GIMP Palette\nName: ${oneLine(name) || 'palette'}\nColumns: 0\n#\n${
      colours.map(line).join('')}`;
}
