// Archives: zip files that are written without compression, and read with it.

import {FileFault} from '../document/limits.js';
import {phrase} from '../texts/phrase.js';
import {inflated, joined} from './deflate.js';

const MOST_ENTRIES = 20000;
const MOST_ENTRY = 16 * 1024 * 1024;      // bytes of one file in an archive
const MOST_UNPACKED = 512 * 1024 * 1024;  // of all that are read
const [LOCAL, CENTRAL, END] = [0x04034b50, 0x02014b50, 0x06054b50];
const UTF8 = 0x0800;
const DATE = 0x21;  // the first day that a zip can tell: archives of the same pictures are the same

const CRC_TABLE = Uint32Array.from({length: 256}, (_, byte) => {
  let value = byte;
  for (let bit = 0; bit < 8; bit++) value = value & 1 ? 0xedb88320 ^ (value >>> 1) : value >>> 1;
  return value;
});

/** The checksum CRC-32 of bytes. */
export function crcOf(bytes) {
  let crc = 0xffffffff;
  for (const byte of bytes) crc = CRC_TABLE[(crc ^ byte) & 255] ^ (crc >>> 8);
  return (crc ^ 0xffffffff) >>> 0;
}

// Numbers of 2 or 4 bytes, the low byte first.
function packed(...fields) {
  return Uint8Array.from(fields.flatMap(
      ([value, size]) => Array.from({length: size}, (_, at) => (value >>> (8 * at)) & 255)
  ));
}
const two = (value) => [value, 2];
const four = (value) => [value, 4];

/** A zip that takes files one after the other, each `{name, bytes}`; `bytes` is all of it. */
export class ZipWriter {
  pieces = [];
  central = [];
  at = 0;

  add({name, bytes}) {
    const title = new TextEncoder().encode(name);
    const fields = [
      two(20),
      two(UTF8),
      two(0),
      two(0),
      two(DATE),
      four(crcOf(bytes)),
      four(bytes.length),
      four(bytes.length),
      two(title.length),
      two(0)
    ];
    this.central.push(joined([
      packed(four(CENTRAL), two(20), ...fields, two(0), two(0), two(0), four(0), four(this.at)),
      title
    ]));
    const piece = joined([packed(four(LOCAL), ...fields), title, bytes]);
    this.pieces.push(piece);
    this.at += piece.length;
  }

  get bytes() {
    const [directory, count] = [joined(this.central), two(this.pieces.length)];
    return joined([
      ...this.pieces,
      directory,
      packed(four(END), two(0), two(0), count, count, four(directory.length), four(this.at), two(0))
    ]);
  }
}

/** A zip of files, each `{name, bytes}`. */
export function writeZip(files) {
  const zip = new ZipWriter();
  for (const file of files) zip.add(file);
  return zip.bytes;
}

const damaged = () => new FileFault(phrase('formats.archiveDamaged'));

// The names of files: all UTF-8, or else a letter for each byte, so that two names stay two.
function namesOf(titles) {
  const decoded = (...kind) => titles.map((title) => new TextDecoder(...kind).decode(title));
  try {
    return decoded('utf-8', {fatal: true, ignoreBOM: true});
  } catch {
    return decoded('windows-1252');
  }
}

/**
 * The files of a zip by their directory, each `{name, size, read}`: `read()` gives its bytes, or
 * null for what is encrypted or too large, whose size is Infinity.
 */
export function zipEntries(bytes) {
  const view = new DataView(bytes.buffer, bytes.byteOffset, bytes.byteLength);
  let end = bytes.length - 22;
  while (end >= 0 && view.getUint32(end, true) !== END) end--;
  if (end < 0) throw damaged();
  const count = view.getUint16(end + 10, true);
  if (count > MOST_ENTRIES) throw new FileFault(phrase('formats.archiveTooManyFiles'));
  const [titles, files] = [[], []];
  let packed = 0;  // bytes of all entries
  for (let at = view.getUint32(end + 16, true), left = count; left > 0; left--) {
    if (at + 46 > bytes.length || view.getUint32(at, true) !== CENTRAL) throw damaged();
    const [title, extra, comment] = [28, 30, 32].map((offset) => view.getUint16(at + offset, true));
    titles.push(bytes.subarray(at + 46, at + 46 + title));
    const entry = at;
    files.push({size: unpackedSize(view, entry), read: () => unpackedEntry(bytes, view, entry)});
    if (files.at(-1).size < Infinity) packed += view.getUint32(entry + 20, true);
    at += 46 + title + extra + comment;
  }
  const whole = files.reduce((sum, {size}) => sum + (size < Infinity ? size : 0), 0);
  if (whole > MOST_UNPACKED) throw new FileFault(phrase('formats.archiveTooManyFiles'));
  if (packed > bytes.length)
    throw damaged();  // entries that lie over one another would be unpacked again and again
  const names = namesOf(titles);
  return files.map((file, at) => ({name: names[at], ...file}));
}

function unpackedSize(view, at) {
  const [flags, method, length] =
      [view.getUint16(at + 8, true), view.getUint16(at + 10, true), view.getUint32(at + 24, true)];
  return flags & 1 || ![0, 8].includes(method) || length > MOST_ENTRY ? Infinity : length;
}

async function unpackedEntry(bytes, view, at) {
  const [crc, size, local] = [16, 20, 42].map((place) => view.getUint32(at + place, true));
  const method = view.getUint16(at + 10, true), length = unpackedSize(view, at);
  if (length === Infinity) return null;
  if (!length) return new Uint8Array();
  if (local + 30 > bytes.length || view.getUint32(local, true) !== LOCAL) throw damaged();
  const from = local + 30 + view.getUint16(local + 26, true) + view.getUint16(local + 28, true);
  if (from + size > bytes.length) throw damaged();
  const raw = bytes.subarray(from, from + size);
  const whole = method === 0 ? raw : await inflated(raw, length).catch(() => {
    throw damaged();
  });
  if (whole.length !== length || crcOf(whole) !== crc) throw damaged();
  return whole;
}
