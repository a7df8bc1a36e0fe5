// What the program reads and writes, a call after another, so that a signal from the keyboard ends
// it as it ends any program.
import {closeSync, openSync, readSync, writeSync} from 'node:fs';
import {ended} from './ending.mjs';

// How many bytes an input but a session's has at the most, and how many one read has room for.
const MOST_BYTES = 16777216;
const ROOM = 4096;
const MILLISECONDS = 5;

// How many reads a session makes at the most, and how many bytes of a line are kept: more than a
// line may have.
const MOST_READS = 1048576;
const MOST_KEPT = 1024;

const FEED = 10;

// Calls until a stream that was opened not to wait is ready.
function whenReady(call) {
  for (;;) {
    try {
      return call();
    } catch (error) {
      if (error.code !== 'EAGAIN') throw error;
      Atomics.wait(new Int32Array(new SharedArrayBuffer(4)), 0, 0, MILLISECONDS);
    }
  }
}

// Reads once, and answers the bytes: none only at the end of the input.
function readSome(descriptor, room) {
  try {
    return room.subarray(0, whenReady(() => readSync(descriptor, room, 0, room.length, null)));
  } catch (error) {
    if (error.code === 'EOF')
      return room.subarray(0, 0);  // the end of the input from a console of Windows
    throw ended(3, 'read failed');
  }
}

// All bytes of an open file.
function readWhole(descriptor) {
  const pieces = [], room = Buffer.alloc(16 * ROOM);
  for (let size = 0;;) {
    const piece = readSome(descriptor, room);
    if (piece.length === 0) return Buffer.concat(pieces);
    size += piece.length;
    if (size > MOST_BYTES) throw ended(1, 'input too long');
    pieces.push(Buffer.from(piece));
  }
}

function opened(path) {
  try {
    return openSync(path, 'r');
  } catch {
    throw ended(3, 'read failed');
  }
}

/** All bytes of standard input. */
export const readInput = () => readWhole(0);

/** All bytes of a file. */
export function readFile(path) {
  const descriptor = opened(path);
  try {
    return readWhole(descriptor);
  } finally {
    closeSync(descriptor);
  }
}

/**
 * Passes the lines of standard input to a call, each as soon as it has come: its bytes with the
 * line feed.
 */
export function eachLine(call) {
  const room = Buffer.alloc(ROOM);
  let begun = Buffer.alloc(0);
  for (let reads = 0;; reads += 1) {
    if (reads >= MOST_READS) throw ended(3, 'read failed');
    const piece = readSome(0, room);
    if (piece.length === 0) break;
    let from = 0;
    for (let feed = piece.indexOf(FEED); feed >= 0; feed = piece.indexOf(FEED, from)) {
      call(Buffer.concat([begun, piece.subarray(from, feed + 1)]));
      begun = Buffer.alloc(0);
      from = feed + 1;
    }
    begun = Buffer.concat([begun, piece.subarray(from)]).subarray(0, MOST_KEPT);
  }
  if (begun.length > 0) call(begun);
}

/** Writes a text on standard output, whole. */
export function write(text) {
  const bytes = Buffer.from(text);
  try {
    for (let at = 0; at < bytes.length;) at += whenReady(() => writeSync(1, bytes, at));
  } catch {
    throw ended(3, 'write failed');
  }
}

/** Says a text on standard error. Where that fails, nobody can be told. */
export function say(text) {
  try {
    whenReady(() => writeSync(2, text));
  } catch {
    // The status tells it.
  }
}
