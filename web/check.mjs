// The checker alone as a module of JavaScript, without any search: whether a certificate proves
// that a picture is the only solution. It runs in browsers and in node from version 18 on.
// web/build puts what it imports into it.
//
//     const checker = await load(bytes)  // the bytes of nonobench-check.wasm
//
// - checker.check(picture, certificate, {published: [[1, 1]]}) gives {accepted, status, text,
// givens}.
// - checker.flaws(picture, {background: '0,0,0'}) gives such as ['blank', 'alike a b'].
// - checker.version is as `nonobench --version` prints it after the name.
import {
  backgroundOf,
  checkedOf,
  Fault,
  inputOf,
  instanceOf,
  isAnyGiven,
  publishedOf,
  refusalOf,
  Runs
} from './nonobench.mjs';

export {Fault};

const DONE = 0;
const REFUSED = 1;
const MEMORY = 4;

// The room of a text and of pairs of colours, as in c/nonocheck.h, and that of a background.
const ROOM = 96;
const PAIRS = 240;
const FRONT = 8;

const LETTERS = '.abcdefghijklmno';
const decoder = new TextDecoder();
const NONE = new Uint16Array(0);

// The samples of a background; none for white.
function samplesOf(options) {
  const word = backgroundOf(options);
  const words = word === '' ? [] : word.split(','), samples = words.map(Number);
  if (words.some((digits) => digits.length > 5) || samples.some((sample) => sample > 65535))
    throw new Fault('option', 'background must be R,G,B');
  return Uint16Array.from(samples);
}

// The text that was put out, up to the first zero.
const textOf = (out) => decoder.decode(out.subarray(0, out.indexOf(0)));

/** An instance of the module with its memory. It keeps nothing between calls. */
class Checker {
  #calls;
  #runs = new Runs();

  constructor(instance) {
    this.#calls = instance.exports;
  }

  /**
   * Checks a certificate of a picture, in any of its forms, and answers the program's text and
   * status: 0 if it is accepted. `published` are the cells that are published, [row, column] each,
   * or a file with a line `given R C` for each; by default none. A certificate that names another
   * given is refused with the text `certificate UnpublishedGiven at line N`. The answer has the
   * givens that the certificate names, if its proof is right. `anyGiven: true` accepts whatever it
   * names, for a site that then publishes these cells.
   */
  check(picture, certificate, options = {}) {
    const samples = samplesOf(options), isAny = isAnyGiven(options);
    const cert = inputOf(certificate);  // what is checked here, and what the givens are read of
    const files = [inputOf(picture), cert, ...(isAny ? [] : [publishedOf(options)])];
    const call = isAny ? this.#calls.nonocheck_check_any_given : this.#calls.nonocheck_check;
    const {status, out} = this.#lend(files, samples, ROOM, call);
    if (status !== DONE && status !== REFUSED) this.#refuse(status, 'background must be R,G,B');
    return checkedOf(status, textOf(out), cert);
  }

  /**
   * The flaws of a picture that show without a search, as `nonobench assess` names them: 'blank',
   * 'background' where no cell has it, and 'alike A B' for colours by their letters. Throws a Fault
   * if the picture is refused.
   */
  flaws(picture, options = {}) {
    const samples = samplesOf(options), file = inputOf(picture), found = [];
    const {status, out} = this.#lend(
        [file],
        samples,
        PAIRS + 2,
        (at, size, background, count, to) => this.#calls.nonocheck_flaws(
            at, size, background, count, to, to + 1n, to + 2n, BigInt(PAIRS)
        )
    );
    if (status !== DONE) this.#refuse(status, this.check(file, '', options).text);
    ['blank', 'background'].forEach((name, at) => out[at] && found.push(name));
    for (let at = 2; out[at + 1] > 0; at += 2)
      found.push(`alike ${LETTERS[out[at]]} ${LETTERS[out[at + 1]]}`);
    return found;
  }

  /** The version of the module, as the program prints it after its name. */
  get version() {
    return textOf(
        this.#lend(
                [], NONE, ROOM, (_at, _count, out, room) => this.#calls.nonocheck_version(out, room)
        ).out
    );
  }

  /** For tests: lets the nth growth of memory from now on be refused; 0 for none. */
  refuse(nth) {
    this.#calls.nonobench_refuse(nth);
  }

  /** How many bytes of memory the module has taken. */
  get memory() {
    return this.#calls.memory.buffer.byteLength;
  }

  #refuse(status, text) {
    if (status === MEMORY) throw new Fault('memory', 'memory');
    throw status === REFUSED ? refusalOf(text) : new Fault('option', text);
  }

  // Calls with files, a background and some room, all in one block of the module's memory: the
  // status, and what was put out.
  #lend(files, samples, room, call) {
    const size = files.reduce((sum, bytes) => sum + bytes.length, FRONT + room);
    const block = this.#runs.of(() => this.#calls.malloc(BigInt(size)));
    if (block === 0n) this.#refuse(MEMORY);
    try {
      const at = Number(block), lent = [];
      new Uint16Array(this.#calls.memory.buffer, at, samples.length).set(samples);
      let next = at + FRONT + room;
      for (const bytes of files) {
        new Uint8Array(this.#calls.memory.buffer, next, bytes.length).set(bytes);
        lent.push(next, bytes.length);
        next += bytes.length;
      }
      const status =
          this.#runs.of(() => call(...[...lent, at, samples.length, at + FRONT, room].map(BigInt)));
      return {status, out: new Uint8Array(this.#calls.memory.buffer, at + FRONT, room).slice()};
    } finally {
      if (!this.#runs.hasEnded) this.#calls.free(block);
    }
  }
}

/**
 * Makes a checker of nonobench-check.wasm: its bytes, or what WebAssembly.compile makes of them.
 */
export async function load(module) {
  return new Checker(await instanceOf(module));
}
