// The workbench as a module of JavaScript: benches on pictures, and the check of certificates. It
// imports nothing and runs in browsers and in node from version 18 on.
//
//     const engine = await load(bytes)  // the bytes of nonobench.wasm
//
// - engine.open(picture, {history: 100}) makes a bench on a P3 picture or a two-colour .non text;
//   bench.say('clues\nverdict\n') gives what the program `nonobench work` answers; bench.close().
// - engine.check(picture, certificate, {published: [[1, 1]]}) gives {accepted, status, text,
// givens}.
// - engine.assess(picture, {background: '0,0,0'}) gives {verdict, .., grade, flaws, fit}.
// - engine.prove(picture, {published: [[1, 1]]}) gives {ruling, certificate}.
// - engine.clues(picture) gives {text, palette}: what the program `nonobench` prints for it, and
// which colour each letter is.
// - engine.version is as `nonobench --version` prints it after the name.

const DONE = 0;
const MEMORY = 4;
const OPTIONS = 6;

// How many bytes an input may have, as for the program, and how many cells a picture.
const MOST_BYTES = 16777216;
const MOST_CELLS = 14400;

// How many splits an allowance may name.
const MOST_SPLITS = 99999;

// The bytes in which a text is first taken.
const FIRST_SIZE = 65536;

// Where the handle of a bench lies, behind the desk's pointer in its cell.
const HANDLE_AT = 8n;

// What the program says of a file that is refused: its kind, the error's name, and its place.
const REFUSAL = /^(ppm|non|givens|certificate) (\w+)(?: at byte (\d+)| at line (\d+))?$/;
const KINDS = {
  ppm: 'picture',
  non: 'picture',
  givens: 'givens',
  certificate: 'certificate'
};
const NAMES = {
  length: 'TooLong',
  timeout: 'TimeoutError'
};

const numberOf = (digits) => (digits === undefined ? null : Number(digits));

/**
 * Why a call was not answered. `kind` is what was refused: 'picture', 'certificate', 'givens',
 * 'length' or 'option'; or 'memory', 'closed', 'ended' or 'timeout'. `name` is the error's name,
 * such as 'UnpublishedGiven', and 'Fault' if it has none. `text` is what the program says, and
 * `byte` or `line` the place in the file.
 */
export class Fault extends Error {
  constructor(kind, text) {
    super(text);
    const [, , name, byte, line] = REFUSAL.exec(text) ?? [];
    this.name = name ?? NAMES[kind] ?? 'Fault';
    this.kind = kind;
    this.text = text;
    this.byte = numberOf(byte);
    this.line = numberOf(line);
  }
}

// Why a file is refused, as the program says it.
const refusalOf = (text) => new Fault(KINDS[REFUSAL.exec(text)?.[1]] ?? 'picture', text);

const encoder = new TextEncoder();
const decoder = new TextDecoder();

// An option, where it is a property of the object itself: what somebody has put on Object.prototype
// is none.
const own = (options, name) =>
    (options && Object.hasOwn(options, name) ? options[name] : undefined);

// The bytes of a text, or a copy of bytes: neither another thread nor a class of the caller's says
// anything else of them later.
function bytesOf(input) {
  if (typeof input === 'string') return encoder.encode(input);
  if (input instanceof Uint8Array || input instanceof ArrayBuffer) return new Uint8Array(input);
  throw new TypeError('expected a string, a Uint8Array or an ArrayBuffer');
}

// The bytes of a file, which may have so many as for the program.
function inputOf(input) {
  // A text has as many bytes as letters, or more.
  if ((typeof input === 'string' ? input.length : input?.byteLength) > MOST_BYTES)
    throw new Fault('length', 'input too long');
  const bytes = bytesOf(input);
  if (bytes.length > MOST_BYTES) throw new Fault('length', 'input too long');
  return bytes;
}

// The word for a background: empty where none is given, and then not taken for one.
function backgroundOf(options) {
  const word = own(options, 'background');
  if (word === undefined || word === null) return '';
  const text = String(word);
  if (!/^[0-9]+,[0-9]+,[0-9]+$/.test(text)) throw new Fault('option', 'background must be R,G,B');
  return text;
}

// Whether a file is a .non text: a line of it begins with a word of that format, and it does not
// begin as a picture does.
function isNon(bytes) {
  const front = decoder.decode(bytes.subarray(0, FIRST_SIZE));
  return !/^P3(?:\s|#)/.test(front) &&
      /^[ \t]*(?:width|height|rows|columns|goal|catalogue|title)\b/m.test(front);
}

const NONE = new Uint8Array(0);

// The cells that are published as a file of givens: a line for each pair, or a text as it is. Each
// is an own property of its array, read once.
function publishedOf(options) {
  const cells = own(options, 'published');
  if (cells === undefined || cells === null) return NONE;
  if (!Array.isArray(cells)) return inputOf(cells);
  if (cells.length > MOST_CELLS) throw new Fault('length', 'input too long');
  let lines = '';
  for (let at = 0; at < cells.length; at++) {
    const place = own(cells, at),
          [row, column] =
              Array.isArray(place) && place.length === 2 ? [own(place, 0), own(place, 1)] : [];
    if (!Number.isInteger(row) || !Number.isInteger(column)) {
      throw new TypeError(
          'published must be pairs [row, column] that count from 1, or a file of givens'
      );
    }
    lines += `given ${row} ${column}\n`;
  }
  return inputOf(lines);
}

// Whether any given of a certificate is accepted.
const isAnyGiven = (options) => own(options, 'anyGiven') === true;

// Whether the file of a call is a .non text, as the option says or its contents do. A background
// goes with a picture alone.
function isNonFor(bytes, options, background) {
  const format = own(options, 'format') ?? null,
        non = format === null ? isNon(bytes) : format === 'non';
  if (![null, 'ppm', 'non'].includes(format))
    throw new Fault('option', 'format must be ppm or non');
  if (non && background.length > 0) throw new Fault('option', 'background goes with ppm');
  return non;
}

// The givens that a text names in lines directly below its first one: a right certificate, or the
// engine's text for one that is accepted.
function givensOf(bytes) {
  const from = bytes.indexOf(0x0a) + 1;
  if (bytes[from] !== 0x67) return [];  // 'g'
  const text = decoder.decode(bytes), line = /given (\d+) (\d+)(?:\n|$)/y, givens = [];
  line.lastIndex = from;
  for (let found = line.exec(text); found; found = line.exec(text))
    givens.push([Number(found[1]), Number(found[2])]);
  return givens;
}

// The answer to a check, by its status, its line and what names the certificate's givens.
function checkedOf(status, text, named) {
  const givens =
      status === DONE || text.startsWith('certificate UnpublishedGiven ') ? givensOf(named) : [];
  if (status === DONE &&
      text !== `certificate accepted${givens.length > 0 ? `, givens ${givens.length}` : ''}\n`)
    throw new Fault('ended', `the module names other givens: ${text}`);
  return {accepted: status === DONE, status, text, givens};
}

const UTF_16 = 'it is UTF-16, and must be ASCII';

// What a certificate that begins with these two bytes is.
const ODD_STARTS = new Map([
  ['255 254', UTF_16],
  ['254 255', UTF_16],
  ['110 0', UTF_16],
  ['0 110', UTF_16],
  ['239 187', 'it begins with a byte order mark, and must begin with its first word'],
]);

/**
 * What an editor seems to have done to a certificate that was refused with the text `certificate
 * NotCert at line 1`; empty where there is no sign of that, and for another text.
 */
export function hintOf(text, certificate) {
  if (text.trimEnd() !== 'certificate NotCert at line 1') return '';
  const front = bytesOf(certificate).subarray(0, FIRST_SIZE),
        line = decoder.decode(front).split('\n', 1)[0];
  const odd = ODD_STARTS.get(front.subarray(0, 2).join(' '));
  return odd ?? (line.endsWith('\r') ? 'its lines end with CR LF, and must end with LF only' : '');
}

// Which colour each letter is, of lines such as `colour . 255 255 255`.
function paletteOf(text) {
  const found = text.matchAll(/^colour ([.a-o]) (\d+) (\d+) (\d+)$/gm);
  return Object.fromEntries(
      [...found].map(([, letter, ...samples]) => [letter, samples.map(Number)])
  );
}

// The text of an assessment, line by line. The palette follows in that of the library's call.
const ASSESSMENT = new RegExp([
  '^(?<verdict>unique|ambiguous|undecided)\\n(?<other>(?:[.a-o]+\\n)*)size (?<rows>N) (?<columns>N)\\ncolours (?<colours>N)\\n',
  'givens (?<givens>N)\\nopen (?<open>N)\\n(?:grade (?<word>[a-z-]+) (?<rounds>N) (?<evaluations>N) (?<wait>N)(?: (?<splits>N) (?<depth>N))?\\n)?',
  '(?<said>(?:flaw [a-z]+(?: [.a-o0-9]+)*\\n)*)(?<end>fit|unfit)\\n(?<palette>(?:colour [.a-o](?: N){3}\\n)*)$',
].join('').replaceAll('N', '\\d+'));

const numbersIn = (found, names) => Object.fromEntries(
    names.map((name) => [name, found[name] === undefined ? null : Number(found[name])])
);

/**
 * What an assessment says, as a value: of the text of the library's call, the program or a
 * session. What the program prints is in `text`; the palette is null if there is none in the text.
 */
export function readAssessment(text) {
  const found = ASSESSMENT.exec(text)?.groups;
  if (!found) throw new TypeError(`this is no assessment: ${text.slice(0, 60)}`);
  const lines = found.said.split('\n');
  return {
    verdict: found.verdict,
    other: found.verdict === 'ambiguous' ? found.other.split('\n').slice(0, -1) : null,
    ...numbersIn(found, ['rows', 'columns', 'colours', 'givens', 'open']),
    grade: found.word ? {
      word: found.word,
      ...numbersIn(found, ['rounds', 'evaluations', 'wait', 'splits', 'depth'])
    } :
                        null,
    flaws: lines.filter((line) => line.startsWith('flaw ')).map((line) => line.slice(5)),
    fit: found.end === 'fit',
    palette: found.palette === '' ? null : paletteOf(found.palette),
    text: text.slice(0, text.length - found.palette.length),
  };
}

const LOOK = /^([rc]) (\d+) (\d+) (\d+)((?: \d+=[.a-o])*)( stands)?((?: given(?: \d+=[.a-o]+)+)?)$/;

// Cells of a line: words such as 3=ab, each a place along it and letters.
const cellsIn = (words) => words.split(' ').filter((word) => word.includes('=')).map((word) => {
  const [place, letters] = word.split('=');
  return {place: Number(place), letters};
});

/**
 * The path of line logic as a value, of the text that a session prints for `path`: its looks, each
 * with the premises that it needs, and how many cells stay open. Places along a line count from 1.
 */
export function readPath(text) {
  const lines = text.split('\n'), last = /^open (\d+)$/.exec(lines.at(-2));
  const found = lines.slice(0, -2).map((line) => LOOK.exec(line));
  if (!last || lines.at(-1) !== '' || found.includes(null))
    throw new TypeError(`this is no path: ${text.slice(0, 60)}`);
  const looks = found.map(([, axis, number, round, excluded, falls, stands, premises]) => ({
                            axis,
                            number: Number(number),
                            round: Number(round),
                            excluded: Number(excluded),
                            falls: cellsIn(falls),
                            stands: stands !== undefined,
                            premises: cellsIn(premises)
                          }));
  return {looks, open: Number(last[1])};
}

// Runs calls of a module. A trap leaves its memory as it was in mid-call, so nothing is called
// after it.
class Runs {
  hasEnded = false;

  of(call) {
    if (this.hasEnded) throw new Fault('ended', 'the module has ended');
    try {
      return call();
    } catch (error) {
      if (error instanceof Fault) throw error;
      this.hasEnded = true;
      throw new Fault('ended', `the module has ended: ${error.message}`);
    }
  }
}

/** An instance of the module with its memory. Each has benches of its own. */
class Engine {
  #calls;
  #cell;  // that of the desk for calls without a bench
  #runs = new Runs();
  // Ends the desks of benches that nobody holds any more.
  #dropped = new FinalizationRegistry((cell) => this.#end(cell));

  constructor(instance) {
    this.#calls = instance.exports;
    this.#cell = this.#desk();
  }

  /** Opens a bench. Throws a Fault if the file is refused. */
  open(file, options = {}) {
    const bytes = inputOf(file), history = own(options, 'history') ?? 100;
    if (!Number.isInteger(history) || history < 1 || history > 1000)
      throw new Fault('option', 'history must be 1 to 1000');
    const background = this.#background(options), non = isNonFor(bytes, options, background);
    // Each bench has a desk of its own, which ends in a moment, however many others are open.
    const cell = this.#desk();
    let palette;
    try {
      const status = this.#lend(
          [bytes, background],
          ([file, word]) => this.#calls.nonobench_open(
              cell, file.at, file.size, non ? 1 : 0, word.at, word.size, history, cell + HANDLE_AT
          )
      );
      if (status !== DONE) this.#refuse(status, cell);
      palette = paletteOf(this.#text(cell));
    } catch (fault) {
      this.#end(cell);
      throw fault;
    }
    const bench =
        new Bench(palette, (lines) => this.#say(cell, lines), () => this.#close(cell, bench));
    this.#dropped.register(bench, cell, bench);
    return bench;
  }

  /**
   * Checks a certificate of a picture, in any of its forms, and answers the program's text and
   * status: 0 if it is accepted. `published` are the cells that are published, [row, column] each,
   * or a file with a line `given R C` for each; by default none. A certificate that names another
   * given is refused with the text `certificate UnpublishedGiven at line N`. The answer has the
   * givens that the certificate names, if its proof is right. `anyGiven: true` accepts whatever it
   * names, for a site that then publishes these cells.
   */
  check(picture, certificate, options = {}) {
    const background = this.#background(options), isAny = isAnyGiven(options);
    const cert = inputOf(certificate);
    const files = [inputOf(picture), cert, ...(isAny ? [] : [publishedOf(options)]), background];
    const call = isAny ? 'nonobench_check_any_given' : 'nonobench_check';
    const status = this.#lend(
        files, (lent) => this.#calls[call](this.#cell, ...lent.flatMap(({at, size}) => [at, size]))
    );
    if (status === MEMORY || status === OPTIONS) this.#refuse(status);
    const said = this.#text();
    if (status !== DONE) return checkedOf(status, said, cert);
    return checkedOf(status, said.slice(0, said.indexOf('\n') + 1), inputOf(said));
  }

  /**
   * Assesses a puzzle, a picture or a .non text with a goal: what readAssessment gives of the
   * engine's text. `published` cells are the givens, as for `check`, and a `certificate` takes the
   * place of the search for another solution. `allowance` bounds the splits of each part: by
   * default 10000, 'off' for none. Throws a Fault where one of the files is refused.
   */
  assess(puzzle, options = {}) {
    const file = inputOf(puzzle), background = this.#background(options),
          non = isNonFor(file, options, background);
    const allowance = own(options, 'allowance') ?? '';
    if (allowance !== '' && allowance !== 'off' &&
        !(Number.isInteger(allowance) && allowance >= 0 && allowance <= MOST_SPLITS)) {
      throw new Fault('option', `allowance must be 0 to ${MOST_SPLITS} or 'off'`);
    }
    const published = publishedOf(options), certificate = own(options, 'certificate') ?? null;
    const status = this.#lend(
        [
          file,
          background,
          published,
          certificate === null ? NONE : inputOf(certificate),
          inputOf(`${allowance}`)
        ],
        ([picture, word, listed, cert, bound]) => this.#calls.nonobench_assess(
            this.#cell,
            picture.at,
            picture.size,
            non ? 1 : 0,
            word.at,
            word.size,
            1,
            listed.at,
            listed.size,
            certificate === null ? 0 : 1,
            cert.at,
            cert.size,
            bound.at,
            bound.size
        )
    );
    if (status !== DONE) this.#refuse(status);
    return readAssessment(this.#text());
  }

  /**
   * Makes a certificate of a picture whose givens are exactly the `published` cells: {ruling,
   * certificate}. The ruling is 'unique' with the certificate, or 'ambiguous' or 'undecided' with
   * null. A search that is `complete` has no bounds. `format` is 2, or 1 for a certificate with
   * lemmas that is `nonolemma 1`. Throws a Fault where picture or givens are refused.
   */
  prove(picture, options = {}) {
    const background = this.#background(options), format = own(options, 'format') ?? 2,
          complete = own(options, 'complete') === true ? 1 : 0;
    if (format !== 1 && format !== 2) throw new Fault('option', 'format must be 1 or 2');
    const status = this.#lend(
        [inputOf(picture), publishedOf(options), background],
        ([file, listed, word]) => this.#calls.nonobench_prove(
            this.#cell,
            file.at,
            file.size,
            listed.at,
            listed.size,
            word.at,
            word.size,
            complete,
            format
        )
    );
    if (status !== DONE) this.#refuse(status);
    const text = this.#text(), certificate = text.startsWith('nono') ? text : null;
    return {ruling: certificate ? 'unique' : text.trimEnd(), certificate};
  }

  /**
   * The clues of a file: {text, palette}, with a line for each row and column in the text, as the
   * program prints them. Throws a Fault if the file is refused.
   */
  clues(file, options = {}) {
    const bench = this.open(file, options);
    try {
      const text = bench.say('clues\n');
      if (text.startsWith('refused')) this.#refuse(MEMORY);
      return {text, palette: bench.palette};
    } finally {
      bench.close();
    }
  }

  // Answers lines on the bench of a cell's desk.
  #say(cell, lines) {
    const handle =
        new DataView(this.#calls.memory.buffer).getUint32(Number(cell + HANDLE_AT), true);
    const status = this.#lend(
        [bytesOf(lines)], ([text]) => this.#calls.nonobench_say(cell, handle, text.at, text.size)
    );
    if (status !== DONE) this.#refuse(status, cell);
    return this.#text(cell);
  }

  // Ends the desk of a bench.
  #close(cell, bench) {
    this.#dropped.unregister(bench);
    this.#runs.of(() => this.#end(cell));
  }

  /** The version of the module, as the program prints it after its name. */
  get version() {
    return this.#put((out, size) => this.#calls.nonobench_version(out, size));
  }

  /** For tests: lets the nth growth of memory from now on be refused; 0 for none. */
  refuse(nth) {
    this.#calls.nonobench_refuse(nth);
  }

  /** How many bytes of memory the module has taken. */
  get memory() {
    return this.#calls.memory.buffer.byteLength;
  }

  // A new desk, in a cell with room for a handle.
  #desk() {
    const cell = this.#allocate(16);
    if (this.#runs.of(() => this.#calls.nonobench_start(cell)) === DONE) return cell;
    this.#free(cell);
    throw new Fault('memory', 'memory');
  }

  // Ends a desk with what is open on it, and gives its cell back.
  #end(cell) {
    if (this.#runs.hasEnded) return;
    this.#calls.nonobench_end(new DataView(this.#calls.memory.buffer
    ).getBigUint64(Number(cell), true));
    this.#calls.free(cell);
  }

  #background(options) {
    return encoder.encode(backgroundOf(options));
  }

  #refuse(status, cell = this.#cell) {
    if (status === MEMORY) throw new Fault('memory', 'memory');
    if (status === OPTIONS) throw new Fault('option', 'background must be R,G,B');
    throw refusalOf(this.#text(cell));
  }

  // The text of the last call on a desk.
  #text(cell = this.#cell) {
    return this.#put((out, size) => this.#calls.nonobench_take(cell, out, size));
  }

  // The text that a call puts out, as far as there is room, and answers how many bytes it has.
  #put(call) {
    for (let most = FIRST_SIZE;;) {
      const out = this.#allocate(most);
      try {
        const size = Number(this.#runs.of(() => call(out, BigInt(most))));
        if (size <= most)
          return decoder.decode(new Uint8Array(this.#calls.memory.buffer, Number(out), size));
        most = size;
      } finally {
        this.#free(out);
      }
    }
  }

  // Runs a call with inputs that are lent to it, each as {at, size}, and answers what it does.
  #lend(inputs, call) {
    const lent = [];
    try {
      for (const bytes of inputs) {
        const at = this.#allocate(bytes.length);
        new Uint8Array(this.#calls.memory.buffer, Number(at), bytes.length).set(bytes);
        lent.push({at, size: BigInt(bytes.length)});
      }
      return this.#runs.of(() => call(lent));
    } finally {
      for (const {at} of lent) this.#free(at);
    }
  }

  #allocate(size) {
    const at = this.#runs.of(() => this.#calls.malloc(BigInt(size)));
    if (at === 0n) throw new Fault('memory', 'memory');
    return at;
  }

  #free(at) {
    if (!this.#runs.hasEnded) this.#calls.free(at);
  }
}

/**
 * A bench on a picture: what a session is said to, until it is closed. One that nobody holds any
 * more is closed at some time.
 */
class Bench {
  #say;
  #close;
  #isClosed = false;

  constructor(palette, say, close) {
    /** Which colour each letter is, of the picture as it was opened. */
    this.palette = palette;
    this.#say = say;
    this.#close = close;
  }

  /** Answers lines, each a command, with exactly what the program writes for them. */
  say(lines) {
    this.#refuseClosed();
    return this.#say(lines);
  }

  /** Ends the bench. Each further call throws a Fault. */
  close() {
    this.#refuseClosed();
    this.#isClosed = true;
    this.#close();
  }

  #refuseClosed() {
    if (this.#isClosed) throw new Fault('closed', 'closed');
  }

  // `using bench = engine.open(..)` ends it, where the language has that.
  [/** @type {any} */ (Symbol).dispose ?? Symbol('dispose')]() {
    if (!this.#isClosed) this.close();
  }
}

/** Makes an engine of nonobench.wasm: its bytes, or what WebAssembly.compile makes of them. */
export async function load(module) {
  return new Engine(await instanceOf(module));
}

// A module with the type of a function that answers a vector: it is valid where there is SIMD.
const SIMD = Uint8Array.of(0, 97, 115, 109, 1, 0, 0, 0, 1, 5, 1, 96, 0, 1, 123);

// An instance of a module, of its bytes or compiled.
async function instanceOf(module) {
  try {
    const made = await WebAssembly.instantiate(module, {});
    return made.instance ?? made;
  } catch (error) {
    if (WebAssembly.validate(SIMD)) throw error;
    throw new Error('this browser or Node.js has no WebAssembly SIMD, which nonobench needs');
  }
}

// What web/check.mjs takes over.
export {
  backgroundOf,
  checkedOf,
  inputOf,
  instanceOf,
  isAnyGiven,
  own,
  publishedOf,
  refusalOf,
  Runs
};
