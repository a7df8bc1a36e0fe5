// What nonobench.mjs offers.

declare global {
  // As in newer libraries of TypeScript. Older engines do not have it.
  interface SymbolConstructor {
    readonly dispose: unique symbol;
  }
  // As in the library for browsers, which other programs do not name.
  namespace WebAssembly {
    interface Module {}
  }
}

/** A file: its text, or its bytes. At most 16,777,216 bytes. */
export type Input = string | Uint8Array | ArrayBuffer;

export interface OpenOptions {
  /** How many edits can be undone, 1 to 1000; by default 100. */
  history?: number;
  /** The colour of the background in a P3 picture, 'r,g,b'; by default white. */
  background?: string | null;
  /** The file's format; by default it is recognised by the file's contents. */
  format?: 'ppm' | 'non';
}

/** A cell, its row and column counted from 1. */
export type Place = readonly [row: number, column: number];

export interface CheckOptions {
  /** The colour of the background, 'r,g,b'; by default white. */
  background?: string | null;
  /**
   * The cells whose colours are published, or a file with a line `given R C` for each; by default
   * none.
   */
  published?: readonly Place[] | Input | null;
  /** Whether a certificate may name any givens: for a site that then publishes these. */
  anyGiven?: boolean;
}

export interface ProveOptions {
  /** The colour of the background, 'r,g,b'; by default white. */
  background?: string | null;
  /**
   * The cells whose colours are published, or a file with a line `given R C` for each; by default
   * none. The certificate names exactly these.
   */
  published?: readonly Place[] | Input | null;
  /**
   * Whether the search goes on until it has decided, which may take any time; by default it has
   * bounds.
   */
  complete?: boolean;
  /**
   * The form of a certificate with lemmas: 2 for `nonolemma 2`, the default, or 1 for
   * `nonolemma 1`.
   */
  format?: 1 | 2;
}

/**
 * Which colour each letter is, the background first: its samples are on the scale of the picture,
 * up to its maxval.
 */
export type Palette = Record<string, [red: number, green: number, blue: number]>;

/** The answer to a picture and a certificate. */
export interface Checked {
  /**
   * It proves that no other picture of that size has the clues and the givens' colours, and all
   * givens are published.
   */
  accepted: boolean;
  /** The program's status: 0 if it is accepted; 1 also if a given is not published. */
  status: number;
  /** What the program says. */
  text: string;
  /** The givens that it names, if it is right, even if one of them is not published. */
  givens: Place[];
}

/** What the search for a certificate found. */
export type Proved =
  /** The certificate, whose givens are the published cells. */
  | { ruling: 'unique'; certificate: string }
  /**
   * Another picture has the clues; or neither such a picture nor a certificate was found within the
   * bounds of the search.
   */
  | { ruling: 'ambiguous' | 'undecided'; certificate: null };

export interface AssessOptions {
  /** The colour of the background in a P3 picture, 'r,g,b'; by default white. */
  background?: string | null;
  /** The published cells, or a file with a line `given R C` for each; by default none. */
  published?: readonly Place[] | Input | null;
  /**
   * A certificate of the puzzle with these cells, which takes the place of the search for another
   * solution.
   */
  certificate?: Input | null;
  /**
   * How many splits the search of a part may make, 0 to 99999; by default 10000. With 'off' there
   * is no such bound, and a call may take very long.
   */
  allowance?: number | 'off' | null;
  /** The file's format; by default it is recognised by the file's contents. */
  format?: 'ppm' | 'non';
}

/**
 * How hard a puzzle with one solution is (docs/SESSION.md). Splits and depth are null if the word
 * is 'unknown'.
 */
export interface Grade {
  word: 'easy' | 'medium' | 'hard' | 'very-hard' | 'expert' | 'unknown';
  rounds: number;
  evaluations: number;
  wait: number;
  splits: number | null;
  depth: number | null;
}

/**
 * Why a puzzle is not fit to be published, besides its verdict: no cell has another colour than the
 * background; no cell has the background; a given without which there is still one solution, and
 * line logic leaves the same cells open; two colours that a solver may confuse, by their letters.
 */
export type Flaw =
  | 'blank'
  | 'background'
  | `given ${number} ${number}`
  | `alike ${string} ${string}`;

/** What is said of a puzzle. */
export interface Assessment {
  verdict: 'unique' | 'ambiguous' | 'undecided';
  /** The rows of another picture with the clues, if the puzzle is ambiguous. */
  other: string[] | null;
  rows: number;
  columns: number;
  /** The colours that cells have, the background among them if a cell has it. */
  colours: number;
  givens: number;
  /** The cells that line logic leaves open. */
  open: number;
  /** If the puzzle is unique. */
  grade: Grade | null;
  flaws: Flaw[];
  /** It is unique and has no flaw. */
  fit: boolean;
  /** Null of a text that the program or a session printed. */
  palette: Palette | null;
  /** What the program prints. */
  text: string;
}

/** The clues of a file. */
export interface Clues {
  /** A line for each row and column, as the program prints them. */
  text: string;
  palette: Palette;
}

/** An open picture, until it is closed. A bench without references is closed some time later. */
export interface Bench {
  /** Of the picture as it was opened; `report` has that of the present one. */
  readonly palette: Palette;
  /** Answers lines, each a command, with exactly what the program writes for them. */
  say(lines: Input): string;
  /** Ends the bench. Each further call throws a Fault. */
  close(): void;
  /**
   * As `close`, for `using`; it does nothing to a closed bench. It exists if the language has
   * Symbol.dispose.
   */
  [Symbol.dispose](): void;
}

/** An instance of the module. It shares no benches with other instances. */
export interface Engine {
  open(file: Input, options?: OpenOptions): Bench;
  /** Checks a certificate, in any of its forms. */
  check(picture: Input, certificate: Input, options?: CheckOptions): Checked;
  /**
   * Assesses a puzzle: a P3 picture, or a .non text with a goal. Throws a Fault if it, the givens
   * or the certificate is refused.
   */
  assess(puzzle: Input, options?: AssessOptions): Assessment & { palette: Palette };
  /** Makes a certificate, with lemmas or a tree, whichever is shorter. It may take minutes. */
  prove(picture: Input, options?: ProveOptions): Proved;
  clues(file: Input, options?: OpenOptions): Clues;
  /** The version of the module, as the program prints it after its name. */
  readonly version: string;
  /** How many bytes of memory the module has allocated. */
  readonly memory: number;
  /** For tests: makes the nth allocation from now on fail; 0 for none. */
  refuse(nth: number): void;
}

/** Why a call was not answered. */
export class Fault extends Error {
  /**
   * The file that was refused: 'picture' (also a .non text), 'certificate' or 'givens'; 'length':
   * an input is too long; 'option': a wrong option; 'memory': out of memory; 'closed': the bench
   * was closed; 'ended': the module cannot be used any more; 'timeout': a worker's limit was
   * exceeded.
   */
  readonly kind:
    | 'picture'
    | 'certificate'
    | 'givens'
    | 'length'
    | 'option'
    | 'memory'
    | 'closed'
    | 'ended'
    | 'timeout';
  /**
   * The error's name, such as 'UnpublishedGiven'; 'TooLong' for a length, 'TimeoutError' for a
   * timeout, and otherwise 'Fault'.
   */
  readonly name: string;
  /** Where the picture is wrong, from 0; null if there is no such place. */
  readonly byte: number | null;
  /** Where the certificate or the givens are wrong, from 1; null if there is no such place. */
  readonly line: number | null;
  /** What the program says. */
  readonly text: string;
  constructor(kind: Fault['kind'], text: string);
}

/**
 * What an editor seems to have done to a certificate that was refused with this text, in a few
 * words: its lines end with CR LF, it is UTF-16, or it begins with a byte order mark. Empty if
 * there is no sign of that.
 */
export function hintOf(text: string, certificate: Input): string;

/**
 * What an assessment says, of its text as the program or a session prints it. Throws a TypeError
 * for another text.
 */
export function readAssessment(text: string): Assessment;

/**
 * A cell of a line: its place along it, counted from 1, and the letters of the colours that are
 * left there.
 */
export interface LineCell {
  place: number;
  letters: string;
}

/** A look at a line that excluded something (docs/SESSION.md, Line logic). */
export interface Look {
  /** Of a row or of a column, whose number counts from 1. */
  axis: 'r' | 'c';
  number: number;
  round: number;
  excluded: number;
  /** The cells that fell, each with the letter that is left. */
  falls: LineCell[];
  /** All blocks of the line stood before. */
  stands: boolean;
  /** What the look needs. None can be left out. */
  premises: LineCell[];
}

/**
 * The path of line logic, of its text as a session prints it for `path`. Throws a TypeError for
 * another text.
 */
export function readPath(text: string): { looks: Look[]; open: number };

/** Makes an engine of nonobench.wasm: its bytes, or what WebAssembly.compile makes of them. */
export function load(module: Uint8Array | ArrayBuffer | WebAssembly.Module): Promise<Engine>;
