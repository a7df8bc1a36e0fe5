// What nonobench-check.mjs offers.
import type { Checked, CheckOptions, Input } from './nonobench.mjs';

/** Why a call was not answered, as in nonobench.mjs. */
export class Fault extends Error {
  readonly kind: 'picture' | 'length' | 'option' | 'memory' | 'ended';
  readonly name: string;
  readonly byte: number | null;
  readonly line: number | null;
  readonly text: string;
  constructor(kind: Fault['kind'], text: string);
}
export type { Checked, CheckOptions, Input, Place } from './nonobench.mjs';

/** An instance of the module. It keeps nothing between calls. */
export interface Checker {
  /** Checks a certificate, in any of its forms, as Engine does. */
  check(picture: Input, certificate: Input, options?: CheckOptions): Checked;
  /**
   * The flaws that show without a search, such as 'blank', 'background' or 'alike a b'. Throws a
   * Fault if the picture is refused.
   */
  flaws(picture: Input, options?: { background?: string | null }): string[];
  /** The version of the module, as the program prints it after the name. */
  readonly version: string;
  /** How many bytes of memory the module has allocated. */
  readonly memory: number;
  /** For tests: makes the nth allocation from now on fail; 0 for none. */
  refuse(nth: number): void;
}

/**
 * Makes a checker of nonobench-check.wasm: its bytes, or what WebAssembly.compile makes of them.
 */
export function load(module: Uint8Array | ArrayBuffer | WebAssembly.Module): Promise<Checker>;
