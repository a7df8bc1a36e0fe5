// The module for node: as nonobench.mjs, but `load` needs no module, since nonobench.wasm lies
// beside this file.
import {readFile} from 'node:fs/promises';
import {load as loadModule} from './nonobench.mjs';

export * from './nonobench.mjs';

/** Makes an engine: of the package's own module where none is given. */
export async function load(module) {
  return loadModule(module ?? await readFile(new URL('./nonobench.wasm', import.meta.url)));
}
