// The module for browsers and bundlers: as nonobench.mjs, but `load` needs no module, since
// nonobench.wasm is served beside this file.
import {load as loadModule} from './nonobench.mjs';

export * from './nonobench.mjs';

// The bytes of the package's own module.
async function own() {
  const answer = await fetch(new URL('./nonobench.wasm', import.meta.url));
  if (!answer.ok) throw new Error(`nonobench.wasm was answered with status ${answer.status}`);
  return answer.arrayBuffer();
}

/** Makes an engine: of the package's own module where none is given. */
export async function load(module) {
  return loadModule(module ?? await own());
}
