// What the package offers: as nonobench.d.mts, but `load` needs no module.
import type { Engine } from './nonobench.mjs';

export * from './nonobench.mjs';

/** Makes an engine: of the package's own module if none is given. */
export function load(module?: Uint8Array | ArrayBuffer | WebAssembly.Module): Promise<Engine>;
