// Workers for tests in node: what the page's worker does, over the real module, in the same thread
// but answering later, as a worker does. The module is the file WASM, or what `web/build` left in
// web/out; `hasModule` says whether there is one.
import './limits.mjs';
import {existsSync, readFileSync} from 'node:fs';
import {fileURLToPath} from 'node:url';
import {load} from '../../web/nonobench.mjs';
import {serve} from '../engine/serve.js';

export const moduleFile =
    process.env.WASM ?? fileURLToPath(new URL('../../web/out/nonobench.wasm', import.meta.url));
export const hasModule = existsSync(moduleFile);
export const needsModule = {
  skip: hasModule ? false : `no module at ${moduleFile}: set WASM`
};
const bytes = hasModule ? readFileSync(moduleFile) : null;

/**
 * The line in which the page speaks, in place of the browser's: its `text` and `dataset.kind` are
 * what was said last.
 */
export function saidLine() {
  const line = {
    dataset: {},
    text: '',
    replaceChildren(text) {
      line.text = text;
    }
  };
  globalThis.document = {getElementById: (id) => (id === 'said' ? line : null)};
  return line;
}

/** An engine of the module in this thread. */
export const engine = () => load(bytes);

/**
 * Makes what stands for `new Worker(..)`; `made` gets each of them, `fails` says at which texts a
 * worker ends by itself, and `alter` makes another text of what the engine says.
 */
export function workers({fails = (text, worker) => false, made = [], alter = (text) => text} = {}) {
  return () => {
    const heard = (data) => (typeof data.ok === 'string' ? {...data, ok: alter(data.ok)} : data);
    const scope = {
      postMessage: (data) =>
          setImmediate(() => !worker.isEnded && worker.onmessage({data: heard(data)}))
    };
    serve(scope, () => engine());
    const worker = {
      isEnded: false,
      said: [],
      onmessage: null,
      onerror: null,
      postMessage(data) {
        if (data.call === 'say') worker.said.push(data.lines);
        if (data.call === 'say' && fails(data.lines, worker))
          setImmediate(() => worker.onerror({message: 'out of memory'}));
        else
          setImmediate(() => !worker.isEnded && scope.onmessage({data}));
      },
      terminate() {
        worker.isEnded = true;
      },
    };
    made.push(worker);
    return worker;
  };
}
