// Engines in workers. What the build put into the page: the module, the worker's source, examples.

import {bytesOfSigns} from './signs.js';

let read = null;

/**
 * What the build put into the page: `packed`, the worker's source and the module after it, in so
 * many bytes (`size`); `worker`, how many bytes that source has; `version`, `commit`, `trees`.
 * Empty where there is no page.
 */
export const built = () =>
    (read ??= JSON.parse(globalThis.document?.getElementById('built')?.textContent.trim() || '{}'));
let parts = null;  // a promise of the module's bytes, and of the address of the worker's source

async function unpacked({packed, size, worker}) {
  if (!packed) return {};
  const stream =
      new Blob([bytesOfSigns(packed, size)]).stream().pipeThrough(new DecompressionStream('gzip'));
  const all = new Uint8Array(await new Response(stream).arrayBuffer());
  return {
    module: all.slice(worker),
    source: URL.createObjectURL(new Blob([all.slice(0, worker)], {type: 'text/javascript'}))
  };
}

/**
 * A fault of an engine: kind 'open', 'memory', 'closed', or 'ended' where the worker is of no use
 * any more.
 */
export class EngineFault extends Error {
  constructor({kind, text}) {
    super(text);
    this.kind = kind;
    this.text = text;
  }
}

/**
 * A worker with an engine: `call(name, fields)` gives a promise of the value and rejects with an
 * EngineFault; `end()` ends the worker at once, and what waits is rejected as 'ended'. A worker
 * that fails by itself is ended, too.
 */
export class Client {
  constructor(worker = null) {
    this.waiting = new Map();
    this.last = 0;
    this.isEnded = false;
    this.worker = null;
    if (worker) this.take(worker);
    this.ready = this.load();
    this.ready.catch(() => {});
  }

  take(worker) {
    this.worker = worker;
    worker.onmessage = ({data}) => this.hear(data);
    worker.onerror = (event) => {
      event.preventDefault?.();
      this.end(event.message || 'the worker failed');
    };
    worker.onmessageerror = () => this.end('the worker failed');
  }

  async load() {
    const {module, source} = await (parts ??= unpacked(built()));
    if (!this.worker && !this.isEnded) this.take(new Worker(source));
    return this.post('load', {module});
  }

  hear(data) {
    const item = this.waiting.get(data?.id);
    if (!item) return;
    if (data.report) return item.report?.(data.report);
    this.waiting.delete(data.id);
    if (!data.fault) return item.resolve(data.ok);
    const fault = new EngineFault({kind: String(data.fault.kind), text: String(data.fault.text)});
    item.reject(fault);
    if (fault.kind === 'ended') this.end(fault.text);
  }

  post(call, fields, report = null) {
    if (this.isEnded)
      return Promise.reject(new EngineFault({kind: 'ended', text: 'the worker has ended'}));
    const id = ++this.last;
    return new Promise((resolve, reject) => {
      this.waiting.set(id, {resolve, reject, report});
      this.worker.postMessage({id, call, ...fields});
    });
  }

  /** Calls the worker. `report` hears what a long call finds before its end. */
  async call(name, fields = {}, report = null) {
    await this.ready;
    return this.post(name, fields, report);
  }

  open(file, options) {
    return this.call('open', {file, ...options});
  }

  say(lines) {
    return this.call(
        'say', {lines: Array.isArray(lines) ? lines.map((line) => `${line}\n`).join('') : lines}
    );
  }

  /**
   * Checks a certificate of a P3 picture; `published` are the cells that the puzzle gives, [row,
   * column] from 1.
   */
  check(picture, certificate, {background, published}) {
    return this.call('check', {picture, certificate, background, published});
  }

  end(text = 'the worker was ended') {
    if (this.isEnded) return;
    this.isEnded = true;
    this.worker?.terminate();
    for (const item of this.waiting.values()) item.reject(new EngineFault({kind: 'ended', text}));
    this.waiting.clear();
  }
}

/** A new worker with an engine of its own. */
export const startEngine = () => new Client();
