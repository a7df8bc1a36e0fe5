// An engine in a worker, with a limit of seconds: what node and browsers share. worker.mjs and
// worker_browser.mjs start workers, which run thread.mjs and thread_browser.mjs.
import {Fault, own} from './nonobench.mjs';

const MOST_SECONDS = 2147483;  // that a timer can wait

const ended = (text = 'the worker has ended') => new Fault('ended', text);

/**
 * The calls of an engine in a worker, as promises. They are answered one after another, each within
 * some seconds from the call on.
 */
export class LimitedEngine {
  #start;
  #seconds;
  #worker = null;
  #running = null;  // the call that the worker answers
  #waiting = [];

  /** `start(heard, failed)` starts a worker, and gives {post, end}. */
  constructor(start, options = {}) {
    const seconds = own(options, 'seconds') ?? 10;
    if (typeof seconds !== 'number' || !(seconds > 0 && seconds <= MOST_SECONDS))
      throw new Fault('option', `seconds must be above 0, and at most ${MOST_SECONDS}`);
    this.#start = start;
    this.#seconds = seconds;
  }

  check(...words) {
    return this.#value('check', words);
  }

  assess(...words) {
    return this.#value('assess', words);
  }

  prove(...words) {
    return this.#value('prove', words);
  }

  clues(...words) {
    return this.#value('clues', words);
  }

  get version() {
    return this.#value('version', []);
  }

  /** Opens a bench, whose calls are promises too. It ends with its worker. */
  async open(...words) {
    const {value: {number, palette}, worker} = await this.#ask('open', words);
    return {
      palette,
      say: (lines) => this.#value('say', [number, lines], worker),
      close: () => this.#value('close', [number], worker)
    };
  }

  /** Ends the worker, and what waits is rejected. The next call starts another one. */
  close() {
    const running = this.#end();
    for (const call of [running, ...this.#waiting.splice(0)])
      if (call) this.#settle(call, new Fault('closed', 'closed'));
  }

  async #value(name, words, worker) {
    return (await this.#ask(name, words, worker)).value;
  }

  // Asks the worker, or only a certain one: what it answers, and which one it was. What is passed
  // is copied at once, however long the call waits for its turn.
  #ask(name, words, worker = null) {
    return new Promise((resolve, reject) => {
      const call = {name, words: structuredClone(words), worker, resolve, reject, late: null};
      call.late = setTimeout(() => this.#drop(call), this.#seconds * 1000);
      this.#waiting.push(call);
      this.#next();
    });
  }

  #settle(call, fault, answer) {
    clearTimeout(call.late);
    if (fault)
      call.reject(fault);
    else
      call.resolve(answer);
  }

  // Sends the first call that waits, where none runs.
  #next() {
    const call = this.#running ? undefined : this.#waiting.shift();
    if (!call) return;
    if (call.worker && call.worker !== this.#worker) {
      this.#settle(call, ended());
      this.#next();
      return;
    }
    this.#running = call;
    try {
      this.#worker ??= this.#begun();
      this.#worker.post({name: call.name, words: call.words});
    } catch (error) {
      this.#fail(`no worker can be started: ${error.message}`);
    }
  }

  // A new worker, which is heard until it is ended.
  #begun() {
    const isHeard = () => worker === this.#worker;
    const worker = this.#start(
        (answer) => isHeard() && this.#hear(answer), (text) => isHeard() && this.#fail(text)
    );
    return worker;
  }

  #hear({value, kind, text}) {
    if (kind === 'ended') return this.#fail(text);
    const call = this.#running;
    this.#running = null;
    const fault = kind === 'type' ? new TypeError(text) : kind && new Fault(kind, text);
    this.#settle(call, fault, {value, worker: this.#worker});
    return this.#next();
  }

  // The worker is of no use any more.
  #fail(text) {
    const call = this.#end();
    if (call) this.#settle(call, ended(text));
    this.#next();
  }

  // A call took too long, or waited too long for its turn.
  #drop(call) {
    if (call === this.#running)
      this.#end();
    else
      this.#waiting.splice(this.#waiting.indexOf(call), 1);
    this.#settle(call, new Fault('timeout', `no answer within ${this.#seconds} seconds`));
    this.#next();
  }

  // Ends the worker: the call that it did not answer.
  #end() {
    const call = this.#running;
    this.#worker?.end();
    this.#worker = this.#running = null;
    return call;
  }
}

/** What a worker does: it answers a call by an engine, which `load` makes for the first one. */
export function answering(load) {
  const benches = new Map();
  let engine = null, last = 0;
  const benchOf = (number) => {
    if (!benches.has(number)) throw new Fault('closed', 'closed');
    return benches.get(number);
  };
  const calls = {
    check: (words) => engine.check(...words),
    assess: (words) => engine.assess(...words),
    prove: (words) => engine.prove(...words),
    clues: (words) => engine.clues(...words),
    version: () => engine.version,
    open(words) {
      const bench = engine.open(...words);
      benches.set(last += 1, bench);
      return {number: last, palette: bench.palette};
    },
    say: ([number, lines]) => benchOf(number).say(lines),
    close([number]) {
      benchOf(number).close();
      benches.delete(number);
    }
  };
  return async ({name, words}) => {
    try {
      engine ??= await load().catch((error) => {
        throw ended(`the module cannot be loaded: ${error.message}`);
      });
      return {value: calls[name](words)};
    } catch (error) {
      const kind = error.kind ?? (error instanceof TypeError ? 'type' : 'ended');
      return {kind, text: error.text ?? error.message};
    }
  };
}
