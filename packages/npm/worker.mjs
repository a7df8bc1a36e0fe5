// An engine in a thread of node's, with a limit of seconds.
import {Worker as Thread} from 'node:worker_threads';
import {LimitedEngine} from './limited.mjs';

function start(heard, failed) {
  const thread = new Thread(new URL('./thread.mjs', import.meta.url), {execArgv: []});
  thread.on('message', heard);
  thread.on('error', (error) => failed(error.message));
  thread.on('exit', () => failed('the worker has ended'));
  thread.unref();  // only a call that waits for its answer holds the program
  return {post: (call) => thread.postMessage(call), end: () => thread.terminate()};
}

/** An engine in a thread. A call that takes more than `seconds` is rejected. */
export class Worker extends LimitedEngine {
  constructor(options) {
    super(start, options);
  }
}
