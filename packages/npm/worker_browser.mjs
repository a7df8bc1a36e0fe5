// An engine in a worker of a browser's, with a limit of seconds.
import {LimitedEngine} from './limited.mjs';

function start(heard, failed) {
  const worker = new Worker(new URL('./thread_browser.mjs', import.meta.url), {type: 'module'});
  worker.onmessage = ({data}) => heard(data);
  worker.onerror = (event) => {
    event.preventDefault();
    failed(event.message || 'the worker failed');
  };
  return {post: (call) => worker.postMessage(call), end: () => worker.terminate()};
}

/** An engine in a worker. A call that takes more than `seconds` is rejected. */
class EngineInWorker extends LimitedEngine {
  constructor(options) {
    super(start, options);
  }
}

export {EngineInWorker as Worker};
