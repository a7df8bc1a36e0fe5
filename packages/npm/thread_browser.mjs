// What a worker of worker_browser.mjs runs.
import {load} from './browser.mjs';
import {answering} from './limited.mjs';

const answer = answering(load);
self.onmessage = async ({data}) => self.postMessage(await answer(data));
