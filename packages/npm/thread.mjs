// What a thread of worker.mjs runs.
import {parentPort} from 'node:worker_threads';
import {answering} from './limited.mjs';
import {load} from './node.mjs';

const answer = answering(load);
parentPort.on('message', async (call) => parentPort.postMessage(await answer(call)));
