/* The worker of `decodeAsync` in Node, whose threads have no `onmessage`. */
import { parentPort } from 'node:worker_threads';
import { answer } from './zaxbriar-worker.mjs';

parentPort.on('message', (request) => parentPort.postMessage(...answer(request)));
