/* The decoder for Node, whose `fetch` doesn't read files, and whose threads aren't the workers of
 * browsers: index.mjs, with the module from a file. The package gives Node this file by its name,
 * and browsers and their bundlers index.mjs. */
import { readFile } from 'node:fs/promises';
import { Worker } from 'node:worker_threads';
import { Zaxbriar as Decoder, compile as compileGiven } from './index.mjs';

export { ZaxbriarError } from './index.mjs';

const addressOf = (source) => (typeof source === 'string' ? source : source?.href);

// (it needs none of the program's own flags, of which a worker may refuse some)
const startThread = () => new Worker(new URL('node-worker.mjs', import.meta.url), { execArgv: [] });

export class Zaxbriar extends Decoder {
    constructor(module, options) {
        super(module, options, startThread);
    }
}

/* Compiles the module, as index.mjs does, also of a file's URL. */
export async function compile(source = new URL('zaxbriar.wasm', import.meta.url)) {
    const given = await source;
    const isFile = addressOf(given)?.startsWith('file:');
    return compileGiven(isFile ? readFile(new URL(given)) : given);
}

export async function load(source, options) {
    return new Zaxbriar(await compile(source), options);
}
