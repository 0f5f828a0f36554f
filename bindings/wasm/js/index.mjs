/* The decoder for browsers, which their bundlers take by the package's name: the calls of
 * zaxbriar.mjs, and `decodeAsync`, which decodes in a worker. Node takes node.mjs by the same name.
 *
 *     import { load } from 'zaxbriar';
 *     const zaxbriar = await load();
 *     const { picture, pixels } = await zaxbriar.decodeAsync(bytes, { layout: 'rgba' });
 *
 * index.d.mts has the types, and what each call does. */
import {
    DECODER_OPTIONS,
    OPTIONS,
    Zaxbriar as Decoder,
    ZaxbriarError,
    bytesOf,
    checkValues,
    compile,
    isSet,
    ownOptions,
} from './zaxbriar.mjs';

export { ZaxbriarError, compile } from './zaxbriar.mjs';

/* Errors besides ZaxbriarError that a worker tells of by their names. */
const ERRORS = { RangeError, RuntimeError: WebAssembly.RuntimeError, TypeError };

const startModule = () =>
    new Worker(new URL('./zaxbriar-worker.mjs', import.meta.url), { type: 'module' });

/* An error by what the worker tells of it. */
function errorOf({ message, ...members }) {
    const { name } = members;
    if (name !== 'ZaxbriarError') return new (ERRORS[name] ?? Error)(message);
    return Object.assign(new ZaxbriarError(0, message), members);
}

/* What the worker has decoded, with a fault that is an error. */
const decodedOf = ({ fault, ...decoded }) =>
    fault === undefined ? decoded : { ...decoded, fault: fault && errorOf(fault) };

/* The bytes of a stream in a buffer that the worker can have: that of the stream, which its caller
 * then has no longer, or a copy. */
function taken(jpeg, isMoved) {
    const bytes = bytesOf(jpeg);
    const { buffer, byteOffset, length } = bytes;
    try {
        const moved = isMoved && structuredClone(buffer, { transfer: [buffer] });
        if (moved) return new Uint8Array(moved, byteOffset, length);
    } catch {
        // (memory that threads share, or that of a module, can't be moved)
    }
    return new Uint8Array(bytes);
}

/* Hears what a worker answers, and that it has failed, by the names of browsers and of Node. */
function hear(worker, answered, failed) {
    if (worker.on) {
        worker.on('message', answered).on('error', failed);
        worker.on('exit', () => failed(new Error('the worker has ended')));
    } else {
        worker.onmessage = ({ data }) => answered(data);
        worker.onerror = (event) => {
            event.preventDefault();
            failed(new Error(event.message || 'the worker could not be started'));
        };
    }
}

function checkSignal(signal) {
    if (signal && typeof signal.aborted !== 'boolean') {
        throw new TypeError(`signal: an AbortSignal, not ${signal}`);
    }
    if (signal?.aborted) throw signal.reason;
}

export class Zaxbriar extends Decoder {
    #module;
    #maxMemory;
    #start;
    #worker = null;
    /* The call that the worker makes, and those that come after it. */
    #running = null;
    #waiting = [];
    /* Whether the worker is ended after the call that it makes. */
    #isLast = false;

    /* `start` starts a worker where the options have nothing that does. */
    constructor(module, options = {}, start = startModule) {
        const { startWorker, ...own } = ownOptions(options, [...DECODER_OPTIONS, 'startWorker']);
        super(module, own);
        this.#module = module;
        this.#maxMemory = own.maxMemory;
        this.#start = startWorker ?? start;
    }

    reset() {
        super.reset();
        if (this.#running) this.#isLast = true;
        else this.#stop();
    }

    #stop() {
        this.#worker?.terminate();
        this.#worker = null;
        this.#running = null;
        this.#isLast = false;
    }

    #begin() {
        const worker = this.#start();
        // (what comes from a worker that was ended is no answer to a later call)
        const ifHere = (act) => (told) => worker === this.#worker && act(told);
        hear(
            worker,
            ifHere((answer) => this.#answer(answer)),
            ifHere((error) => this.#fail(error)),
        );
        return worker;
    }

    #answer({ decoded, error }) {
        const { resolve, reject } = this.#running;
        this.#running = null;
        if (this.#isLast) this.#stop();
        if (error) reject(errorOf(error));
        else resolve(decodedOf(decoded));
        this.#next();
    }

    #fail(error) {
        const call = this.#running;
        this.#stop();
        call?.reject(error);
        this.#next();
    }

    /* Gives a call up, and the worker with it if it makes that call. */
    #abort(call, reason) {
        if (call === this.#running) this.#stop();
        this.#waiting = this.#waiting.filter((other) => other !== call);
        call.reject(reason);
        this.#next();
    }

    #next() {
        if (this.#running) return;
        if (this.#waiting.length === 0) {
            // (in Node a worker that has nothing to do doesn't keep the program from its end)
            this.#worker?.unref?.();
            return;
        }
        this.#running = this.#waiting.shift();
        const { jpeg, options } = this.#running;
        try {
            this.#worker ??= this.#begin();
            this.#worker.ref?.();
            const [module, maxMemory] = [this.#module, this.#maxMemory];
            this.#worker.postMessage({ module, maxMemory, jpeg, options }, [jpeg.buffer]);
        } catch (error) {
            this.#fail(error);
        }
    }

    async decodeAsync(jpeg, options = {}) {
        const names = [...OPTIONS, 'signal', 'transfer'];
        const { signal, transfer, ...own } = ownOptions(options, names);
        checkValues(own);
        const isMoved = isSet({ transfer }, 'transfer');
        checkSignal(signal);
        const call = { jpeg: taken(jpeg, isMoved), options: own };
        const abort = () => this.#abort(call, signal.reason);
        signal?.addEventListener('abort', abort);
        try {
            return await new Promise((resolve, reject) => {
                this.#waiting.push(Object.assign(call, { resolve, reject }));
                this.#next();
            });
        } finally {
            signal?.removeEventListener('abort', abort);
        }
    }
}

export async function load(source, options) {
    return new Zaxbriar(await compile(source), options);
}
