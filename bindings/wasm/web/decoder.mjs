/* The worker and what it is asked: one file at a time, so that the file that is chosen comes next.
 * A file that takes long is put off for it. Where a worker fails, or is ended for that, another
 * takes its place. */
import { sentenceOf } from './words.mjs';

/* How long a file that is chosen waits for another, in milliseconds. */
const PATIENCE = 1000;

export class Decoder {
    #start;
    #worker = null;
    #asked = null;
    #waiting = [];
    #timer = 0;

    /* `start` starts a worker. */
    constructor(start) {
        this.#start = start;
    }

    #begin() {
        const worker = this.#start();
        this.#worker = worker;
        // (what comes from a worker that was ended is no answer to a later request)
        worker.onmessage = ({ data }) => worker === this.#worker && this.#answer(data);
        worker.onerror = (event) => {
            event.preventDefault();
            const text = event.message || 'the worker could not be started';
            const sentence = sentenceOf({ fault: 'FAILED' });
            this.#answer({ fault: 'FAILED', text, sentence, isBroken: true });
        };
    }

    #answer(reply) {
        const asked = this.#asked;
        if (reply.isEarly) return asked.early(reply);
        this.#asked = null;
        if (reply.isBroken) this.#stop();
        asked?.done(reply);
        return this.#next();
    }

    #stop() {
        this.#worker.terminate();
        this.#worker = null;
    }

    /* Ends what the worker does, to ask for it again after all that waits. */
    #putOff() {
        this.#stop();
        this.#waiting.push(this.#asked);
        this.#asked = null;
        this.#next();
    }

    #next() {
        if (this.#asked || this.#waiting.length === 0) return;
        if (!this.#worker) this.#begin();
        this.#asked = this.#waiting.shift();
        const { file, isShown } = this.#asked;
        this.#worker.postMessage({ file, isShown: isShown() });
    }

    /* Decodes a file. Its picture is wanted if `isShown` says so once its turn has come; then
     * `early` is given answers with what there is of it while it is read, if that takes long. */
    decode(file, isShown, early) {
        return new Promise((done) => {
            this.#waiting.push({ file, isShown, early, done });
            this.#next();
        });
    }

    /* Puts what is asked of a file before all else that waits. */
    hasten(file) {
        const isIts = (request) => request.file === file;
        const others = this.#waiting.filter((request) => !isIts(request));
        this.#waiting = [...this.#waiting.filter(isIts), ...others];
        const asked = this.#asked;
        clearTimeout(this.#timer);
        if (!asked || isIts(asked)) return;
        this.#timer = setTimeout(() => asked === this.#asked && this.#putOff(), PATIENCE);
    }
}
