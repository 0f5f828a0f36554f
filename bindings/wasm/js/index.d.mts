/** A JPEG decoder that is proved correct, as WebAssembly: what the package's name gives. */
import type {
    Bytes,
    DecodedPicture,
    DecoderOptions as SynchronousOptions,
    DecodingOptions,
    PartialOptions,
    PartialPicture,
    Source,
} from './zaxbriar.mjs';
import { Zaxbriar as Synchronous } from './zaxbriar.mjs';

export * from './zaxbriar.mjs';

/** The options of `decodeAsync`: those of `decode`, and these. */
export interface AsyncOptions extends DecodingOptions {
    /**
     * Gives the call up: the promise is rejected with the signal's reason. A picture that is being
     * decoded then is abandoned at once, with the worker; the next call starts another.
     */
    signal?: AbortSignal | null;
    /**
     * Whether the stream's buffer is moved to the worker: it, and each view of it, then has no
     * bytes here. By default the worker gets a copy, and so it does of memory that can't be moved,
     * as that of a SharedArrayBuffer.
     */
    transfer?: boolean;
}

/** Options of `decodeAsync` that decode as far as a stream goes. */
export interface AsyncPartialOptions extends AsyncOptions {
    partial: true;
}

/** What a decoder needs of a worker. Those of browsers and of Node have it. */
export interface Startable {
    postMessage(message: unknown, transfer: ArrayBuffer[]): void;
    terminate(): unknown;
}

export interface DecoderOptions extends SynchronousOptions {
    /**
     * Starts the worker of `decodeAsync`, for sites on which zaxbriar-worker.mjs doesn't lie beside
     * the code that calls it.
     */
    startWorker?: () => Startable;
}

/** Compiles the module, and returns a decoder. */
export function load(
    source?: Source | Promise<Source>,
    options?: DecoderOptions,
): Promise<Zaxbriar>;

/** A decoder whose pictures can also be decoded in a worker. */
export class Zaxbriar extends Synchronous {
    constructor(module: WebAssembly.Module, options?: DecoderOptions);

    /**
     * Decodes as `decode` does, in a worker, which the first call starts and the next ones use. The
     * promise is rejected with what `decode` throws, with the signal's reason, or with an error if
     * the worker can't be started or ends.
     *
     * The stream is taken at the call: it may be changed afterwards. `pixels` comes without a copy.
     * The calls of a decoder are made one after the other; several decoders have a worker each. The
     * worker has a module of its own, whose memory `maxMemory` also bounds, and which `memoryBytes`
     * doesn't count.
     */
    decodeAsync(jpeg: Bytes, options: AsyncPartialOptions): Promise<PartialPicture>;
    decodeAsync(
        jpeg: Bytes,
        options?: AsyncOptions & { partial?: false },
    ): Promise<DecodedPicture>;
    decodeAsync(jpeg: Bytes, options?: AsyncOptions): Promise<DecodedPicture | PartialPicture>;

    /** Gives the memory back, and ends the worker once the call that it makes has ended. */
    reset(): void;
}
