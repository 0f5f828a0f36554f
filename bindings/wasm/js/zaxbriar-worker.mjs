/* The worker of `decodeAsync`. A request is { module, maxMemory, jpeg, options }, and its answer
 * { decoded } or { error }, with errors as plain data: a copy of an error loses its class, and what
 * ZaxbriarError has besides a text. */
import { Zaxbriar } from './zaxbriar.mjs';

let zaxbriar = null;

const told = (error) => ({ ...error, name: error.name, message: error.message });

/* Decodes, and gives the answer and the buffers that go with it. */
export function answer({ module, maxMemory, jpeg, options }) {
    try {
        zaxbriar ??= new Zaxbriar(module, { maxMemory });
        const decoded = zaxbriar.decode(jpeg, options);
        if (decoded.fault) decoded.fault = told(decoded.fault);
        return [{ decoded }, [decoded.pixels.buffer]];
    } catch (error) {
        return [{ error: told(error) }, []];
    }
}

// (in Node, node-worker.mjs asks)
globalThis.onmessage = ({ data }) => postMessage(...answer(data));
