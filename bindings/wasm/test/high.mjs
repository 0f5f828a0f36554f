/* node high.mjs FILE..: the answers of a module whose memory below 2^31, and nearly 2^32, is taken:
 * they have to be those of one that begins low, or NO_MEMORY. */
import { readFileSync } from 'node:fs';
import { Zaxbriar, ZaxbriarError, compile } from '../dist/node.mjs';

const module = await compile();

function outcome(zaxbriar, file) {
    try {
        return Buffer.from(zaxbriar.decode(file).pixels.buffer);
    } catch (error) {
        if (!(error instanceof ZaxbriarError)) throw error;
        return Buffer.from(`${error.code} ${error.message}`);
    }
}

/* A decoder whose module has given so many bytes away. */
function above(bytes) {
    const Instance = WebAssembly.Instance;
    const zaxbriar = new Zaxbriar(module);
    WebAssembly.Instance = function (...words) {
        const instance = new Instance(...words);
        if (!instance.exports.zaxbriar_malloc(BigInt(bytes))) throw new Error('no room');
        return instance;
    };
    zaxbriar.version;
    WebAssembly.Instance = Instance;
    return zaxbriar;
}

const files = process.argv.slice(2).map((path) => readFileSync(path));
const low = new Zaxbriar(module);
for (const taken of [2600000000, 4190000000]) {
    const high = above(taken);
    const counts = { same: 0, noMemory: 0 };
    for (const file of files) {
        const found = outcome(high, file);
        if (found.equals(outcome(low, file))) counts.same++;
        else if (found.toString('latin1', 0, 9) === 'NO_MEMORY') counts.noMemory++;
        else throw new Error('another answer');
    }
    console.log(`above ${taken}: ${counts.same} the same, ${counts.noMemory} without memory`);
    if (!counts.same) throw new Error('none was the same');
}
