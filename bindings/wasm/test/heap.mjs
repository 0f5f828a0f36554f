/* node heap.mjs HEAP: 60,000 random calls of malloc, realloc and free of glue/memory.c, which is
 * linked alone as the module HEAP, with a limit of the memory that some of them meet. Blocks have
 * to be apart, aligned to 16 bytes, inside the memory, and as they were written; the memory stays
 * below the limit; and when all are freed they have to be one block again. */
import { readFileSync } from 'node:fs';

const { exports } = new WebAssembly.Instance(new WebAssembly.Module(readFileSync(process.argv[2])));
const LIMIT = 64 * 2 ** 20;
exports.zaxbriar_limit_memory(BigInt(LIMIT));

let seed = 12345;
const random = (below) => {
    seed = (Math.imul(seed, 1103515245) + 12345) >>> 0;
    return Math.floor((seed / 2 ** 32) * below);
};
const memory = () => new Uint8Array(exports.memory.buffer);
const blocks = new Set();
const counts = { malloc: 0, realloc: 0, free: 0, refused: 0 };

function fail(text) {
    throw new Error(`heap: ${text}`);
}

function checkPlace({ at, size }, others) {
    if (at % 16 || at + size > memory().length) fail(`a block of ${size} bytes at ${at}`);
    for (const other of others) {
        if (at < other.at + other.size && other.at < at + size) fail('two blocks overlap');
    }
}

function checkBytes({ at, mark }, size) {
    const bytes = Buffer.from(exports.memory.buffer, at, size);
    if (!bytes.equals(Buffer.alloc(size, mark))) fail('the bytes of a block have changed');
}

function put(block) {
    memory().fill(block.mark, block.at, block.at + block.size);
    blocks.add(block);
}

function allocate(size) {
    counts.malloc++;
    const at = Number(exports.zaxbriar_malloc(BigInt(size)));
    if (!at) return counts.refused++;
    const block = { at, size, mark: random(256) };
    checkPlace(block, blocks);
    put(block);
}

function resize(block, size) {
    counts.realloc++;
    const at = Number(exports.realloc(BigInt(block.at), BigInt(size)));
    if (!at) {
        checkBytes(block, block.size);
        return counts.refused++;
    }
    blocks.delete(block);
    const moved = { at, size, mark: block.mark };
    checkPlace(moved, blocks);
    checkBytes(moved, Math.min(block.size, size));
    put(moved);
}

function free(block) {
    counts.free++;
    checkBytes(block, block.size);
    exports.zaxbriar_free(BigInt(block.at));
    blocks.delete(block);
}

for (let call = 0; call < 60000; call++) {
    const size = random(10) ? random(3000) : random(2000000);
    const what = random(5);
    const block = [...blocks][random(blocks.size)];
    if (what < 2 || !block) allocate(size);
    else if (what < 4) free(block);
    else resize(block, size);
}
[...blocks].forEach(free);
const whole = memory().length;
if (whole > LIMIT) fail('the memory is above the limit');
// (the stack takes 262,144 bytes)
if (!exports.zaxbriar_malloc(BigInt(whole - 300000))) fail('the free blocks were not joined');
if (memory().length > whole + 65536) fail('the free blocks were not used');
const { malloc, realloc, free: freed, refused } = counts;
console.log(`heap: ${malloc} malloc, ${realloc} realloc, ${freed} free; ${refused} refused`);
