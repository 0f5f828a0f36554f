/* node stack.mjs FILE..: what becomes of a call whose stack is too small, and of those after it.
 *
 * The module is given stacks of 1 to 64 kB, by another first value of its stack pointer, and
 * decodes each file with each, as a whole, as far as it goes, line by line, and fed by halves. Each
 * call has to give its picture or refusal, or to trap at the entry of a function, by `unreachable`;
 * an access outside the memory is another trap, and fails. The call after a trap begins with a new
 * instance, which has to give its answer too. */
import { readFileSync } from 'node:fs';
import { Zaxbriar, ZaxbriarError } from '../dist/node.mjs';

const bytes = readFileSync(new URL('../dist/zaxbriar.wasm', import.meta.url));
const STACK = 262144;

/* A number as three bytes of a signed LEB128. */
const leb = (value) => [(value & 127) | 128, ((value >> 7) & 127) | 128, value >> 14];

/* The module with a stack pointer that begins lower, at `size`. */
function withStack(size) {
    const first = Buffer.from([0x7e, 0x01, 0x42, ...leb(STACK), 0x0b]);
    const place = bytes.indexOf(first);
    if (place < 0 || bytes.indexOf(first, place + 1) >= 0) throw new Error('no stack pointer');
    const module = Buffer.from(bytes);
    module.set(leb(size), place + 3);
    return new WebAssembly.Module(module);
}

const WAYS = [
    (zaxbriar, file) => zaxbriar.decode(file, { layout: 'rgba' }).pixels,
    (zaxbriar, file) => zaxbriar.decode(file, { layout: 'rgba', partial: true }).pixels,
    (zaxbriar, file) => Buffer.concat([...zaxbriar.rows(file)]),
    (zaxbriar, file) => {
        const fed = zaxbriar.feed({ layout: 'rgba' });
        const half = file.length >> 1;
        try {
            fed.feed(file.subarray(0, half));
            if (fed.info()) fed.show();
            fed.feed(file.subarray(half));
            return fed.show().pixels;
        } finally {
            fed.free();
        }
    },
];

function outcome(zaxbriar, file, decode) {
    try {
        return Buffer.from(decode(zaxbriar, file));
    } catch (error) {
        if (error instanceof ZaxbriarError) return Buffer.from(`${error.code} ${error.message}`);
        if (!(error instanceof WebAssembly.RuntimeError)) throw error;
        if (!/unreachable/.test(error.message)) throw new Error(`another trap: ${error.message}`);
        return null;
    }
}

const calls = process.argv.slice(2).flatMap((path) => {
    const file = readFileSync(path);
    return WAYS.map((decode) => [file, decode]);
});
const whole = new Zaxbriar(new WebAssembly.Module(bytes));
const wanted = calls.map((call) => outcome(whole, ...call));
if (wanted.includes(null)) throw new Error('a trap with the whole stack');
let traps = 0;
let answers = 0;
let least = 0;
for (let size = 1024; size <= 65536; size += 1024) {
    const zaxbriar = new Zaxbriar(withStack(size));
    let isEnough = true;
    calls.forEach((call, index) => {
        const found = outcome(zaxbriar, ...call);
        if (!found) {
            traps++;
            isEnough = false;
            if (zaxbriar.memoryBytes) throw new Error('the instance is there after a trap');
        } else if (found.equals(wanted[index])) {
            answers++;
        } else {
            throw new Error(`a stack of ${size} bytes gives another answer`);
        }
    });
    if (!isEnough) least = size + 1024;
}
console.log(`stack: ${traps} traps, ${answers} right answers; all from ${least} bytes on`);
if (!traps || !answers) throw new Error('not both were seen');
