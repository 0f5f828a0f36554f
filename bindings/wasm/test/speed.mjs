/* node speed.mjs TURBO.wasm CLOCK FILE..: the processor time of decoding, in milliseconds, by the
 * module, by libjpeg-turbo without SIMD in WebAssembly (`turbo` makes that module) and by the
 * native library (CLOCK is the program of clock.c, or - for none). A table for each layout has the
 * least and the median of 45 times of each, and in brackets the module's least as a ratio to that
 * least. They take turns, once all code is compiled. The time of a module includes copying the file
 * and the pixels; a time of the native library is the least of five. The last column is how far the
 * two modules' samples are apart at most, since they round differently. */
import { spawnSync } from 'node:child_process';
import { readFileSync } from 'node:fs';
import { basename } from 'node:path';
import { load } from '../dist/node.mjs';

const ROUNDS = 15;
const AGAIN = 3;
const WARM = 500;
const LAYOUTS = { stored: 0, rgba: 3 };

const [turbo, clock, ...files] = process.argv.slice(2);
const zaxbriar = await load();

async function loadPeer(path) {
    const module = await WebAssembly.compile(readFileSync(path));
    const imports = {};
    // (what C's library asks the system for: to write an error, which the peer traps on)
    for (const { module: from, name } of WebAssembly.Module.imports(module)) {
        (imports[from] ??= {})[name] = () => 0;
    }
    const { exports } = await WebAssembly.instantiate(module, imports);
    const told = exports.malloc(12);
    return (jpeg, layout) => {
        const at = exports.malloc(jpeg.length);
        new Uint8Array(exports.memory.buffer).set(jpeg, at);
        const pixels = exports.turbo_decode(at, jpeg.length, layout === 'rgba' ? 1 : 0, told);
        const [width, height, bytes] = new Uint32Array(exports.memory.buffer, told, 3);
        const copy = new Uint8Array(exports.memory.buffer, pixels, width * height * bytes).slice();
        exports.free(pixels);
        exports.free(at);
        return copy;
    };
}

function timed(decode) {
    return (jpeg, layout) => {
        const start = process.cpuUsage();
        decode(jpeg, layout);
        const { user, system } = process.cpuUsage(start);
        return (user + system) / 1000;
    };
}

const native = (jpeg, layout, path) =>
    Number(spawnSync(clock, [path, '5', `${LAYOUTS[layout]}`]).stdout.toString());

const peer = await loadPeer(turbo);
const ours = (jpeg, layout) => zaxbriar.decode(jpeg, { layout }).pixels;
const decoders = { 'this module': timed(ours), 'libjpeg-turbo, wasm': timed(peer) };
if (clock !== '-') decoders.native = native;

/* How far the two pictures are apart at most. */
function difference(jpeg, layout) {
    const [a, b] = [ours(jpeg, layout), peer(jpeg, layout)];
    if (a.length !== b.length) throw new Error(`${a.length} bytes, and ${b.length} by the peer`);
    return a.reduce((most, sample, at) => Math.max(most, Math.abs(sample - b[at])), 0);
}

function warm(jpeg, layout) {
    for (const decode of [ours, peer]) {
        const start = performance.now();
        while (performance.now() - start < WARM) decode(jpeg, layout);
    }
}

const median = (sorted) => sorted[sorted.length >> 1];

function row(path, layout) {
    const jpeg = readFileSync(path);
    const most = difference(jpeg, layout);
    warm(jpeg, layout);
    const times = Object.values(decoders).map(() => []);
    for (let round = 0; round < ROUNDS; round++) {
        Object.values(decoders).forEach((time, at) => {
            for (let again = 0; again < AGAIN; again++) times[at].push(time(jpeg, layout, path));
        });
    }
    for (const list of times) list.sort((a, b) => a - b);
    const cells = times.map((list) => {
        const ratio = (times[0][0] / list[0]).toFixed(2);
        return `${list[0].toFixed(2)}, ${median(list).toFixed(2)} (${ratio})`;
    });
    console.log(`| ${basename(path)} | ${cells.join(' | ')} | ${most} |`);
}

for (const layout of Object.keys(LAYOUTS)) {
    console.log(`\n| ${layout} | ${Object.keys(decoders).join(' | ')} | samples apart |`);
    console.log(`|---|${'---|'.repeat(Object.keys(decoders).length + 1)}`);
    for (const path of files) row(path, layout);
}
