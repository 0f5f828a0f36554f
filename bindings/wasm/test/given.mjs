/* node given.mjs FILE: what calls may be given: streams and modules of another realm, as frames and
 * test runners have them, and options, of which each that doesn't exist is named. */
import assert from 'node:assert/strict';
import { readFileSync } from 'node:fs';
import { createContext, runInContext } from 'node:vm';
import { Zaxbriar, compile, load } from '../dist/node.mjs';

const jpeg = new Uint8Array(readFileSync(process.argv[2]));
const wasm = new Uint8Array(readFileSync(new URL('../dist/zaxbriar.wasm', import.meta.url)));
const module = await compile();
const zaxbriar = new Zaxbriar(module);
const { picture, pixels } = zaxbriar.decode(jpeg);

/* Another realm, whose classes aren't those of this one. */
const realm = createContext({ jpeg, wasm, console });
const there = (expression) => runInContext(expression, realm);
assert.ok(!(there('new ArrayBuffer(1)') instanceof ArrayBuffer));

// Streams of another realm: buffers, and each view of one, from a place inside it.
const streams = [
    'Uint8Array.from(jpeg).buffer',
    'Uint8Array.from(jpeg)',
    'Uint8ClampedArray.from(jpeg)',
    'Int8Array.from(jpeg)',
    `(() => {
        const shared = new SharedArrayBuffer(jpeg.length);
        new Uint8Array(shared).set(jpeg);
        return shared;
    })()`,
    `(() => {
        const bytes = new Uint8Array(jpeg.length + 24);
        bytes.set(jpeg, 8);
        return new DataView(bytes.buffer, 8, jpeg.length);
    })()`,
];
for (const stream of streams) {
    assert.deepEqual(zaxbriar.readInfo(there(stream)).width, picture.width, stream);
    assert.deepEqual(zaxbriar.decode(there(stream)).pixels, pixels, stream);
    zaxbriar.metadata(there(stream), 'exif');
    const fed = zaxbriar.feed();
    fed.feed(there(stream));
    assert.deepEqual(fed.show().pixels, pixels, stream);
    fed.free();
}
for (const stream of ['null', '"text"', '[255, 216]', '({ byteLength: 4 })', 'new Map()']) {
    assert.throws(() => zaxbriar.decode(there(stream)), TypeError, stream);
}

// The module of another realm: its bytes, and what is compiled there.
for (const source of [
    'Uint8Array.from(wasm).buffer',
    'Uint8Array.from(wasm)',
    'new WebAssembly.Module(wasm)',
    'Promise.resolve(new WebAssembly.Module(wasm))',
]) {
    assert.deepEqual((await load(there(source))).decode(jpeg).pixels, pixels, source);
}

// Each option exists, whether it is given or left undefined.
const OPTIONS = {
    layout: 'rgb',
    scale: 1,
    minWidth: 0,
    minHeight: 0,
    stride: 0,
    bottomUp: false,
    upright: false,
    luma: false,
    crop: { left: 0, top: 0, width: picture.width, height: picture.height },
    within: {},
    colorTransform: 'stream',
    maxPixels: 1e9,
    maxBytes: 1e9,
    maxPasses: 100,
    partial: false,
};
zaxbriar.readInfo(jpeg, OPTIONS);
zaxbriar.decode(jpeg, OPTIONS);
zaxbriar.decode(jpeg, Object.create(OPTIONS));
for (const name of Object.keys(OPTIONS)) zaxbriar.decode(jpeg, { [name]: undefined });

// Others are named, before anything is read: a limit that is misspelt would be none.
const named = (name) => (error) => error instanceof TypeError && error.message.includes(name);
for (const name of ['maxpixels', 'maxPixel', 'max_bytes', 'maxMemory', 'maxPass', 'toString']) {
    for (const options of [{ [name]: 1 }, { [name]: undefined }, Object.create({ [name]: 1 })]) {
        assert.throws(() => zaxbriar.readInfo(jpeg, options), named(name), name);
        assert.throws(() => zaxbriar.decode(jpeg, options), named(name), name);
    }
    assert.throws(() => zaxbriar.decode(jpeg, { [name]: 1, partial: true }), named(name), name);
}
assert.throws(() => zaxbriar.decode(new Uint8Array(9), { maxpixels: 1 }), named('maxpixels'));
for (const name of ['maxmemory', 'maxBytes']) {
    assert.throws(() => new Zaxbriar(module, { [name]: 1e6 }), named(name));
    await assert.rejects(load(module, { [name]: 1e6 }), named(name));
}
new Zaxbriar(module, { maxMemory: undefined });
const count = Object.keys(OPTIONS).length;
console.log(`given: ${streams.length} streams of another realm, ${count} options, others by name`);
