/* node --expose-gc rows.mjs FILE..: the lines of pictures, one by one: beside decode at each scale
 * and by each transform, of files that are cut and damaged; what is freed, and when; other calls in
 * between; several at a time; options, limits, reset and a trap. */
import assert from 'node:assert/strict';
import { readFileSync } from 'node:fs';
import { Zaxbriar, ZaxbriarError, compile } from '../dist/node.mjs';
import { endless } from './endless.mjs';

const files = process.argv.slice(2).map((path) => readFileSync(path));
const module = await compile();
const zaxbriar = new Zaxbriar(module);
const counts = { pictures: 0, refused: 0, lines: 0 };
const code = (code) => (error) => error instanceof ZaxbriarError && error.code === code;

/* The error that a call throws, if it does and if it is one of the stream. */
function refusalOf(call) {
    try {
        call();
    } catch (error) {
        if (error instanceof ZaxbriarError) return error;
        throw error;
    }
    return null;
}

/* The lines of a picture are those of decode, or precede the same refusal. */
function compare(jpeg, options = {}) {
    let whole;
    let rows;
    const refusal = refusalOf(() => (whole = zaxbriar.decode(jpeg, options)));
    const early = refusalOf(() => (rows = zaxbriar.rows(jpeg, options)));
    counts[refusal ? 'refused' : 'pictures']++;
    if (early) {
        assert.equal(early.code, refusal.code);
        assert.equal(early.message, refusal.message);
        assert.equal(early.lines, undefined);
        return;
    }
    const { picture } = rows;
    assert.deepEqual(picture, zaxbriar.readInfo(jpeg, options));
    const lines = [];
    const late = refusalOf(() => {
        for (const line of rows) {
            assert.ok(line instanceof Uint8Array && line.buffer.byteLength === picture.rowBytes);
            lines.push(line);
            assert.equal(rows.lines, lines.length);
        }
    });
    counts.lines += lines.length;
    assert.deepEqual(rows.next(), { value: undefined, done: true });
    assert.equal(rows.lines, lines.length);
    assert.equal(late?.code, refusal?.code);
    assert.equal(late?.feature, refusal?.feature);
    assert.equal(late?.featureArgument, refusal?.featureArgument);
    assert.equal(late?.lines, late ? lines.length : undefined);
    if (late) assert.equal(late.message, `${refusal.message}, after ${lines.length} lines`);
    else assert.ok(Buffer.concat(lines).equals(Buffer.from(whole.pixels.buffer)));
}

/* A file whole, cut, and with other bytes. */
function* versions(jpeg) {
    yield jpeg;
    for (let part = 0; part < 16; part++) yield jpeg.subarray(0, (jpeg.length * part) >> 4);
    for (let part = 1; part < 16; part++) {
        const other = Buffer.from(jpeg);
        other[(jpeg.length * part) >> 4] ^= 0x55;
        yield other;
    }
}

for (const jpeg of files) {
    for (const version of versions(jpeg)) compare(version);
    for (const scale of [2, 4, 8]) compare(jpeg, { scale });
    for (const minWidth of [1, 20, 65535]) compare(jpeg, { minWidth, minHeight: minWidth });
    for (const colorTransform of ['none', 'rgb', 'ycbcr', 'cmyk', 'ycck']) {
        compare(jpeg, { colorTransform });
    }
}

// What becomes of the memory. A thousand iterators that aren't used to their end take no more than
// one does, however they are left.
const [jpeg] = files;
const { picture } = zaxbriar.decode(jpeg);
const first = ([line]) => line;
const left = {
    'by for': (rows) => {
        for (const line of rows) return line;
    },
    'by a pattern': first,
    'by return': (rows) => rows.return(),
    'by return twice': (rows) => [rows.next(), rows.return(), rows.return()],
    'by an error': (rows) => {
        assert.throws(() => {
            for (const line of rows) throw new Error(`${line.length}`);
        }, /^Error: \d+$/);
    },
    'at the end': (rows) => Array.from(rows),
};
for (const [how, leave] of Object.entries(left)) {
    const small = new Zaxbriar(module);
    leave(small.rows(jpeg));
    const { memoryBytes } = small;
    for (let count = 0; count < 1000; count++) leave(small.rows(jpeg));
    assert.equal(small.memoryBytes, memoryBytes, how);
}
assert.deepEqual(zaxbriar.rows(jpeg).return(), { value: undefined, done: true });

// Nor does a stream that is refused.
const refusing = new Zaxbriar(module);
const refuse = () => assert.throws(() => refusing.rows(jpeg, { maxBytes: 1 }), code('TOO_LARGE'));
refuse();
const bytesTaken = refusing.memoryBytes;
for (let count = 0; count < 1000; count++) refuse();
assert.equal(refusing.memoryBytes, bytesTaken);

// So do iterators that nobody has any more, once they are collected.
const kept = new Zaxbriar(module);
for (let count = 0; count < 100; count++) kept.rows(jpeg).next();
const { memoryBytes } = kept;
globalThis.gc();
await new Promise((done) => setTimeout(done, 50));
for (let count = 0; count < 90; count++) kept.rows(jpeg).return();
const held = Array.from({ length: 90 }, () => kept.rows(jpeg));
assert.equal(kept.memoryBytes, memoryBytes);
held.forEach((rows) => rows.return());

// Several at a time, with a call in between for which the memory grows.
const growing = new Zaxbriar(module);
const twoOf = [growing.rows(jpeg), growing.rows(jpeg, { scale: 2 })];
const taken = twoOf.map((rows) => [rows.next().value]);
const before = growing.memoryBytes;
growing.decode(endless(1));
assert.ok(growing.memoryBytes > before);
taken.forEach((lines, index) => lines.push(...twoOf[index]));
for (const [index, options] of [{}, { scale: 2 }].entries()) {
    const { pixels } = zaxbriar.decode(jpeg, options);
    assert.ok(Buffer.concat(taken[index]).equals(Buffer.from(pixels.buffer)));
}

// The stream is copied, and so are the lines.
const changed = Buffer.from(jpeg);
const rows = zaxbriar.rows(changed);
changed.fill(0);
const copies = [...rows];
assert.equal(copies.length, picture.height);
assert.ok(Buffer.concat(copies).equals(Buffer.from(zaxbriar.decode(jpeg).pixels.buffer)));

// Options, and limits, which are those of decode.
const arranging = 'layout stride bottomUp upright luma crop within partial'.split(' ');
for (const name of arranging) {
    assert.throws(() => zaxbriar.rows(jpeg, { [name]: undefined }), TypeError);
}
const pixels = picture.width * picture.height;
assert.throws(() => zaxbriar.rows(jpeg, { maxPixels: pixels - 1 }), code('TOO_LARGE'));
assert.equal([...zaxbriar.rows(jpeg, { maxPixels: pixels })].length, picture.height);
assert.throws(() => zaxbriar.rows(jpeg, { maxBytes: 1 }), code('TOO_LARGE'));
assert.throws(() => zaxbriar.rows(jpeg, { maxPasses: -1 }), RangeError);
assert.throws(() => zaxbriar.rows('text'), TypeError);
assert.throws(() => zaxbriar.rows(jpeg, { scale: 3 }), code('BAD_ARGUMENT'));
const scans = endless(200, [64, 64]);
assert.throws(() => [...zaxbriar.rows(scans)], code('TOO_MANY_PASSES'));
assert.equal([...zaxbriar.rows(scans, { maxPasses: 0 })].length, 64);

// A memory that is too small, by pages and by what a stream leaves of them: no lines then, or all
// of them, and whatever was taken is free again.
const photograph = readFileSync(new URL('../../../examples/rocket.jpg', import.meta.url));
const outcomes = { all: 0, none: 0 };
for (let room = 65536 * 6; room < 2 ** 20; room += 2048) {
    const padded = Buffer.concat([photograph, Buffer.alloc(65535 - (room % 65536))]);
    const little = new Zaxbriar(module, { maxMemory: room });
    const lines = [];
    const take = () => lines.push(...little.rows(padded));
    const refusal = refusalOf(take);
    assert.equal(refusal?.code, lines.length ? undefined : 'NO_MEMORY');
    assert.ok([0, 427].includes(lines.length) && little.memoryBytes <= room);
    assert.equal(refusalOf(take)?.code, refusal?.code);
    outcomes[refusal ? 'none' : 'all']++;
}
assert.ok(outcomes.all > 50 && outcomes.none > 50);

// A decoder that has given its memory back, or has trapped, has no more lines, and works.
const ended = /^Error: the memory of the decoder was given back$/;
const cut = zaxbriar.rows(jpeg);
cut.next();
zaxbriar.reset();
assert.throws(() => cut.next(), ended);
assert.equal(cut.lines, 1);
assert.deepEqual(cut.next(), { value: undefined, done: true });
assert.equal(zaxbriar.memoryBytes, 0);
assert.equal([...zaxbriar.rows(jpeg)].length, picture.height);
const other = zaxbriar.rows(jpeg);
zaxbriar.reset();
assert.equal([...zaxbriar.rows(jpeg)].length, picture.height);
other.return();
assert.equal([...zaxbriar.rows(jpeg)].length, picture.height);
const deep = zaxbriar.rows(jpeg);
const fillStack = () => {
    try {
        fillStack();
    } catch {
        // (higher up there is room for it, and not yet at the bottom)
        zaxbriar.readInfo(jpeg);
    }
};
fillStack();
assert.throws(() => deep.next(), ended);
assert.equal([...zaxbriar.rows(jpeg)].length, picture.height);

console.log(`rows: ${counts.pictures} pictures, ${counts.refused} refused, ${counts.lines} lines`);
