/* node --expose-gc fed.mjs FILE..: streams that are fed: in pieces of three sizes beside decode of
 * the same bytes in one piece, with options; what is freed, and when; other calls in between;
 * several at a time; options, limits, reset and a trap; and showStream over streams of several
 * kinds, which it leaves as it should. */
import assert from 'node:assert/strict';
import { readFileSync } from 'node:fs';
import { Readable } from 'node:stream';
import { Zaxbriar, ZaxbriarError, compile } from '../dist/node.mjs';
import { endless } from './endless.mjs';

const files = process.argv.slice(2).map((path) => readFileSync(path));
const module = await compile();
const zaxbriar = new Zaxbriar(module);
const code = (code) => (error) => error instanceof ZaxbriarError && error.code === code;
const photograph = readFileSync(new URL('../../../examples/rocket.jpg', import.meta.url));
const counts = { pictures: 0, refused: 0, streams: 0 };

/* What a call gives, or the error of the stream that it throws. */
function outcomeOf(call) {
    try {
        return call();
    } catch (error) {
        if (error instanceof ZaxbriarError) return error;
        throw error;
    }
}

/* The picture of the header, or null where that isn't there yet, or the refusal, by the limits of
 * decode. */
function infoOf(jpeg, options) {
    const limited = { maxBytes: 2 ** 30, ...options };
    const info = outcomeOf(() => zaxbriar.readInfo(jpeg, limited));
    return info.code === 'TRUNCATED' ? null : info;
}

/* What is shown after some of a stream is what decode gives of it. */
function compare(fed, jpeg, options) {
    assert.equal(fed.byteLength, jpeg.length);
    assert.deepEqual(outcomeOf(() => fed.info()), infoOf(jpeg, options));
    const shown = outcomeOf(() => fed.show());
    const wanted = outcomeOf(() => zaxbriar.decode(jpeg, { ...options, partial: true }));
    assert.deepEqual(shown, wanted);
    counts[shown instanceof ZaxbriarError ? 'refused' : 'pictures']++;
}

function* piecesOf(jpeg, size) {
    for (let at = 0; at < jpeg.length; at += size) yield jpeg.subarray(at, at + size);
}

/* Feeds a file in pieces, and compares after each of them, or each time that it has grown. */
function feed(jpeg, size, options = {}, growth = 1) {
    const fed = zaxbriar.feed(options);
    let next = 0;
    compare(fed, jpeg.subarray(0, 0), options);
    for (const piece of piecesOf(jpeg, size)) {
        fed.feed(piece);
        if (fed.byteLength < next && fed.byteLength < jpeg.length) continue;
        compare(fed, jpeg.subarray(0, fed.byteLength), options);
        next = growth * fed.byteLength;
    }
    compare(fed, jpeg, options);
    fed.free();
}

const OPTIONS = [
    { layout: 'rgba', upright: true },
    { stride: 3000, bottomUp: true, layout: 'rgb565' },
    { scale: 2 },
    { minWidth: 20, minHeight: 20, luma: true },
    { crop: { left: 1, top: 1, width: 2, height: 2 }, layout: 'rgb16' },
    { within: { width: 10, height: 10 }, upright: true },
    { colorTransform: 'none' },
    { colorTransform: 'ycck' },
    { maxPasses: 1 },
    { maxPixels: 100 },
    { maxBytes: 1 },
];
const isSmall = (jpeg) => jpeg.length < 200;
for (const jpeg of files) {
    for (const size of [1, 7, 4096]) feed(jpeg, size, {}, isSmall(jpeg) ? 1 : 1.2);
    for (const options of OPTIONS) feed(jpeg, 7, { maxPixels: 1e6, ...options }, 2);
}
for (const size of [1, 7, 4096]) feed(photograph, size, { layout: 'rgba' }, 1.5);
feed(endless(101, [8, 8]), 7, {}, 1.1);
feed(endless(40, [8, 8]), 64, { maxPasses: 20 });

// What becomes of the memory. A thousand streams take no more than one does, however they are left.
const [jpeg] = files;
const { picture, pixels } = zaxbriar.decode(jpeg);
const left = {
    'by free': (fed) => fed.free(),
    'by free twice': (fed) => [fed.free(), fed.free()],
    'after bytes': (fed) => [fed.feed(jpeg), fed.free()],
    'after a picture': (fed) => [fed.feed(jpeg), fed.show(), fed.free()],
    'after a refusal': (fed) => {
        fed.feed(Buffer.from('no picture'));
        assert.throws(() => fed.info(), code('MALFORMED'));
        assert.throws(() => fed.show(), code('MALFORMED'));
        fed.free();
    },
};
if (Symbol.dispose) left['by using'] = (fed) => fed[Symbol.dispose]();
for (const [how, leave] of Object.entries(left)) {
    const small = new Zaxbriar(module);
    leave(small.feed());
    const { memoryBytes } = small;
    for (let count = 0; count < 1000; count++) leave(small.feed());
    assert.equal(small.memoryBytes, memoryBytes, how);
}
const freed = zaxbriar.feed();
freed.feed(jpeg);
freed.free();
for (const call of ['info', 'show', 'feed']) {
    assert.throws(() => freed[call](jpeg), /^Error: the stream was freed$/);
}
assert.equal(freed.byteLength, jpeg.length);

// Nor do options that are refused.
const refusing = new Zaxbriar(module);
const refuse = () => assert.throws(() => refusing.feed({ scale: 3 }), code('BAD_ARGUMENT'));
refuse();
const bytesTaken = refusing.memoryBytes;
for (let count = 0; count < 1000; count++) refuse();
assert.equal(refusing.memoryBytes, bytesTaken);

// So do streams that nobody has any more, once they are collected.
const kept = new Zaxbriar(module);
for (let count = 0; count < 100; count++) kept.feed().feed(jpeg);
const { memoryBytes } = kept;
globalThis.gc();
await new Promise((done) => setTimeout(done, 50));
const held = Array.from({ length: 90 }, () => kept.feed());
held.forEach((fed) => fed.feed(jpeg));
assert.equal(kept.memoryBytes, memoryBytes);
held.forEach((fed) => fed.free());

// Several at a time, with a call in between for which the memory grows.
const growing = new Zaxbriar(module);
const twoOf = [{}, { scale: 2 }].map((options) => ({ options, fed: growing.feed(options) }));
const [start, rest] = [photograph.subarray(0, 60000), photograph.subarray(60000)];
twoOf.forEach(({ fed }) => fed.feed(start));
twoOf.forEach(({ fed }) => fed.show());
const before = growing.memoryBytes;
growing.decode(endless(1));
assert.ok(growing.memoryBytes > before);
for (const { options, fed } of twoOf) {
    fed.feed(rest);
    assert.deepEqual(fed.show().pixels, zaxbriar.decode(photograph, options).pixels);
}

// Pieces are copied, of each kind of view; and options, too.
const changed = new Uint8Array(jpeg).buffer;
const options = { layout: 'rgb' };
const copied = zaxbriar.feed(options);
copied.feed(changed);
new Uint8Array(changed).fill(0);
options.layout = 'grey';
assert.equal(copied.show().picture.layout, 'rgb');
const views = zaxbriar.feed();
const half = jpeg.length >> 1;
views.feed(new DataView(new Uint8Array(jpeg).buffer, 0, half));
views.feed(new ArrayBuffer(0));
views.feed(new Int8Array(jpeg.subarray(half)));
assert.deepEqual(views.show(), zaxbriar.decode(jpeg, { partial: true }));
for (const piece of ['text', null, undefined, 255, [255, 216]]) {
    assert.throws(() => views.feed(piece), /^TypeError: piece: an ArrayBuffer or a view of one$/);
}
assert.deepEqual(views.show().pixels, pixels);

// Options and limits, which are those of decode.
for (const options of [{ partial: true }, { maxPixel: 1 }, { growth: 2 }]) {
    assert.throws(() => zaxbriar.feed(options), TypeError);
}
assert.throws(() => zaxbriar.feed({ layout: 'rbg' }), TypeError);
assert.throws(() => zaxbriar.feed({ maxPasses: -1 }), RangeError);
assert.throws(() => zaxbriar.feed({ maxPixels: -1 }), RangeError);
const { message } = outcomeOf(() => zaxbriar.decode(jpeg, { scale: 3 }));
assert.equal(outcomeOf(() => zaxbriar.feed({ scale: 3 })).message, message);
const scans = zaxbriar.feed();
scans.feed(endless(200, [8, 8]));
assert.equal(scans.show().fault.code, 'TOO_MANY_PASSES');
const anyScans = zaxbriar.feed({ maxPasses: 0 });
anyScans.feed(endless(200, [8, 8]));
assert.equal(anyScans.show().fault, null);

// A memory that is too small: what was refused wasn't taken, and can be fed again.
const little = new Zaxbriar(module, { maxMemory: 2 ** 20 });
const filled = little.feed();
filled.feed(photograph.subarray(0, 9999));
assert.throws(() => filled.feed(new Uint8Array(2 ** 20)), code('NO_MEMORY'));
assert.equal(filled.byteLength, 9999);
assert.throws(() => {
    for (;;) filled.feed(new Uint8Array(50000));
}, code('NO_MEMORY'));
assert.throws(() => filled.show(), code('NO_MEMORY'));
filled.free();
const again = little.feed({ scale: 8 });
again.feed(photograph);
assert.equal(again.show().fault, null);

// A decoder that has given its memory back, or has trapped, has no more of a stream, and works.
const ended = /^Error: the memory of the decoder was given back$/;
const cut = zaxbriar.feed();
cut.feed(jpeg);
zaxbriar.reset();
for (const call of ['info', 'show', 'feed']) assert.throws(() => cut[call](jpeg), ended);
assert.equal(zaxbriar.memoryBytes, 0);
const other = zaxbriar.feed();
other.feed(jpeg);
cut.free();
assert.deepEqual(other.show().pixels, pixels);
const fillStack = () => {
    try {
        fillStack();
    } catch {
        // (higher up there is room for it, and not yet at the bottom)
        zaxbriar.readInfo(jpeg);
    }
};
fillStack();
assert.throws(() => other.show(), ended);
assert.equal(zaxbriar.decode(jpeg).picture.width, picture.width);

// Streams of several kinds. `state` says how one was left.
const whole = (bytes, size = 512) => [...piecesOf(bytes, size)];
function streamOf(bytes, state = {}, size = 512) {
    const pieces = piecesOf(bytes, size);
    state.read = 0;
    return new ReadableStream(
        {
            pull(controller) {
                const { value, done } = pieces.next();
                if (done) return controller.close();
                state.read++;
                return controller.enqueue(value);
            },
            cancel: (reason) => (state.cancelled = { reason }),
        },
        { highWaterMark: 0 },
    );
}
/* A stream for whose streams there is no iterator, as in some browsers. */
const withoutIterator = (stream) => ({ getReader: () => stream.getReader() });
async function* later(bytes) {
    for (const piece of piecesOf(bytes, 512)) yield piece;
}
const KINDS = {
    'a ReadableStream': streamOf,
    'one without an iterator': (bytes) => withoutIterator(streamOf(bytes)),
    'a Blob': (bytes) => new Blob([bytes]).stream(),
    'a Response': (bytes) => new Response(bytes).body,
    'an async iterable': later,
    'an array': whole,
    'a stream of Node': (bytes) => Readable.from(whole(bytes)),
    'one piece': (bytes) => [bytes],
};
const taken = async (shown) => {
    const pictures = [];
    for await (const picture of shown) pictures.push(picture);
    return pictures;
};
const withoutEnd = photograph.subarray(0, photograph.length - 2);
for (const [kind, make] of Object.entries(KINDS)) {
    const options = { layout: 'rgba', maxPixels: 1e6 };
    const pictures = await taken(zaxbriar.showStream(make(photograph), options));
    const last = zaxbriar.decode(photograph, { ...options, partial: true });
    assert.deepEqual(pictures.at(-1), last, kind);
    assert.ok(pictures.slice(0, -1).every(({ fault }) => fault.code === 'TRUNCATED'));
    const [cut] = (await taken(zaxbriar.showStream(make(withoutEnd), options))).slice(-1);
    assert.deepEqual(cut, zaxbriar.decode(withoutEnd, { ...options, partial: true }), kind);
    counts.streams += 2;
}

// (a picture that is the last one is shown once)
assert.equal((await taken(zaxbriar.showStream([withoutEnd]))).length, 1);

// When pictures come: with the header, and then each time that there is so much more.
const timesOf = async (growth, size) => {
    const counted = [];
    let read = 0;
    const counting = (function* () {
        for (const piece of piecesOf(photograph, size)) {
            read += piece.length;
            yield piece;
        }
    })();
    for await (const { fault } of zaxbriar.showStream(counting, { growth })) {
        counted.push(read);
        const part = photograph.subarray(0, read);
        assert.equal(fault?.code, zaxbriar.decode(part, { partial: true }).fault?.code);
    }
    return counted;
};
const { length } = photograph;
const doubled = [1000, 2000, 4000, 8000, 16000, 32000, 64000, length];
assert.deepEqual(await timesOf(undefined, 1000), doubled);
assert.deepEqual(await timesOf(4, 1000), [1000, 4000, 16000, 64000, length]);
assert.deepEqual(await timesOf(Infinity, 1000), [1000, length]);
assert.deepEqual(await timesOf(2, 2 * length), [length]);

// A stream is cancelled where it isn't read to its end: where the loop is left, by an error in it,
// by what it has that is no picture, and where its picture ends before it.
const leaving = new Zaxbriar(module);
async function leftBy(leave, bytes, options) {
    const state = {};
    await leave(leaving.showStream(streamOf(bytes, state), options));
    return state;
}
const first = async (shown) => {
    for await (const picture of shown) return picture;
    return null;
};
assert.ok((await leftBy(first, photograph)).cancelled);
const failing = (shown) =>
    assert.rejects(async () => {
        for await (const { picture } of shown) throw new Error(`${picture.width}`);
    }, /^Error: 640$/);
assert.ok((await leftBy(failing, photograph)).cancelled);
const asked = (shown) => assert.rejects(taken(shown), code('MALFORMED'));
const nothing = await leftBy(asked, Buffer.alloc(9999, 'no picture'));
assert.ok(nothing.cancelled && nothing.read === 1);
const large = (shown) => assert.rejects(taken(shown), code('TOO_LARGE'));
assert.ok((await leftBy(large, photograph, { maxPixels: 1 })).cancelled);
const longer = Buffer.concat([photograph, Buffer.alloc(4 * length)]);
const isWhole = async (shown) => assert.equal((await taken(shown)).at(-1).fault, null);
const early = await leftBy(isWhole, longer);
assert.ok(early.cancelled && early.read * 512 < 3 * length);
const many = async (shown) =>
    assert.equal((await taken(shown)).at(-1).fault.code, 'TOO_MANY_PASSES');
assert.ok((await leftBy(many, endless(3000, [8, 8]))).cancelled);
assert.ok(!('cancelled' in (await leftBy(isWhole, photograph))));
const { memoryBytes: afterLeaving } = leaving;
for (let count = 0; count < 100; count++) await leftBy(first, photograph);
assert.equal(leaving.memoryBytes, afterLeaving);

// (an iterator is told, too)
let isTold = false;
const told = (function* () {
    try {
        yield* whole(photograph);
    } finally {
        isTold = true;
    }
})();
await first(zaxbriar.showStream(told));
assert.ok(isTold);

// A stream without a picture, without bytes, and one that fails.
await assert.rejects(taken(zaxbriar.showStream([])), code('TRUNCATED'));
await assert.rejects(taken(zaxbriar.showStream([jpeg.subarray(0, 4)])), code('TRUNCATED'));
const broken = new ReadableStream({
    start(controller) {
        controller.enqueue(photograph.subarray(0, 9999));
    },
    pull(controller) {
        controller.error(new Error('the line is cut'));
    },
});
await assert.rejects(taken(zaxbriar.showStream(broken)), /^Error: the line is cut$/);

// What it is given is tested at the call, and nothing is read before a picture is asked for.
for (const growth of [1, 0, -1, NaN, '2', null]) {
    assert.throws(() => zaxbriar.showStream([], { growth }), RangeError);
}
assert.throws(() => zaxbriar.showStream([], { partial: true }), TypeError);
assert.throws(() => zaxbriar.showStream([], { layout: 'rbg' }), TypeError);
for (const stream of [null, undefined, 5, {}]) {
    assert.throws(() => zaxbriar.showStream(stream), /^TypeError: stream: /);
}
await assert.rejects(taken(zaxbriar.showStream('text')), TypeError);
const untouched = {};
zaxbriar.showStream(streamOf(photograph, untouched));
assert.equal(untouched.read, 0);

const { pictures, refused, streams } = counts;
console.log(`fed: ${pictures} pictures, ${refused} without one; ${streams} streams`);
