/* node --expose-gc arriving.mjs FILE..: the lines of pictures while their streams arrive: in pieces
 * of several sizes beside `rows` of the bytes, of files that are cut and damaged; streams of
 * several kinds, and how they are left; what is freed, and when; options, limits and reset. */
import assert from 'node:assert/strict';
import { readFileSync } from 'node:fs';
import { Readable } from 'node:stream';
import { Zaxbriar, ZaxbriarError, compile } from '../dist/node.mjs';
import { endless } from './endless.mjs';

const files = process.argv.slice(2).map((path) => readFileSync(path));
const module = await compile();
const zaxbriar = new Zaxbriar(module);
const code = (code) => (error) => error instanceof ZaxbriarError && error.code === code;
const photograph = readFileSync(new URL('../../../examples/rocket.jpg', import.meta.url));
const counts = { pictures: 0, refused: 0, lines: 0, early: 0 };

let seed = 1;
const random = (below) => {
    seed = (Math.imul(seed, 1664525) + 1013904223) >>> 0;
    return (seed >>> 8) % below;
};

/* Pieces of a size, or of any up to 3000 bytes where that is 0. */
function* piecesOf(jpeg, size) {
    for (let at = 0; at < jpeg.length; ) {
        const count = size || random(3000);
        yield jpeg.subarray(at, at + count);
        at += count;
    }
}

/* What `rows` gives of the bytes: the picture, the lines and the error, if there is one. */
function wantedOf(jpeg, options) {
    const wanted = { picture: null, lines: [], error: null };
    try {
        const rows = zaxbriar.rows(jpeg, options);
        wanted.picture = rows.picture;
        for (const line of rows) wanted.lines.push(line);
    } catch (error) {
        if (!(error instanceof ZaxbriarError)) throw error;
        wanted.error = error;
    }
    return wanted;
}

/* The same of a stream that arrives. */
async function givenOf(rows) {
    const given = { picture: null, lines: [], error: null };
    assert.equal(rows.picture, null);
    try {
        for await (const line of rows) {
            assert.ok(line instanceof Uint8Array);
            assert.equal(line.buffer.byteLength, rows.picture.rowBytes);
            given.lines.push(line);
            assert.equal(rows.lines, given.lines.length);
        }
    } catch (error) {
        if (!(error instanceof ZaxbriarError)) throw error;
        given.error = error;
    }
    assert.deepEqual(await rows.next(), { value: undefined, done: true });
    given.picture = rows.picture;
    return given;
}

const told = ({ code, message, lines, feature, featureArgument }) => {
    return { code, message, lines, feature, featureArgument };
};

function same(given, wanted) {
    assert.deepEqual(given.picture, wanted.picture);
    assert.ok(Buffer.concat(given.lines).equals(Buffer.concat(wanted.lines)));
    assert.deepEqual(given.error && told(given.error), wanted.error && told(wanted.error));
    counts[given.error ? 'refused' : 'pictures']++;
    counts.lines += given.lines.length;
}

/* A file whole, cut, and with other bytes. */
function* versions(jpeg) {
    yield jpeg;
    for (let part = 0; part < 16; part++) yield jpeg.subarray(0, (jpeg.length * part) >> 4);
    for (let part = 1; part < 16; part++) {
        const other = Buffer.from(jpeg);
        other[(jpeg.length * part) >> 4] ^= 0x55;
        yield other;
    }
}

const OPTIONS = [
    ...['none', 'rgb', 'ycbcr', 'cmyk', 'ycck'].map((colorTransform) => ({ colorTransform })),
    { maxPasses: 1 },
    { maxPixels: 100 },
    { maxBytes: 1 },
];
async function compare(jpeg, options, sizes) {
    const wanted = wantedOf(jpeg, options);
    for (const size of sizes) {
        same(await givenOf(zaxbriar.rows(piecesOf(jpeg, size), options)), wanted);
    }
}
for (const jpeg of files) {
    for (const version of versions(jpeg)) await compare(version, {}, [7, 4096, 0]);
    for (const options of OPTIONS) await compare(jpeg, options, [7, 0]);
    await compare(jpeg, {}, [1, 7, 4096, 0]);
}
for (const version of versions(photograph)) await compare(version, {}, [4096, 0]);
await compare(photograph, {}, [1, 7, 512, 65536]);
await compare(endless(200, [64, 64]), {}, [4096]);
await compare(endless(40, [64, 64]), { maxPasses: 0 }, [64]);

// Lines come while the stream does, of which half of the bytes have half of the lines, or nearly.
let arrived = 0;
const counting = (function* () {
    for (const piece of piecesOf(photograph, 512)) {
        arrived += piece.length;
        yield piece;
    }
})();
const { picture, lines: wholeLines } = wantedOf(photograph);
const arriving = zaxbriar.rows(counting);
for await (const line of arriving) {
    assert.equal(line.length, picture.rowBytes);
    if (arrived <= photograph.length / 2) counts.early = arriving.lines;
}
assert.ok(counts.early > picture.height / 4);

// Streams of several kinds. `state` says how one was left.
function streamOf(bytes, state = {}, size = 512) {
    const pieces = piecesOf(bytes, size);
    state.read = 0;
    return new ReadableStream(
        {
            pull(controller) {
                const { value, done } = pieces.next();
                if (done) return controller.close();
                state.read++;
                return controller.enqueue(value);
            },
            cancel: (reason) => (state.cancelled = { reason }),
        },
        { highWaterMark: 0 },
    );
}
const whole = [...piecesOf(photograph, 512)];
async function* later() {
    for (const piece of whole) yield piece;
}
const KINDS = {
    'a ReadableStream': () => streamOf(photograph),
    'one without an iterator': () => ({ getReader: () => streamOf(photograph).getReader() }),
    'a Blob': () => new Blob([photograph]).stream(),
    'a Response': () => new Response(photograph).body,
    'an async iterable': later,
    'an array': () => whole,
    'a stream of Node': () => Readable.from(whole),
    'buffers': () => [new Uint8Array(photograph).buffer, new DataView(new ArrayBuffer(0))],
};
const right = { picture, lines: wholeLines, error: null };
for (const make of Object.values(KINDS)) same(await givenOf(zaxbriar.rows(make())), right);

// A stream is cancelled where it isn't read to its end, and all is freed, however it is left.
const leaving = new Zaxbriar(module);
const first = async (rows) => {
    for await (const line of rows) return line;
    return null;
};
const LEFT = {
    'by for': first,
    'by return': async (rows) => {
        await rows.next();
        assert.deepEqual(await rows.return(), { value: undefined, done: true });
        assert.deepEqual(await rows.next(), { value: undefined, done: true });
    },
    'by return before a line': (rows) => rows.return(),
    'by return twice': async (rows) => [await rows.return(), await rows.return()],
    'by an error': (rows) =>
        assert.rejects(async () => {
            for await (const line of rows) throw new Error(`${line.length}`);
        }, /^Error: 1920$/),
};
for (const [how, leave] of Object.entries(LEFT)) {
    const state = {};
    await leave(leaving.rows(streamOf(photograph, state)));
    assert.ok(state.cancelled, how);
    const { memoryBytes } = leaving;
    for (let count = 0; count < 200; count++) await leave(leaving.rows(streamOf(photograph)));
    assert.equal(leaving.memoryBytes, memoryBytes, how);
}
const refusedBy = async (bytes, options, name) => {
    const state = {};
    await assert.rejects(first(leaving.rows(streamOf(bytes, state), options)), code(name));
    assert.ok(state.cancelled);
    return state.read;
};
assert.equal(await refusedBy(Buffer.alloc(9999, 'no picture'), {}, 'MALFORMED'), 1);
await refusedBy(photograph, { maxPixels: 1 }, 'TOO_LARGE');
await refusedBy(photograph, { maxBytes: 1 }, 'TOO_LARGE');
const toEnd = {};
await givenOf(leaving.rows(streamOf(photograph, toEnd)));
assert.ok(!('cancelled' in toEnd));

// (an iterator is told, too)
let isTold = false;
await first(
    zaxbriar.rows(
        (function* () {
            try {
                yield* whole;
            } finally {
                isTold = true;
            }
        })(),
    ),
);
assert.ok(isTold);

// So is what nobody has any more, once it is collected.
const kept = new Zaxbriar(module);
for (let count = 0; count < 100; count++) await kept.rows(later()).next();
const { memoryBytes } = kept;
globalThis.gc();
await new Promise((done) => setTimeout(done, 50));
for (let count = 0; count < 90; count++) await kept.rows(later()).next();
assert.equal(kept.memoryBytes, memoryBytes);

// Little of a stream is in memory: less than its bytes take for `rows`.
const [small, large] = [new Zaxbriar(module), new Zaxbriar(module)];
for await (const line of small.rows(piecesOf(photograph, 4096))) assert.ok(line.length > 0);
for (const line of large.rows(photograph)) assert.ok(line.length > 0);
assert.ok(small.memoryBytes < large.memoryBytes, `${small.memoryBytes} and ${large.memoryBytes}`);

// Options are tested at the call, and nothing is read before a line is asked for.
const arranging = 'layout stride bottomUp upright luma crop within partial'.split(' ');
for (const name of [...arranging, 'scale', 'minWidth', 'minHeight']) {
    assert.throws(() => zaxbriar.rows([], { [name]: undefined }), TypeError);
}
assert.throws(() => zaxbriar.rows([], { maxPasses: -1 }), RangeError);
assert.throws(() => zaxbriar.rows([], { colorTransform: 'rbg' }), TypeError);
for (const stream of [null, undefined, 5, {}, 'text']) {
    assert.throws(() => zaxbriar.rows(stream), TypeError);
}
await assert.rejects(first(zaxbriar.rows(['text'])), /^TypeError: piece: /);
await assert.rejects(first(zaxbriar.rows([])), code('TRUNCATED'));
const untouched = {};
zaxbriar.rows(streamOf(photograph, untouched));
assert.equal(untouched.read, 0);

// A stream that fails, a memory that is too small, and a decoder that has given its memory back.
const broken = new ReadableStream({
    start(controller) {
        controller.enqueue(photograph.subarray(0, 9999));
    },
    pull(controller) {
        controller.error(new Error('the line is cut'));
    },
});
await assert.rejects(givenOf(zaxbriar.rows(broken)), /^Error: the line is cut$/);
const little = new Zaxbriar(module, { maxMemory: 2 ** 20 });
const longer = Buffer.concat([photograph, Buffer.alloc(2 ** 20)]);
const { lines, error } = await givenOf(little.rows(piecesOf(longer, 4096)));
assert.ok(error.code === 'NO_MEMORY' && error.lines === lines.length);
same(await givenOf(little.rows(piecesOf(photograph, 4096))), right);
const ended = /^Error: the memory of the decoder was given back$/;
const cut = zaxbriar.rows(later());
await cut.next();
zaxbriar.reset();
await assert.rejects(cut.next(), ended);
assert.equal(cut.lines, 1);
assert.deepEqual(await cut.next(), { value: undefined, done: true });
same(await givenOf(zaxbriar.rows(later())), right);

// Lines that are asked for at the same time come one after the other; several streams at a time.
const twoOf = [zaxbriar.rows(later()), zaxbriar.rows(later())];
const asked = await Promise.all(twoOf.flatMap((rows) => [rows.next(), rows.next()]));
assert.deepEqual(asked.map(({ value }) => value), [0, 1, 0, 1].map((at) => wholeLines[at]));
await Promise.all(twoOf.map((rows) => rows.return()));

const { pictures, refused, early } = counts;
console.log(`arriving: ${pictures} pictures, ${refused} refused, ${counts.lines} lines; ` +
    `${early} of ${picture.height} by half of the bytes`);
