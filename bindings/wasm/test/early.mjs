/* node early.mjs FILE..: the worker of dist/web in Node, with canvases of the test's own: pictures
 * while their files are read in pieces, whole, cut and damaged. Each has the first lines of the
 * last one, or is what decode gives of the bytes; and the answer for the file is that for one that
 * is read at once. */
import assert from 'node:assert/strict';
import { readFileSync } from 'node:fs';
import { load } from '../dist/node.mjs';
import { withOrientation } from './turned.mjs';

const OPTIONS = { layout: 'rgba', upright: true, partial: true };
const files = process.argv.slice(2).map((path) => readFileSync(path));
const photograph = readFileSync(new URL('../../../examples/rocket.jpg', import.meta.url));
const zaxbriar = await load();
const counts = { answers: 0, byLines: 0, anew: 0 };

globalThis.ImageData = class {
    constructor(...words) {
        const [data, width, height] = words.length === 3 ? words : [null, ...words];
        assert.ok(width > 0 && height > 0);
        Object.assign(this, { data: data ?? new Uint8ClampedArray(4 * width * height), width });
    }
};
globalThis.OffscreenCanvas = class {
    constructor(width, height) {
        Object.assign(this, { width, height, data: new Uint8ClampedArray(4 * width * height) });
    }

    getContext() {
        const { data, width } = this;
        return {
            fillRect() {
                assert.equal(this.fillStyle, '#808080');
                new Uint32Array(data.buffer).fill(0xff808080);
            },
            putImageData(image, left, top) {
                assert.ok(left === 0 && image.width === width);
                data.set(image.data, 4 * width * top);
            },
        };
    }

    transferToImageBitmap() {
        return { width: this.width, height: this.height, data: Buffer.from(this.data) };
    }
};
globalThis.createImageBitmap = async (canvas) => canvas.transferToImageBitmap();
globalThis.fetch = async (address) => new Response(readFileSync(address));
globalThis.onmessage = null;
let tell;
globalThis.postMessage = (reply) => tell(reply);
// (each look at the clock is so much later)
let [time, step] = [0, 0];
performance.now = () => (time += step);
await import('../dist/web/worker.mjs');

/* The answers for a file that is read in pieces of a size: those so far, with the bytes that were
 * read by then, and the last one without its time. */
async function answersOf(jpeg, size) {
    let count = 0;
    const pull = (controller) => {
        if (count === jpeg.length) return controller.close();
        const piece = jpeg.subarray(count, count + size);
        count += piece.length;
        return controller.enqueue(piece);
    };
    const stream = () => new ReadableStream({ pull }, { highWaterMark: 0 });
    const early = [];
    const { milliseconds, ...last } = await new Promise((done) => {
        tell = (reply) => {
            if (!reply.isEarly) return done(reply);
            return early.push({ ...reply, bytes: jpeg.subarray(0, count) });
        };
        globalThis.onmessage({ data: { file: { size: jpeg.length, stream }, isShown: true } });
    });
    return { early, last };
}

const firstOf = ({ width, data }, lines) => data.subarray(0, 4 * width * lines);

/* How many of its first lines a picture has, below which it is grey. */
function linesOf({ width, height, data }) {
    const grey = Buffer.alloc(4 * width, Buffer.from([128, 128, 128, 255]));
    const isGrey = (line) => grey.equals(data.subarray(4 * width * line, 4 * width * (line + 1)));
    let lines = height;
    while (lines > 0 && isGrey(lines - 1)) lines--;
    return lines;
}

/* Whether a picture so far is one by lines; else it is what decode gives. */
function isByLines({ picture, bytes, bitmap }, last) {
    const { process, orientation } = picture;
    if (zaxbriar.decode(bytes, OPTIONS).pixels.every((it, at) => it === bitmap.data[at])) {
        return false;
    }
    assert.ok(process === 'sequential' && orientation === 1);
    const lines = linesOf(bitmap);
    assert.ok(lines > 0 && firstOf(bitmap, lines).equals(firstOf(last.bitmap, lines)));
    return true;
}

/* Looks at the answers for a file, and gives how many pictures so far were by lines. */
async function check(jpeg, size) {
    step = 0;
    const { early: none, last: wanted } = await answersOf(jpeg, Infinity);
    assert.equal(none.length, 0);
    step = 1000;
    const { early, last } = await answersOf(jpeg, size);
    assert.deepEqual(last, wanted);
    const lines = early.map(({ bitmap }) => linesOf(bitmap));
    const byLines = early.filter((reply) => isByLines(reply, last)).length;
    for (const { picture, bytes } of early) assert.deepEqual(picture, zaxbriar.readInfo(bytes));
    counts.answers++;
    counts.byLines += byLines;
    counts.anew += early.length - byLines;
    return { byLines, lines, height: last.picture?.height };
}

/* A file whole, cut, and with other bytes. */
function* versions(jpeg) {
    for (let part = 1; part <= 16; part++) yield jpeg.subarray(0, (jpeg.length * part) >> 4);
    for (let part = 1; part < 16; part++) {
        const other = Buffer.from(jpeg);
        other[(jpeg.length * part) >> 4] ^= 0x55;
        yield other;
    }
}

/* A picture of 256 rows of blocks without coefficients, with a scan for each list of components. */
function blank(...scans) {
    const segment = (marker, bytes) => [0xff, marker, 0, bytes.length + 2, ...bytes];
    const ids = scans.flat();
    const tables = [0, 0x10].flatMap((it) => segment(0xc4, [it, 1, ...Array(15).fill(0), 0]));
    const frame = [8, 8, 0, 0, 8, ids.length, ...ids.flatMap((id) => [id, 17, 0])];
    const scanOf = (scan) => [
        ...segment(0xda, [scan.length, ...scan.flatMap((id) => [id, 0]), 0, 63, 0]),
        ...Array(64 * scan.length).fill(0),
    ];
    const head = [0xff, 0xd8, ...segment(0xdb, [0, ...Array(64).fill(1)]), ...tables];
    const all = [...head, ...segment(0xc0, frame), ...scans.flatMap(scanOf), 0xff, 0xd9];
    return Buffer.from(all);
}

for (const jpeg of files) {
    for (const version of versions(jpeg)) await check(version, Math.max(jpeg.length >> 4, 7));
}
for (const version of versions(photograph)) await check(version, 4096);

// The lines of the photograph come with its bytes; those of one that is turned, of ink, and of one
// with several scans don't.
const { byLines, lines, height } = await check(photograph, 1024);
assert.ok(byLines > 45 && lines.every((count, index) => !index || count >= lines[index - 1]));
assert.ok(lines.at(-1) > 0.9 * height && lines[lines.length >> 1] > height / 4);
for (const jpeg of [withOrientation(photograph, 6), blank([1, 2, 3, 4]), blank([1], [2], [3])]) {
    const shown = await check(jpeg, jpeg.length >> 4);
    assert.ok(shown.byLines === 0 && shown.lines.length > 2, `${shown.lines}`);
}

// A browser that runs out of memory for a picture so far shows none, and the last one.
globalThis.createImageBitmap = () => Promise.reject(new Error('no memory'));
assert.equal((await check(photograph, 4096)).lines.length, 0);

const { answers, anew } = counts;
console.log(`early: ${answers} files, ${counts.byLines} pictures so far by lines, ${anew} anew`);
