/* node calls.mjs FILE: the calls of zaxbriar.mjs: what load takes, what a header says, what options
 * do and which are refused, errors and features, limits, memory, and a worker. FILE is a baseline
 * picture of three components without subsampling, with Exif data alone. */
import assert from 'node:assert/strict';
import { readFileSync } from 'node:fs';
import { Worker } from 'node:worker_threads';
import { Zaxbriar, ZaxbriarError, compile, load } from '../dist/node.mjs';
import { endless } from './endless.mjs';
import { turned, withOrientation } from './turned.mjs';

const path = process.argv[2];
const jpeg = readFileSync(path);
const url = new URL('../dist/zaxbriar.wasm', import.meta.url);
const wasm = readFileSync(url);
const code = (code) => (error) => error instanceof ZaxbriarError && error.code === code;
const unsupported = (feature, argument) => (error) =>
    code('UNSUPPORTED')(error) &&
    error.feature === feature &&
    error.featureArgument === argument &&
    'featureArgument' in error === (argument !== undefined);

const zaxbriar = await load();
const { picture, pixels } = zaxbriar.decode(jpeg);

// What load takes.
const module = await compile(wasm);
const response = () => new Response(wasm, { headers: { 'content-type': 'application/wasm' } });
for (const source of [
    url,
    url.href,
    wasm,
    new Uint8Array(wasm).buffer,
    module,
    response(),
    Promise.resolve(response()),
]) {
    assert.deepEqual((await load(source)).decode(jpeg).pixels, pixels);
}
await assert.rejects(load(new Response('', { status: 404 })), /404/);
assert.match(zaxbriar.version, /^\d+\.\d+\.\d+$/);
assert.deepEqual(WebAssembly.Module.imports(module), []);

// What a stream may be.
const shared = new SharedArrayBuffer(jpeg.length);
new Uint8Array(shared).set(jpeg);
const middle = new Uint8Array(jpeg.length + 20);
middle.set(jpeg, 10);
for (const stream of [
    new Uint8Array(jpeg).buffer,
    new DataView(middle.buffer, 10, jpeg.length),
    middle.subarray(10, 10 + jpeg.length),
    shared,
]) {
    assert.deepEqual(zaxbriar.decode(stream).pixels, pixels);
}
for (const stream of [null, undefined, 'text', [255, 216]]) {
    assert.throws(() => zaxbriar.decode(stream), TypeError);
}

// What a picture says.
assert.equal(pixels.length, picture.size);
assert.equal(picture.rowBytes, picture.width * picture.pixelBytes);
assert.equal(picture.layout, 'stored');
assert.equal(picture.streamBytes, jpeg.length);
assert.deepEqual({ ...zaxbriar.readInfo(jpeg), streamBytes: jpeg.length }, picture);

// What the frame header says, also of streams with other bytes there.
const frame = jpeg.indexOf(Buffer.from([0xff, 0xc0]));
/* The stream with other bytes of its frame header, by their places from its marker on. */
const withFrame = (bytes) => {
    const changed = Buffer.from(jpeg);
    for (const [place, byte] of Object.entries(bytes)) changed[frame + Number(place)] = byte;
    return changed;
};
const factors = (byte) => ({ horizontal: byte >> 4, vertical: byte & 15 });
assert.equal(picture.format, 'rgb');
assert.deepEqual(picture.sampling, [0x11, 0x11, 0x11].map(factors));
for (let horizontal = 1; horizontal <= 4; horizontal++) {
    for (let vertical = 1; vertical <= 4; vertical++) {
        const changed = withFrame({ 11: 16 * horizontal + vertical });
        const [first, ...others] = zaxbriar.readInfo(changed).sampling;
        assert.deepEqual(first, { horizontal, vertical });
        assert.deepEqual(others, [0x11, 0x11].map(factors));
    }
}
// (a lossless frame of one component is shorter by six bytes)
for (const [precision, format] of Object.entries({ 2: 'grey8', 8: 'grey8', 9: 'grey16' })) {
    const grey = withFrame({ 1: 0xc3, 3: 11, 4: precision, 9: 1, 11: 0x23 });
    const described = zaxbriar.readInfo(grey);
    assert.equal(described.format, format);
    assert.deepEqual(described.sampling, [factors(0x23)]);
}

// The density, by the first JFIF segment if there is one.
const noDensity = { unit: 0, horizontal: 0, vertical: 0 };
assert.deepEqual(picture.density, noDensity);
const jfif = ({ unit, horizontal, vertical }) => {
    const segment = Buffer.from('ffe000104a46494600010200000000000000', 'hex');
    segment[11] = unit;
    segment.writeUInt16BE(horizontal, 12);
    segment.writeUInt16BE(vertical, 14);
    return segment;
};
for (const density of [
    { unit: 1, horizontal: 72, vertical: 300 },
    { unit: 2, horizontal: 0x1234, vertical: 0xfedc },
    { unit: 0, horizontal: 4, vertical: 3 },
    { unit: 255, horizontal: 65535, vertical: 0 },
    noDensity,
]) {
    const second = jfif({ unit: 1, horizontal: 96, vertical: 97 });
    const stream = Buffer.concat([jpeg.subarray(0, 2), jfif(density), second, jpeg.subarray(2)]);
    assert.deepEqual(zaxbriar.readInfo(stream).density, density);
    assert.deepEqual(zaxbriar.decode(stream, { scale: 2 }).picture.density, density);
}

// The transform that the stream's header asks for, whatever the options are.
assert.equal(picture.colorTransform, 'rgb');
assert.equal(zaxbriar.decode(jpeg, { colorTransform: 'ycbcr' }).picture.colorTransform, 'rgb');
assert.equal(zaxbriar.readInfo(withFrame({ 1: 0xc3, 3: 11, 9: 1 })).colorTransform, 'none');

// Features that aren't supported, some with a number.
for (const [stream, feature, argument] of [
    [withFrame({ 1: 0xc5 }), 'hierarchical'],
    [withFrame({ 1: 0xc9 }), 'arithmetic'],
    [withFrame({ 1: 0xc1, 4: 12 }), 'precision', 12],
    [withFrame({ 3: 14, 9: 2 }), 'components', 2],
    [withFrame({ 11: 0x31, 14: 0x21, 17: 0x21 }), 'factors'],
]) {
    for (const call of ['readInfo', 'decode']) {
        assert.throws(() => zaxbriar[call](stream), unsupported(feature, argument), feature);
    }
}
const lines = Buffer.from([0xff, 0xdc, 0, 4, 0, picture.height]);
const withLines = Buffer.concat([jpeg.subarray(0, -2), lines]);
assert.throws(() => zaxbriar.decode(withLines), unsupported('dnl'));
// (metadata that isn't there, by what ends the header)
const arithmetic = withFrame({ 1: 0xc9 });
assert.throws(() => zaxbriar.metadata(arithmetic, 'icc'), unsupported('arithmetic'));
assert.ok(zaxbriar.metadata(arithmetic, 'exif').length > 0);

// Without a conversion, each line has its components one after the other.
const unconverted = zaxbriar.decode(jpeg, { colorTransform: 'none' });
const interleaved = zaxbriar.decode(jpeg, { colorTransform: 'rgb' }).pixels;
assert.deepEqual(unconverted.picture, picture);
unconverted.pixels.forEach((sample, index) => {
    const { width, rowBytes } = picture;
    const [row, place] = [Math.floor(index / rowBytes), index % rowBytes];
    const [component, column] = [Math.floor(place / width), place % width];
    assert.equal(sample, interleaved[row * rowBytes + 3 * column + component]);
});
for (const layout of ['rgb', 'grey']) {
    const options = { colorTransform: 'none', layout };
    assert.throws(() => zaxbriar.decode(jpeg, options), code('BAD_ARGUMENT'));
}

// Layouts, from the stored picture.
const count = picture.width * picture.height;
const laidOut = (order) =>
    Uint8ClampedArray.from({ length: count * order.length }, (_, index) => {
        const place = order[index % order.length];
        return place === 3 ? 255 : pixels[3 * Math.floor(index / order.length) + place];
    });
for (const [layout, order] of Object.entries({
    rgb: [0, 1, 2],
    rgba: [0, 1, 2, 3],
    bgra: [2, 1, 0, 3],
    bgr: [2, 1, 0],
    xrgb: [3, 0, 1, 2],
    abgr: [3, 2, 1, 0],
})) {
    assert.deepEqual(zaxbriar.decode(jpeg, { layout }).pixels, laidOut(order));
}
const packed = zaxbriar.decode(jpeg, { layout: 'rgb565' }).pixels;
new Uint16Array(packed.buffer).forEach((number, index) => {
    const [red, green, blue] = pixels.subarray(3 * index);
    assert.equal(number, ((red >> 3) << 11) | ((green >> 2) << 5) | (blue >> 3));
});
// (samples of 8 bits on the scale of 16 bits)
const wide = new Uint16Array(zaxbriar.decode(jpeg, { layout: 'rgb16' }).pixels.buffer);
assert.deepEqual(Array.from(wide), Array.from(pixels, (sample) => 257 * sample));
const grey = new Uint16Array(zaxbriar.decode(jpeg, { layout: 'grey16' }).pixels.buffer);
grey.forEach((number, index) => {
    const [red, green, blue] = wide.subarray(3 * index);
    const luma = Math.floor((19595 * red + 38470 * green + 7471 * blue + 32768) / 65536);
    assert.equal(number, luma);
});

// Rows from the bottom.
for (const options of [{}, { layout: 'rgb16' }, { layout: 'grey', partial: true, scale: 2 }]) {
    const down = zaxbriar.decode(jpeg, { ...options, bottomUp: false });
    const up = zaxbriar.decode(jpeg, { ...options, bottomUp: true });
    const { rowBytes, height } = down.picture;
    const row = (y) => down.pixels.subarray(y * rowBytes, (y + 1) * rowBytes);
    assert.deepEqual(up.picture, down.picture);
    for (let y = 0; y < height; y++) {
        const place = (height - 1 - y) * rowBytes;
        assert.deepEqual(up.pixels.subarray(place, place + rowBytes), row(y));
    }
}

// Upright, by each orientation; and not without being asked. (The last Exif data count, so that the
// file's own have to go.)
const exifAt = jpeg.indexOf(Buffer.from([0xff, 0xe1]));
const exifEnd = exifAt + 2 + jpeg.readUInt16BE(exifAt + 2);
const plain = Buffer.concat([jpeg.subarray(0, exifAt), jpeg.subarray(exifEnd)]);
for (let orientation = 1; orientation <= 8; orientation++) {
    const stream = withOrientation(plain, orientation);
    for (const options of [
        {},
        { layout: 'rgba' },
        { layout: 'grey', scale: 2, minWidth: 1 },
        { layout: 'rgb16', partial: true },
    ]) {
        const stored = zaxbriar.decode(stream, { ...options, upright: false });
        const upright = zaxbriar.decode(stream, { ...options, upright: true });
        const wanted = turned(stored);
        const { width, height, pixelBytes } = upright.picture;
        assert.equal(stored.picture.orientation, orientation);
        assert.deepEqual({ width, height, pixels: upright.pixels }, wanted);
        assert.deepEqual(upright.picture, {
            ...stored.picture,
            ...{ width, height, rowBytes: width * pixelBytes },
        });
        assert.equal(upright.wholeRows, stored.wholeRows);
        const { partial, ...described } = options;
        const read = zaxbriar.readInfo(stream, { ...described, upright: true });
        assert.deepEqual([read.width, read.height], [width, height]);
    }
    const cut = stream.subarray(0, 300);
    const part = zaxbriar.decode(cut, { partial: true, upright: true });
    const stored = zaxbriar.decode(cut, { partial: true });
    assert.deepEqual(part.pixels, turned(stored).pixels);
    assert.equal(part.wholeRows, stored.wholeRows);
    const options = { upright: true, colorTransform: 'none' };
    assert.throws(() => zaxbriar.decode(stream, options), code('BAD_ARGUMENT'));
}

// The luma alone is the first of the components, which are there without a conversion. (Those of
// the file are red, green and blue, of which none is luma unless a transform says so.)
const asLuma = { luma: true, colorTransform: 'ycbcr' };
for (const options of [{}, { scale: 2 }, { partial: true }]) {
    const luma = zaxbriar.decode(jpeg, { ...options, ...asLuma });
    const all = zaxbriar.decode(jpeg, { ...options, colorTransform: 'none' });
    const { width, height } = luma.picture;
    assert.deepEqual(luma.picture, {
        ...all.picture,
        ...{ components: 1, format: 'grey8', pixelBytes: 1, rowBytes: width, size: width * height },
    });
    for (let y = 0; y < height; y++) {
        const line = all.pixels.subarray(3 * y * width, 3 * y * width + width);
        assert.deepEqual(luma.pixels.subarray(y * width, (y + 1) * width), line);
    }
    assert.equal(luma.picture.sampling.length, 3);
    const rgba = zaxbriar.decode(jpeg, { ...options, ...asLuma, layout: 'rgba' }).pixels;
    assert.deepEqual([...rgba], [...luma.pixels].flatMap((y) => [y, y, y, 255]));
}
for (const colorTransform of ['stream', 'none', 'rgb', 'cmyk']) {
    const options = { luma: true, colorTransform };
    assert.equal(zaxbriar.readInfo(jpeg, options).format, 'grey8');
    assert.throws(() => zaxbriar.decode(jpeg, options), code('MALFORMED'));
}

// A part has the pixels that are there of the whole picture, in each orientation.
const INSIDE = [
    { left: 0, top: 0, right: 0, bottom: 0 },
    { left: 2, top: 1, right: 1, bottom: 1 },
    { left: 0, top: 0, right: 2, bottom: 0 },
    { left: 0, top: 1, right: 0, bottom: 0 },
];
/* Parts of a picture: so far from its sides, its last pixel, a line and a column. */
const areasOf = ({ width, height }) => [
    ...INSIDE.map(({ left, top, right, bottom }) => ({
        ...{ left, top },
        ...{ width: width - left - right, height: height - top - bottom },
    })),
    { left: width - 1, top: height - 1, width: 1, height: 1 },
    { top: 1, width, height: 1 },
    { left: 1, width: 1, height },
];
/* The pixels of a part of what `decode` gives without gaps, from the top. */
const partOf = ({ picture, pixels }, { left = 0, top = 0, width, height }) => {
    const { rowBytes, pixelBytes } = picture;
    const part = new Uint8ClampedArray(height * width * pixelBytes);
    for (let line = 0; line < height; line++) {
        const from = (top + line) * rowBytes + left * pixelBytes;
        const row = pixels.subarray(from, from + width * pixelBytes);
        part.set(row, line * width * pixelBytes);
    }
    return part;
};
for (let orientation = 1; orientation <= 8; orientation++) {
    const stream = withOrientation(plain, orientation);
    for (const options of [
        {},
        { upright: true },
        { layout: 'rgba', scale: 2, upright: true },
        { layout: 'rgb565', scale: 4, upright: true },
        { layout: 'rgb16', partial: true, upright: true },
        { ...asLuma, minWidth: 20 },
        { layout: 'bgr', luma: true, colorTransform: 'ycbcr', upright: true },
    ]) {
        const whole = zaxbriar.decode(stream, options);
        for (const crop of areasOf(whole.picture)) {
            const part = zaxbriar.decode(stream, { ...options, crop });
            const { width, height } = crop;
            const rowBytes = width * whole.picture.pixelBytes;
            const described = { width, height, rowBytes, size: rowBytes * height };
            assert.deepEqual(part.pixels, partOf(whole, crop));
            assert.deepEqual(part.picture, { ...whole.picture, ...described });
            assert.equal(part.fault, whole.fault);
        }
    }
}
// (lines from the bottom, and with gaps)
const tile = { left: 3, top: 2, width: 7, height: 5 };
const tilePixels = partOf({ picture, pixels }, tile);
const tileRows = (from, stride) =>
    Array.from({ length: 5 }, (_, row) => [...from.subarray(row * stride, row * stride + 21)]);
const upTile = zaxbriar.decode(jpeg, { crop: tile, bottomUp: true, stride: 30 });
assert.equal(upTile.picture.size, 4 * 30 + 21);
assert.deepEqual(tileRows(upTile.pixels, 30), tileRows(tilePixels, 21).reverse());
assert.deepEqual(zaxbriar.decode(jpeg, { crop: Object.create(tile) }).pixels, tilePixels);
// Its complete rows are those of its lines in the stored picture.
const rowCounts = new Set();
for (const [orientation, firstLine, lineCount] of [
    [1, 'top', 'height'],
    [6, 'left', 'width'],
]) {
    const stream = withOrientation(plain, orientation);
    for (let length = 250; length < stream.length; length += 9) {
        const cut = stream.subarray(0, length);
        const options = { partial: true, upright: true };
        const whole = zaxbriar.decode(cut, options);
        for (const crop of areasOf(whole.picture)) {
            const { wholeRows, pixels } = zaxbriar.decode(cut, { ...options, crop });
            const [from, count] = [crop[firstLine] ?? 0, crop[lineCount]];
            // (orientation 6: the last column is the first line)
            const before = orientation === 6 ? whole.picture.width - from - count : from;
            assert.equal(wholeRows, Math.min(Math.max(whole.wholeRows - before, 0), count));
            rowCounts.add(wholeRows);
            assert.deepEqual(pixels, partOf(whole, crop));
        }
    }
}
assert.ok(rowCounts.size > 4);
for (const crop of [
    { left: 1, width: picture.width, height: 1 },
    { top: picture.height, width: 1, height: 1 },
    { left: 65535, top: 65535, width: 65535, height: 65535 },
]) {
    assert.throws(() => zaxbriar.readInfo(jpeg, { crop }), code('BAD_ARGUMENT'));
    assert.throws(() => zaxbriar.decode(jpeg, { crop, partial: true }), code('BAD_ARGUMENT'));
}
const half = { left: 0, top: 0, width: picture.width, height: picture.height };
assert.throws(() => zaxbriar.decode(jpeg, { crop: half, scale: 2 }), code('BAD_ARGUMENT'));
const asLines = { crop: tile, colorTransform: 'none' };
assert.throws(() => zaxbriar.decode(jpeg, asLines), code('BAD_ARGUMENT'));
zaxbriar.decode(jpeg, { crop: tile, maxPixels: 35 });
assert.throws(() => zaxbriar.decode(jpeg, { crop: tile, maxPixels: 34 }), code('TOO_LARGE'));

/* What a side is where another becomes shorter, from a length to another. */
const shrunk = (side, from, to) => Math.max(1, Math.min(side, Math.round((side * to) / from)));
/* The size of a picture that is to fit within another, where 0 is any. */
function fitted({ width, height }, within) {
    const [mostWidth, mostHeight] = ['width', 'height'].map((name) => within[name] || 65535);
    if (width <= mostWidth && height <= mostHeight) return { width, height };
    if (height * mostWidth <= width * mostHeight) {
        return { width: mostWidth, height: shrunk(height, width, mostWidth) };
    }
    return { width: shrunk(width, height, mostHeight), height: mostHeight };
}
/* A picture made smaller: each sample is the mean of those whose place it takes. */
function boxed({ picture, pixels }, { width, height }) {
    const { pixelBytes } = picture;
    const edges = (side, count) =>
        Array.from({ length: count + 1 }, (_, index) => Math.floor((index * side) / count));
    const [columns, rows] = [edges(picture.width, width), edges(picture.height, height)];
    const samples = [];
    for (let y = 0; y < height; y++) {
        for (let x = 0; x < width; x++) {
            for (let channel = 0; channel < pixelBytes; channel++) {
                const box = { left: columns[x], top: rows[y] };
                box.width = columns[x + 1] - box.left;
                box.height = rows[y + 1] - box.top;
                const inside = partOf({ picture, pixels }, box);
                const own = inside.filter((_, index) => index % pixelBytes === channel);
                const sum = own.reduce((total, sample) => total + sample, 0);
                samples.push(Math.round(sum / own.length));
            }
        }
    }
    return Uint8ClampedArray.from(samples);
}
// Within a size, in each orientation, at scales and of a part.
const SIZES = [{ width: 9 }, { height: 7 }, { width: 4, height: 3 }, { width: 39 }];
for (let orientation = 1; orientation <= 8; orientation++) {
    const stream = withOrientation(plain, orientation);
    for (const others of [{}, { scale: 2 }, { crop: { left: 1, top: 2, width: 11, height: 9 } }]) {
        // (the boxes are those of the stored picture, which lie otherwise in one that is turned)
        const whole = zaxbriar.decode(stream, others);
        for (const within of SIZES) {
            const size = fitted(whole.picture, within);
            const options = { ...others, within };
            const { picture, pixels } = zaxbriar.decode(stream, options);
            assert.deepEqual({ width: picture.width, height: picture.height }, size);
            assert.deepEqual(pixels, boxed(whole, size), JSON.stringify({ orientation, options }));
            const shown = zaxbriar.readInfo(stream, { ...others, upright: true });
            const { width, height } = zaxbriar.readInfo(stream, { ...options, upright: true });
            assert.deepEqual({ width, height }, fitted(shown, within));
        }
    }
}
for (const within of [{}, { width: 0 }, { width: 65535, height: picture.height }]) {
    assert.deepEqual(zaxbriar.decode(jpeg, { within }), { picture, pixels });
}
assert.throws(
    () => zaxbriar.decode(jpeg, { colorTransform: 'none', within: { width: 9 } }),
    code('BAD_ARGUMENT'),
);

// Gaps are zeros, also in memory that was used before.
const stride = picture.rowBytes + 5;
const gapped = zaxbriar.decode(jpeg, { stride });
assert.equal(gapped.pixels.length, stride * (picture.height - 1) + picture.rowBytes);
gapped.pixels.forEach((byte, index) => {
    const [row, column] = [Math.floor(index / stride), index % stride];
    const isGap = column >= picture.rowBytes;
    assert.equal(byte, isGap ? 0 : pixels[row * picture.rowBytes + column]);
});

// Scales.
for (const scale of [1, 2, 4, 8]) {
    const { width, height } = zaxbriar.readInfo(jpeg, { scale });
    assert.equal(width, Math.ceil(picture.width / scale));
    assert.equal(height, Math.ceil(picture.height / scale));
}

// Options that don't exist.
for (const options of [
    { layout: 'rbg' },
    { colorTransform: 'grey' },
    { layout: 'toString' },
    { bottomUp: 1 },
    { upright: 6 },
    { luma: 'grey' },
    { crop: 8 },
    { crop: null },
    { crop: { x: 1, y: 1, width: 1, height: 1 } },
    { crop: [0, 0, 1, 1] },
    { within: 9 },
    { within: { most: 9 } },
]) {
    assert.throws(() => zaxbriar.decode(jpeg, options), TypeError);
}
for (const options of [
    { scale: -1 },
    { scale: 1.5 },
    { minWidth: 65536 },
    { crop: {} },
    { crop: { width: 1 } },
    { crop: { left: -1, width: 1, height: 1 } },
    { crop: { width: 1, height: 65536 } },
    { within: { width: 65536 } },
    { within: { height: 0.5 } },
    { stride: 2 ** 33 },
    { maxBytes: Infinity },
    { maxPasses: -1 },
    { maxPasses: 2 ** 53 },
    { maxPixels: '9' },
]) {
    assert.throws(() => zaxbriar.decode(jpeg, options), RangeError);
}
assert.throws(() => zaxbriar.metadata(jpeg, 'iptc'), TypeError);
assert.throws(() => zaxbriar.decode(jpeg, { scale: 3 }), code('BAD_ARGUMENT'));
assert.throws(() => zaxbriar.decode(jpeg, { stride: 1 }), code('BAD_ARGUMENT'));

// Refusals and limits.
assert.throws(() => zaxbriar.decode(new Uint8Array(9)), (error) => !('feature' in error));
assert.throws(() => zaxbriar.decode(new Uint8Array(9)), code('MALFORMED'));
assert.throws(() => zaxbriar.decode(jpeg.subarray(0, jpeg.length - 9)), code('TRUNCATED'));
assert.throws(() => zaxbriar.decode(new Uint8Array(0)), code('TRUNCATED'));
zaxbriar.decode(jpeg, { maxPixels: count, maxBytes: picture.decodingBytes });
for (const options of [{ maxPixels: count - 1 }, { maxBytes: picture.decodingBytes - 1 }]) {
    assert.throws(() => zaxbriar.decode(jpeg, options), code('TOO_LARGE'));
    assert.throws(() => zaxbriar.readInfo(jpeg, options), code('TOO_LARGE'));
}

// A scan is a pass: by default there may be 100. readInfo has no limits of its own.
const passes = (count) => endless(count, [8, 8]);
zaxbriar.decode(passes(100));
for (const [count, maxPasses] of [
    [1, 1],
    [3, 3],
    [100, undefined],
    [101, 101],
    [1000, 0],
]) {
    const { picture: many, pixels: samples } = zaxbriar.decode(passes(count), { maxPasses });
    assert.equal(many.streamBytes, passes(count).length);
    assert.ok(samples.length === 192 && samples.every((sample) => sample === samples[0]));
}
for (const [count, maxPasses] of [
    [2, 1],
    [4, 3],
    [101, undefined],
    [102, 101],
]) {
    assert.throws(() => zaxbriar.decode(passes(count), { maxPasses }), code('TOO_MANY_PASSES'));
    const part = zaxbriar.decode(passes(count), { maxPasses, partial: true });
    assert.ok(code('TOO_MANY_PASSES')(part.fault) && part.wholeRows === 8);
    assert.equal(zaxbriar.readInfo(passes(count), { maxPasses }).height, 8);
}
// A picture that takes more than 1 GiB is refused by default; its header isn't.
const vast = passes(1);
vast.set([0xff, 0xff, 0xff, 0xff], vast.indexOf(0xc0) + 4);
assert.ok(zaxbriar.readInfo(vast).decodingBytes > 2 ** 30);
assert.throws(() => zaxbriar.decode(vast), code('TOO_LARGE'));
assert.throws(() => zaxbriar.readInfo(vast, { maxBytes: 2 ** 30 }), code('TOO_LARGE'));
assert.throws(() => zaxbriar.decode(vast, { maxBytes: 0 }), code('NO_MEMORY'));

// What there is of a stream: of one that is cut after its header, in its scan, and before its end.
const scan = jpeg.indexOf(Buffer.from([0xff, 0xda]));
const partly = (stream, options) => zaxbriar.decode(stream, { ...options, partial: true });
const whole = partly(jpeg);
const { decodingBytes } = picture;
assert.equal(whole.fault, null);
assert.deepEqual([whole.picture, whole.pixels], [picture, pixels]);
assert.equal(whole.wholeRows, picture.height);
assert.deepEqual(partly(jpeg, { maxBytes: decodingBytes }).pixels, pixels);
assert.throws(() => partly(jpeg, { maxBytes: decodingBytes - 1 }), code('TOO_LARGE'));
const entire = zaxbriar.decode(jpeg, { partial: false });
assert.ok(!('fault' in entire) && !('wholeRows' in entire));
for (let length = scan; length < jpeg.length; length++) {
    const part = partly(jpeg.subarray(0, length));
    assert.ok(code('TRUNCATED')(part.fault) && part.fault.message && !('feature' in part.fault));
    assert.deepEqual({ ...part.picture, streamBytes: jpeg.length }, whole.picture);
    if (length < scan + 12) assert.ok(part.pixels.every((sample) => sample === 128));
    if (length < scan + 12) assert.equal(part.wholeRows, 0);
    if (length >= jpeg.length - 2) assert.deepEqual(part.pixels, pixels);
    if (length >= jpeg.length - 2) assert.equal(part.wholeRows, picture.height);
}
assert.ok(unsupported('dnl')(partly(withLines).fault));
assert.deepEqual(partly(withLines, { layout: 'bgr' }).pixels, laidOut([2, 1, 0]));
assert.throws(() => partly(jpeg.subarray(0, frame)), code('TRUNCATED'));
assert.throws(() => partly(arithmetic), unsupported('arithmetic'));
assert.throws(() => partly(jpeg.subarray(0, scan), { maxPixels: 1 }), code('TOO_LARGE'));
assert.throws(() => zaxbriar.decode(jpeg, { partial: 1 }), TypeError);

// Memory: what is refused is given back, and a limit holds.
partly(jpeg);
const before = zaxbriar.memoryBytes;
for (let round = 0; round < 1000; round++) {
    zaxbriar.decode(jpeg);
    assert.throws(() => zaxbriar.decode(jpeg.subarray(0, round % jpeg.length)), ZaxbriarError);
    partly(jpeg.subarray(0, scan + (round % (jpeg.length - scan))));
}
assert.equal(zaxbriar.memoryBytes, before);
// A decoding takes the picture, what its header says, and the file: no second picture in any
// layout. (This one's header says that it is larger, and after its data come zeros.)
const larger = Buffer.from(jpeg);
larger.writeUInt32BE(1000 * 65536 + 1600, larger.indexOf(Buffer.from([0xff, 0xc0])) + 5);
const ROOM = 512 * 1024;
const layouts = ['stored', 'grey', 'rgb', 'rgba', 'bgra', 'bgr', 'xrgb', 'abgr', 'rgb565'];
for (const layout of [...layouts, 'grey16', 'rgb16']) {
    const decoder = new Zaxbriar(module);
    const options = { layout, bottomUp: true, upright: true };
    const { size, decodingBytes, height, pixelBytes } = decoder.decode(larger, options).picture;
    assert.ok(size >= 1600 * 1000);
    // (it lies on its side, and 32 lines of it are turned at a time)
    const known = size + decodingBytes + larger.length + 32 * height * pixelBytes;
    assert.ok(decoder.memoryBytes <= known + ROOM, layout);
}
// (a part of it takes no more beside its pixels)
const ofPart = new Zaxbriar(module);
const { picture: tiny } = ofPart.decode(larger, { layout: 'rgba', crop: { ...tile, left: 999 } });
assert.ok(ofPart.memoryBytes <= tiny.size + tiny.decodingBytes + larger.length + ROOM);
const small = new Zaxbriar(module, { maxMemory: before });
assert.throws(() => small.decode(new Uint8Array(before)), code('NO_MEMORY'));
assert.deepEqual(small.decode(jpeg).pixels, pixels);
small.reset();
assert.equal(small.memoryBytes, 0);
assert.deepEqual(small.decode(jpeg).pixels, pixels);

// In a worker.
const source = `
    const { workerData, parentPort } = require('node:worker_threads');
    import(workerData.url).then(async ({ load }) => {
        parentPort.postMessage((await load()).decode(workerData.jpeg).pixels);
    });`;
const words = { url: new URL('../dist/node.mjs', import.meta.url).href, jpeg };
const fromWorker = await new Promise((done, fail) => {
    const worker = new Worker(source, { eval: true, workerData: words });
    worker.once('message', done).once('error', fail);
});
assert.deepEqual(fromWorker, pixels);
console.log('calls: ok');
