/* node examples.mjs node|chromium|firefox FOLDER: the examples of dist/examples by their pixels:
 * thumbnails and PNG files in Node; in a browser the thumbnails, the images of a page, by
 * examples/images.mjs and by the service worker, which passes other files on as they come, and its
 * canvases, also of a file of which a part has come. FOLDER takes files and EXAMPLE.BROWSER.png. */
import assert from 'node:assert/strict';
import { spawnSync } from 'node:child_process';
import { createHash } from 'node:crypto';
import {
    mkdirSync,
    readFileSync,
    readdirSync,
    rmSync,
    symlinkSync,
    writeFileSync,
} from 'node:fs';
import { resolve } from 'node:path';
import { isDeepStrictEqual } from 'node:util';
import { inflateSync } from 'node:zlib';
import { load } from '../dist/node.mjs';
import { BMP_OPTIONS, bmpOf } from '../dist/examples/bmp.mjs';
import { LOSSLESS as FRAME, frameOf } from '../dist/examples/frame.mjs';
import { allCases } from './cases.mjs';
import { Chromium } from './chromium.mjs';
import { Firefox } from './firefox.mjs';
import { serve } from './serve.mjs';
import { turned, withOrientation } from './turned.mjs';

const [browser, room] = process.argv.slice(2);
const folder = resolve(room, 'examples');
const pathOf = (name) => new URL(name, import.meta.url).pathname;
const ours = (name) => readFileSync(pathOf(`../../../tests/programs/files/${name}`));
const zaxbriar = await load();
const cases = allCases();
const streamOf = (file, name) =>
    cases.find((it) => it.file === `${file}.case` && it.name === name).stream;

/* A lossless stream with an orientation. */
const turnedLossless = (orientation) =>
    withOrientation(streamOf('random', 'seed 299, lossless'), orientation);

/* Files that browsers can't show, files that they show, and files that nobody does. */
const LOSSLESS = {
    'grey.jpg': streamOf('random', 'seed 127, lossless'),
    'colours.jpg': streamOf('random', 'seed 187, lossless'),
    'ink.jpg': streamOf('random', 'seed 227, lossless'),
    'shallow.jpg': streamOf('random', 'seed 59, lossless'),
};
for (const orientation of [2, 3, 4, 5, 6, 7, 8]) {
    LOSSLESS[`orientation-${orientation}.jpg`] = turnedLossless(orientation);
}
const ORDINARY = { 'picture.jpg': ours('picture.jpg'), 'turned.jpg': ours('turned.jpg') };
const REFUSED = {
    'cut-lossless.jpg': LOSSLESS['colours.jpg'].subarray(0, 200),
    'none.jpg': Buffer.from('no picture'),
};

/* Photographs of which the server sends the first half, and the rest when they are released. */
function held() {
    let release;
    const released = new Promise((done) => (release = done));
    return { release, released };
}
const HELD = Object.fromEntries(['held.jpg', 'held.bmp'].map((name) => [name, held()]));
const DRAWN = { 'drawn.jpg': held() };
async function* halves(bytes, released) {
    yield bytes.subarray(0, bytes.length >> 1);
    await released;
    yield bytes.subarray(bytes.length >> 1);
}

/* The server sends these, in pieces/, in pieces. */
const IN_PIECES = ['colours.jpg', 'orientation-6.jpg'];
async function* cut(bytes) {
    for (let at = 0; at < bytes.length; at += 50) {
        yield bytes.subarray(at, at + 50);
        await new Promise((done) => setTimeout(done, 5));
    }
}
function inPieces(path, bytes) {
    const name = path.slice(1);
    const { released } = HELD[name] ?? DRAWN[name] ?? {};
    if (released) return halves(bytes, released);
    return name.startsWith('pieces/') ? cut(bytes) : bytes;
}

/* The picture of a file, upright. */
const uprightOf = (jpeg, options) => turned(zaxbriar.decode(jpeg, options));

/* A PNG file without filters, as its samples. */
function readPng(path) {
    const file = readFileSync(path);
    assert.equal(file.toString('latin1', 1, 4), 'PNG');
    const chunks = {};
    for (let at = 8; at < file.length; ) {
        const length = file.readUInt32BE(at);
        const data = file.subarray(at + 8, at + 8 + length);
        (chunks[file.toString('latin1', at + 4, at + 8)] ??= []).push(data);
        at += 12 + length;
    }
    const header = chunks.IHDR[0];
    const [width, height] = [header.readUInt32BE(0), header.readUInt32BE(4)];
    const lineBytes = (width * header[8] * { 0: 1, 2: 3 }[header[9]]) / 8;
    const lines = inflateSync(Buffer.concat(chunks.IDAT));
    assert.equal(lines.length, height * (1 + lineBytes));
    const pixels = lines.filter((_, at) => at % (1 + lineBytes) !== 0);
    return { width, height, pixels: new Uint8ClampedArray(pixels) };
}

/* The upright picture of a file, made smaller as it is stored, to a width as it is shown. */
function smallerOf(jpeg, width) {
    const side = zaxbriar.readInfo(jpeg).orientation > 4 ? 'height' : 'width';
    return uprightOf(jpeg, { layout: 'rgb', within: { [side]: width } });
}

/* Runs thumbnails.mjs, and gives its output and the thumbnails of what it doesn't refuse. */
function thumbnails(pictures, width) {
    const output = `${folder}/${width}`;
    const program = pathOf('../dist/examples/thumbnails.mjs');
    const words = [program, `${folder}/pictures`, output, `${width}`];
    const { status, stderr } = spawnSync(process.execPath, words, { encoding: 'utf8' });
    assert.equal(status, 1, stderr);
    const told = stderr.trim().split('\n').map((line) => line.split(':', 2).join(':'));
    assert.deepEqual(told.sort(), ['cut-lossless.jpg: TRUNCATED', 'none.jpg: MALFORMED']);
    const names = Object.keys(pictures).map((name) => `${name}.png`);
    assert.deepEqual(readdirSync(output).sort(), names.sort());
    return (name) => readPng(`${output}/${name}.png`);
}

function checkThumbnails() {
    const pictures = { ...LOSSLESS, ...ORDINARY };
    mkdirSync(`${folder}/pictures`);
    for (const [name, bytes] of Object.entries({ ...pictures, ...REFUSED, 'notes.txt': 'no' })) {
        writeFileSync(`${folder}/pictures/${name}`, bytes);
    }
    const [wholeOf, halfOf, smallOf] = [40, 12, 10].map((it) => thumbnails(pictures, it));
    for (const [name, bytes] of Object.entries(pictures)) {
        const picture = uprightOf(bytes, { layout: 'rgb' });
        const small = name in LOSSLESS && picture.width > 10 ? smallerOf(bytes, 10) : null;
        assert.deepEqual(wholeOf(name), picture, name);
        if (small) assert.deepEqual(smallOf(name), small, name);
    }
    // (at half of their sizes)
    const half = uprightOf(ORDINARY['turned.jpg'], { layout: 'rgb', scale: 2 });
    assert.deepEqual(halfOf('turned.jpg'), half);
    assert.equal(smallOf('turned.jpg').width, 10);
    console.log(`thumbnails: ${Object.keys(pictures).length} files by their pixels, 2 refused`);
}

/* Runs convert.mjs on bytes, and gives the picture that it has written, or what it has said. */
function converted(bytes) {
    const output = `${folder}/converted.png`;
    writeFileSync(`${folder}/converted.jpg`, bytes);
    rmSync(output, { force: true });
    const words = [pathOf('../dist/examples/convert.mjs'), `${folder}/converted.jpg`, output];
    const { status, stderr } = spawnSync(process.execPath, words, { encoding: 'utf8' });
    const wasWritten = readdirSync(folder).filter((name) => name.startsWith('converted.png'));
    assert.deepEqual(wasWritten, status ? [] : ['converted.png'], stderr);
    assert.equal(stderr === '', status === 0);
    return status ? stderr : readPng(output);
}

/* The samples of a file as PNG has them, in its order of bytes. */
function samplesOf(jpeg) {
    const { picture, pixels } = zaxbriar.decode(jpeg);
    if (picture.sampleBytes === 2) Buffer.from(pixels.buffer).swap16();
    return { width: picture.width, height: picture.height, pixels };
}

/* Files as they are stored are there by their samples, line by line; and others not at all. */
function checkConverted() {
    const photograph = readFileSync(pathOf('../../../examples/rocket.jpg'));
    const deep = streamOf('random', 'seed 23, lossless');
    assert.equal(zaxbriar.readInfo(deep).precision, 16);
    const files = [...Object.values(ORDINARY), LOSSLESS['grey.jpg'], photograph, deep];
    for (const jpeg of files) assert.deepEqual(converted(jpeg), samplesOf(jpeg));
    const half = photograph.subarray(0, photograph.length >> 1);
    assert.match(converted(half), /: TRUNCATED: .*, after 264 lines\n$/);
    assert.match(converted(REFUSED['none.jpg']), /: MALFORMED: /);
    assert.match(converted(LOSSLESS['ink.jpg']), /: no PNG file has 4 components of 16 bits\n$/);
    console.log(`convert: ${files.length} files by their samples, 3 refused`);
}

/* A site with the package, the pictures and a page for each example. */
async function makeSite() {
    symlinkSync(pathOf('../dist'), `${folder}/zaxbriar`);
    const files = { ...LOSSLESS, ...ORDINARY, ...REFUSED };
    for (const [name, bytes] of Object.entries(files)) writeFileSync(`${folder}/${name}`, bytes);
    mkdirSync(`${folder}/pieces`);
    for (const name of IN_PIECES) writeFileSync(`${folder}/pieces/${name}`, LOSSLESS[name]);
    const photograph = readFileSync(pathOf('../../../examples/rocket.jpg'));
    const bmp = bmpOf(zaxbriar.decode(photograph, BMP_OPTIONS));
    for (const name of ['held.jpg', 'drawn.jpg']) writeFileSync(`${folder}/${name}`, photograph);
    writeFileSync(`${folder}/held.bmp`, new Uint8Array(await bmp.arrayBuffer()));
    const images = Object.keys(files).map((name) => `<img src="${name}" alt="${name}">`);
    const page = `<!doctype html><title>${browser}</title><body>${images.join('\n')}`;
    const script = '<script type="module" src="zaxbriar/examples/images.mjs"></script>';
    writeFileSync(`${folder}/plain.html`, page);
    writeFileSync(`${folder}/images.html`, page + script);
    writeFileSync(`${folder}/worker.mjs`, `import './zaxbriar/examples/service-worker.mjs';\n`);
    const canvases = ['drawn.jpg', ...Object.keys(ORDINARY), ...Object.keys(REFUSED)].map(
        (name) => `<canvas data-jpeg="${name}" width="3" height="2"></canvas>`,
    );
    writeFileSync(
        `${folder}/canvases.html`,
        `<!doctype html><title>${browser}</title><body>${canvases.join('\n')}` +
            '<script type="module" src="zaxbriar/examples/canvases.mjs"></script>',
    );
}

/* The frame of each file is known from some prefix on, and that it is no JPEG file at once. */
function checkFrames() {
    for (const [name, bytes] of Object.entries({ ...LOSSLESS, ...ORDINARY })) {
        const wanted = name in LOSSLESS ? FRAME : 0xc0;
        const at = bytes.indexOf(Buffer.from([0xff, wanted]));
        const filled = Buffer.concat([bytes.subarray(0, at), Buffer.alloc(9, 0xff)]);
        for (const file of [bytes, Buffer.concat([filled, bytes.subarray(at)])]) {
            const known = file.indexOf(bytes.subarray(at, at + 4)) + 4;
            for (let length = 0; length <= file.length; length++) {
                const frame = frameOf(file.subarray(0, length));
                assert.equal(frame, length < known ? undefined : wanted, `${name}: ${length}`);
            }
        }
    }
    for (const text of ['6e', '89504e47', 'ff00', 'ffd86e6f2066', 'ffd8ffe00004616200000000']) {
        assert.equal(frameOf(Buffer.from(text, 'hex')), null, text);
    }
    console.log('frames: each beginning of 13 files, lossless or not');
}

/* The pixels of an image of the page, or null where it shows none. */
const shownAs = (page, name) =>
    page.run(`(() => {
        const image = document.querySelector('img[alt="${name}"]');
        if (!image.complete || image.naturalWidth === 0) return null;
        const { naturalWidth: width, naturalHeight: height } = image;
        const context = new OffscreenCanvas(width, height).getContext('2d');
        context.drawImage(image, 0, 0);
        return { width, height, pixels: [...context.getImageData(0, 0, width, height).data] };
    })()`);

/* The files that nobody else shows are there by their pixels, and others as before. */
async function checkShown(page, before) {
    for (const [name, bytes] of Object.entries(LOSSLESS)) {
        const { width, height, pixels } = uprightOf(bytes, { layout: 'rgba' });
        const wanted = { width, height, pixels: [...pixels] };
        await page.until(`document.querySelector('img[alt="${name}"]').naturalWidth > 0`);
        assert.deepEqual(await shownAs(page, name), wanted, name);
    }
    for (const [name, shown] of Object.entries(before)) {
        assert.deepEqual(await shownAs(page, name), shown, name);
    }
}

/* The thumbnails are files that a browser shows. */
async function checkPng(page) {
    for (const [name, bytes] of Object.entries(LOSSLESS)) {
        const { pixels, ...size } = uprightOf(bytes, { layout: 'rgba' });
        await page.run(`(() => {
            const image = Object.assign(new Image(), { src: '40/${name}.png', alt: 'thumbnail' });
            document.body.replaceChildren(image);
            return image.decode().then(() => true);
        })()`);
        assert.deepEqual(await shownAs(page, 'thumbnail'), { ...size, pixels: [...pixels] }, name);
    }
}

const LOADED = `document.readyState === 'complete'`;

/* Images of a page, of which one comes later, and one is there twice. */
async function checkImages(page, url, before) {
    await page.open(`${url}images.html`);
    await page.until(LOADED);
    await checkShown(page, before);
    await page.run(`for (const name of ['grey.jpg', 'grey.jpg']) {
        document.querySelector('img[alt="' + name + '"]').alt = 'earlier';
        document.body.prepend(Object.assign(new Image(), { src: name, alt: name }));
    }`);
    await checkShown(page, before);
}

/* The memory of each picture that images.mjs has given is free, and the picture still shown. */
async function checkFreed(page, before) {
    const isFree = `fetch(it.src).then(() => false, () => true)`;
    await page.until(`Promise.all([...document.images].filter((it) => it.src.startsWith('blob:'))
        .map((it) => ${isFree})).then((all) => all.length > 11 && all.every(Boolean))`);
    await checkShown(page, before);
}

/* An image is there as far as its file has come, since the service worker passes it on; and files
 * that come in small pieces are told apart. */
async function checkPieces(page) {
    const add = (name) => page.run(`document.body.prepend(Object.assign(new Image(),
        { src: '${name}', alt: '${name}' }))`);
    for (const name of Object.keys(HELD)) {
        await add(name);
        const image = `document.querySelector('img[alt="${name}"]')`;
        await page.until(`${image}.naturalWidth > 0 && !${image}.complete`);
        HELD[name].release();
        await page.until(`${image}.complete`);
        assert.ok(await page.run(`${image}.decode().then(() => true)`), name);
    }
    for (const name of IN_PIECES) {
        await add(`pieces/${name}`);
        const { width, height, pixels } = uprightOf(LOSSLESS[name], { layout: 'rgba' });
        const image = `document.querySelector('img[alt="pieces/${name}"]')`;
        await page.until(`${image}.naturalWidth > 0`);
        const wanted = { width, height, pixels: [...pixels] };
        assert.deepEqual(await shownAs(page, `pieces/${name}`), wanted, name);
    }
}

/* What is known of pixels here: the first and the last row, and the sum of all. */
function knownOf({ width, height, pixels }) {
    const sum = createHash('sha256').update(pixels).digest('hex');
    const rows = [pixels.slice(0, 4 * width), pixels.slice(-4 * width)].map((it) => [...it]);
    return { width, height, first: rows[0], last: rows[1], sum };
}

/* The same of a canvas of the page. */
const drawnAs = (page, name) =>
    page.run(`(async () => {
        const canvas = document.querySelector('canvas[data-jpeg="${name}"]');
        const { width, height } = canvas;
        const context = new OffscreenCanvas(width, height).getContext('2d');
        context.drawImage(canvas, 0, 0);
        const { data } = context.getImageData(0, 0, width, height);
        const bytes = new Uint8Array(await crypto.subtle.digest('SHA-256', data));
        const sum = Array.from(bytes, (byte) => byte.toString(16).padStart(2, '0')).join('');
        const rows = [data.slice(0, 4 * width), data.slice(-4 * width)].map((it) => [...it]);
        return { width, height, first: rows[0], last: rows[1], sum };
    })()`);

/* Waits until a canvas shows what it should. */
async function untilDrawn(page, name, isRight) {
    for (let round = 0; round < 200; round++) {
        if (isRight(await drawnAs(page, name))) return;
        await new Promise((done) => setTimeout(done, 50));
    }
    throw new Error(`never as it should be: ${name}`);
}

/* Canvases, of which one shows a part while half of its file has come, and then all of it; and
 * files that are refused leave theirs as they are, but for the part of one that is cut. */
async function checkCanvases(page, url) {
    await page.open(`${url}canvases.html`);
    const options = { layout: 'rgba', partial: true };
    const wantedOf = (bytes) => knownOf(uprightOf(bytes, options));
    const name = 'drawn.jpg';
    const whole = wantedOf(readFileSync(`${folder}/${name}`));
    const isPart = ({ first, last }) =>
        isDeepStrictEqual(first, whole.first) && !isDeepStrictEqual(last, whole.last);
    await untilDrawn(page, name, isPart);
    const files = { ...ORDINARY, 'cut-lossless.jpg': REFUSED['cut-lossless.jpg'] };
    for (const [other, bytes] of Object.entries(files)) {
        const wanted = wantedOf(bytes);
        await untilDrawn(page, other, (drawn) => isDeepStrictEqual(drawn, wanted));
    }
    assert.ok(isPart(await drawnAs(page, name)));
    DRAWN[name].release();
    await untilDrawn(page, name, (drawn) => isDeepStrictEqual(drawn, whole));
    const { width, height } = await drawnAs(page, 'none.jpg');
    assert.deepEqual([width, height], [3, 2]);
}

async function checkServiceWorker(page, url, before) {
    await page.open(`${url}plain.html`);
    await page.until(LOADED);
    const register = `navigator.serviceWorker.register('worker.mjs', { type: 'module' })`;
    await page.run(`${register}.then(() => true)`);
    await page.until(`navigator.serviceWorker.controller !== null`);
    await page.open(`${url}plain.html`);
    await page.until(LOADED);
    await checkShown(page, before);
    await checkPieces(page);
}

async function checkBrowser() {
    checkThumbnails();
    await makeSite();
    const { url, close } = await serve(folder, inPieces);
    const page = await { chromium: Chromium, firefox: Firefox }[browser].browse(`${url}plain.html`);
    await page.until(LOADED);
    const before = {};
    for (const name of [...Object.keys(ORDINARY), ...Object.keys(REFUSED)]) {
        before[name] = await shownAs(page, name);
    }
    for (const name of Object.keys(LOSSLESS)) assert.equal(await shownAs(page, name), null, name);
    await checkPng(page);
    await checkImages(page, url, before);
    await checkFreed(page, before);
    await page.screenshot(`${room}/images.${browser}.png`);
    await checkCanvases(page, url);
    await page.screenshot(`${room}/canvases.${browser}.png`);
    await checkServiceWorker(page, url, before);
    await page.screenshot(`${room}/service worker.${browser}.png`);
    await page.close();
    close();
    const shown = Object.keys(LOSSLESS).length;
    console.log(`examples in ${browser}: images and service worker, ${shown} lossless files each;`);
    console.log('      the memory of given pictures is free, files are passed on as they come,');
    console.log('      and a canvas shows its file while it arrives');
}

rmSync(folder, { recursive: true, force: true });
mkdirSync(folder, { recursive: true });
if (browser === 'node') {
    checkFrames();
    checkConverted();
}
await (browser === 'node' ? checkThumbnails() : checkBrowser());
