/* node page.mjs BROWSER FOLDER: the page of dist/web in headless chromium or firefox: files that
 * are chosen, dropped and pasted, their pixels and sampling factors, the part of files with a
 * fault, faults in words and by name, metadata and a thumbnail, the list, zoom and keys, names for
 * a screen reader, the file that is chosen before those that wait and in place of one that takes
 * half a minute, the first screen of a phone, the photograph, the page without a network, the
 * worker after a trap, and a picture while its file is read. FOLDER takes files, BROWSER.png and
 * BROWSER.phone.png. */
import assert from 'node:assert/strict';
import { copyFileSync, readFileSync, writeFileSync } from 'node:fs';
import { resolve } from 'node:path';
import { load } from '../dist/node.mjs';
import { allCases } from './cases.mjs';
import { Chromium } from './chromium.mjs';
import { endless } from './endless.mjs';
import { Firefox } from './firefox.mjs';
import { serve } from './serve.mjs';

const browser = process.argv[2];
const Page = { chromium: Chromium, firefox: Firefox }[browser];
const folder = resolve(process.argv[3]);
const web = new URL('../dist/web', import.meta.url).pathname;
const ours = (name) => new URL(`../../../tests/programs/files/${name}`, import.meta.url).pathname;
const cases = allCases();

/* A stream of tests/decoder as a file. */
function fileOf(file, name) {
    const { stream } = cases.find((it) => it.file === `${file}.case` && it.name === name);
    const path = `${folder}/${name}.jpg`;
    writeFileSync(path, stream);
    return path;
}

/* A picture of one pixel, whose first component has 2×2 blocks: by its header 4×1 of them. */
function oneRow() {
    const stream = readFileSync(ours('1x1-cropped.jpg'));
    stream[stream.indexOf(Buffer.from([0xff, 0xc0])) + 11] = 0x41;
    const path = `${folder}/one row.jpg`;
    writeFileSync(path, stream);
    return path;
}

/* The pictures, with what the page says of their sampling factors. */
const SAMPLINGS = {
    [ours('turned.jpg')]: '4:4:4',
    [ours('picture.jpg')]: '4:2:0',
    [fileOf('colours', 'four components')]: '1×1, 1×1, 1×1, 1×1',
    [fileOf('lossless', 'samples of 16 bits')]: '1×1',
    [fileOf('colours', 'a first component twice as wide, in one scan')]: '4:2:2',
    [fileOf('lossless', 'two samples one above the other, with a restart')]: '4:4:0',
    [fileOf('colours', 'a component of half the greatest width, alone in its scan')]:
        '4×1, 2×1, 4×1',
    [oneRow()]: '4:1:1',
};
const PICTURES = Object.keys(SAMPLINGS);
const arithmetic = cases.find(({ answers }) => answers.includes('JPEG feature: Arithmetic'));

/* A file that ends before its frame header. */
function headless() {
    const path = `${folder}/headless.jpg`;
    writeFileSync(path, readFileSync(ours('cut.jpg')).subarray(0, 20));
    return path;
}

/* A whole picture, which a number of lines follows in place of the end. */
function withLines() {
    const stream = readFileSync(ours('turned.jpg')).subarray(0, -2);
    const path = `${folder}/lines.jpg`;
    writeFileSync(path, Buffer.concat([stream, Buffer.from([0xff, 0xdc, 0, 4, 0, 1])]));
    return path;
}

/* The beginning of a picture that is shown turned: two of its three rows of blocks. */
function twoThirds() {
    const path = `${folder}/two thirds.jpg`;
    writeFileSync(path, readFileSync(ours('turned.jpg')).subarray(0, 320));
    return path;
}

/* Files of which there is a part, with their fault, what that means, and what the page says of
 * their rows. */
const PARTIAL = {
    [twoThirds()]: [
        'TRUNCATED',
        'The file ends too soon: a part of it is missing.',
        'The first 16 of 24 rows are complete, before the picture is turned.',
    ],
    [withLines()]: [
        'UNSUPPORTED',
        'This JPEG file needs a number of lines that comes after the picture.',
        'All rows are complete.',
    ],
};
const REFUSED = {
    [headless()]: ['TRUNCATED', 'The file ends too soon: a part of it is missing.'],
    [ours('large.jpg')]: ['TOO_LARGE', 'The picture is too large for this page.'],
    [ours('picture.png')]: ['MALFORMED', 'This is a PNG file, not a JPEG file.'],
    [fileOf(arithmetic.file.replace('.case', ''), arithmetic.name)]: [
        'UNSUPPORTED',
        'This JPEG file needs arithmetic coding, which hardly any program reads.',
    ],
};
const nameOf = (path) => path.split('/').at(-1);
const button = (path) =>
    `[...document.querySelectorAll('#files button')].find((it) => it.firstChild.data ===` +
    ` ${JSON.stringify(nameOf(path))})`;

/* A picture whose header says that it is larger than the page. */
function larger() {
    const stream = readFileSync(ours('picture.jpg'));
    stream.writeUInt32BE(1000 * 65536 + 1600, stream.indexOf(Buffer.from([0xff, 0xc0])) + 5);
    const path = `${folder}/larger.jpg`;
    writeFileSync(path, stream);
    return path;
}

/* A picture with Exif data that have another picture as its thumbnail, and the bytes of these. */
function withThumbnail() {
    const stream = readFileSync(ours('picture.jpg'));
    const thumbnail = readFileSync(ours('turned.jpg'));
    // (a directory without entries, and one that says where the thumbnail is, and its bytes)
    const head = '49492a0008000000' + '00000e000000' + '0200' + '01020400010000002c000000';
    const exif = Buffer.concat([
        Buffer.from(`${head}0202040001000000${'00'.repeat(8)}`, 'hex'),
        thumbnail,
    ]);
    exif.writeUInt32LE(thumbnail.length, 36);
    const segment = Buffer.concat([Buffer.from('ffe10000457869660000', 'hex'), exif]);
    segment.writeUInt16BE(segment.length - 2, 2);
    const path = `${folder}/with a thumbnail.jpg`;
    writeFileSync(path, Buffer.concat([stream.subarray(0, 2), segment, stream.subarray(2)]));
    return { path, exif, thumbnail };
}

/* Waits for what the file that was chosen shows. */
async function shown(page) {
    await page.until(`['shown', 'partial', 'refused'].includes(document.body.dataset.state)`);
    return page.run('document.body.dataset.state');
}

/* Chooses a file of the list, and waits for what it shows. */
async function show(page, path) {
    await page.run(`document.body.dataset.state = 'waiting'; ${button(path)}.click()`);
    return shown(page);
}

const factsOf = (page) =>
    page.run(`Object.fromEntries([...document.querySelectorAll('#facts dt')].map(
        (it) => [it.textContent, it.nextSibling.textContent]))`);

/* The canvas as rows of pixels. */
const canvasOf = (page) =>
    page.run(`(() => {
        const canvas = document.getElementById('canvas');
        const { width, height } = canvas;
        const copy = new OffscreenCanvas(width, height);
        const context = copy.getContext('2d', { willReadFrequently: true });
        context.drawImage(canvas, 0, 0);
        return { width, height, data: [...context.getImageData(0, 0, width, height).data] };
    })()`);

/* Pictures upright, and the parts before a fault, by the module's pixels in Node. */
async function checkPixels(page) {
    const zaxbriar = await load();
    for (const path of [...PICTURES.slice(0, 2), ...Object.keys(PARTIAL)]) {
        assert.equal(await show(page, path), PARTIAL[path] ? 'partial' : 'shown');
        const options = { layout: 'rgba', partial: true };
        const { picture, pixels } = zaxbriar.decode(readFileSync(path), options);
        const { width, height, data } = await canvasOf(page);
        const isTurned = picture.orientation === 6;
        assert.ok(isTurned || picture.orientation === 1);
        const size = [picture.width, picture.height];
        assert.deepEqual([width, height], isTurned ? size.reverse() : size);
        for (let y = 0; y < height; y++) {
            for (let x = 0; x < width; x++) {
                // (orientation 6: the left column, from below, is the upper row)
                const [row, column] = isTurned ? [picture.height - 1 - x, y] : [y, x];
                const from = 4 * (row * picture.width + column);
                const to = 4 * (y * width + x);
                assert.deepEqual(data.slice(to, to + 4), [...pixels.subarray(from, from + 4)]);
            }
        }
    }
}

/* The alert has what a fault means, and then its name and text. */
async function checkFault(page, fault, sentence) {
    const textOf = (selector) => page.run(`document.querySelector('${selector}').textContent`);
    assert.equal(await textOf('#error strong'), sentence);
    assert.ok((await textOf('#error small')).startsWith(`${fault}: `), fault);
}

/* A fault is told beside the part: in its alert, with the rows that are complete, the status
 * and the list; and the picture's name says that it is a part. */
async function checkPartial(page) {
    for (const [path, [fault, sentence, rows]] of Object.entries(PARTIAL)) {
        assert.equal(await show(page, path), 'partial', path);
        const textOf = (id) => page.run(`document.getElementById('${id}').textContent`);
        await checkFault(page, fault, sentence);
        assert.ok((await textOf('error')).includes(` ${rows} `), rows);
        assert.equal(await textOf('status'), `${nameOf(path)}: shown in part: ${sentence}`);
        const note = await page.run(`${button(path)}.lastChild.textContent`);
        assert.match(note, new RegExp(`^\\d+ × \\d+\\. ${sentence}$`));
        const label = `document.getElementById('canvas').getAttribute('aria-label')`;
        assert.ok((await page.run(label)).startsWith(`${nameOf(path)}, in part, `));
        assert.ok(!(await page.run(`document.getElementById('shown').hidden`)));
    }
}

async function checkRefusals(page) {
    for (const [path, [fault, sentence]] of Object.entries(REFUSED)) {
        assert.equal(await show(page, path), 'refused', path);
        await checkFault(page, fault, sentence);
        assert.equal(await page.run(`${button(path)}.lastChild.textContent`), sentence);
        assert.ok(await page.run(`document.getElementById('shown').hidden`));
    }
}

/* Of many files the one that is chosen comes next: it is chosen as soon as it is in the list. */
async function checkOrder(page, url) {
    const names = Array.from({ length: 9 }, (_, index) => `${folder}/many ${index}.jpg`);
    for (const name of names) copyFileSync(larger(), name);
    await page.open(url);
    await page.until(`document.body?.dataset.state === 'ready'`);
    await page.run(`(() => {
        const list = document.getElementById('files');
        globalThis.order = [];
        new MutationObserver((changes) => {
            for (const { target } of changes) {
                if (target === list && list.children.length === ${names.length}) {
                    list.lastChild.firstChild.click();
                }
                if (target.matches('small')) order.push(target.parentElement.firstChild.data);
            }
        }).observe(list, { childList: true, subtree: true });
    })()`);
    await page.choose('#file', names);
    await page.until(`![...document.querySelectorAll('#files small')].some(
        (it) => it.textContent === 'waiting') && document.querySelector('#files small')`);
    const order = await page.run(`[...new Set(order)]`);
    const [first, ...others] = names.map(nameOf);
    assert.deepEqual(order, [first, others.at(-1), ...others.slice(0, -1)]);
    const label = await page.run(`document.getElementById('canvas').getAttribute('aria-label')`);
    assert.ok(label.startsWith(others.at(-1)), label);
}

/* A file that takes seconds, with as many passes as are allowed, is put off for one that is
 * chosen. */
async function checkPatience(page, url) {
    const slow = `${folder}/endless.jpg`;
    writeFileSync(slow, endless(100, [10000, 8000]));
    await page.open(url);
    await page.until(`document.body?.dataset.state === 'ready'`);
    await page.choose('#file', [slow, PICTURES[0]]);
    await page.until(`document.body.dataset.state === 'working'`);
    const time = performance.now();
    assert.equal(await show(page, PICTURES[0]), 'shown');
    assert.ok(performance.now() - time < 10000);
    assert.equal(await page.run(`${button(slow)}.lastChild.textContent`), 'waiting');
}

/* How many bytes of metadata a file has is told; and its thumbnail is opened as a file. */
async function checkThumbnail(page) {
    const { path, exif, thumbnail } = withThumbnail();
    const isHidden = () => page.run(`document.getElementById('thumbnail').hidden`);
    assert.equal(await show(page, ours('picture.jpg')), 'shown');
    assert.ok(await isHidden());
    await page.run(`document.body.dataset.state = 'waiting'`);
    await page.choose('#file', [path]);
    assert.equal(await shown(page), 'shown');
    assert.ok(!(await isHidden()));
    const facts = await factsOf(page);
    assert.equal(facts.Exif, `${exif.length} bytes`);
    assert.equal(facts.Thumbnail, `${thumbnail.length} bytes`);
    for (const name of ['XMP', 'Extended XMP', 'IPTC', 'ICC profile']) {
        assert.equal(facts[name], 'none');
    }
    await page.run(`document.body.dataset.state = 'waiting';
        document.getElementById('thumbnail').click()`);
    assert.equal(await shown(page), 'shown');
    const { File, Length } = await factsOf(page);
    assert.deepEqual([File, Length], [`thumbnail of ${nameOf(path)}`, facts.Thumbnail]);
}

/* The page itself doesn't draw: its canvas takes what the worker has drawn. */
async function checkDrawing(page) {
    assert.ok(await page.run(`document.getElementById('canvas').getContext('2d') === null`));
}

/* The photograph and its first part. */
async function checkSample(page) {
    const count = await page.run(`document.querySelectorAll('#files button').length`);
    await page.run(`document.getElementById('sample').click()`);
    await page.until(`document.querySelectorAll('#files button').length === ${count + 2}`);
    assert.equal(await show(page, 'rocket.jpg'), 'shown');
    assert.equal((await factsOf(page)).Size, '640 × 427 pixels');
    assert.equal(await show(page, 'rocket, cut.jpg'), 'partial');
}

/* On a phone the button, of a size for a finger, and then the picture are on the first screen; and
 * nothing says that no file is chosen. */
async function checkPhone(url) {
    const page = await Page.browse(url, { width: 360, height: 740 });
    await page.until(`document.body.dataset.state === 'ready'`);
    const boxOf = (selector) => page.run(`(() => {
        const box = document.querySelector('${selector}').getBoundingClientRect();
        return { top: box.top, bottom: box.bottom, width: box.width };
    })()`);
    const label = await boxOf('label[for=file]');
    assert.ok(label.bottom - label.top >= 44 && label.bottom < 200, JSON.stringify(label));
    assert.ok((await boxOf('#file')).width <= 1);
    assert.ok((await boxOf('footer p')).top > label.bottom);
    await page.choose('#file', [larger()]);
    await page.until(`document.body.dataset.state === 'shown'`);
    const canvas = await boxOf('canvas');
    assert.ok(canvas.top > label.bottom && canvas.bottom < 740, JSON.stringify(canvas));
    assert.ok((await boxOf('#files')).top > canvas.bottom);
    assert.ok(await page.run('document.documentElement.scrollWidth <= innerWidth'));
    await page.screenshot(`${folder}/${browser}.phone.png`);
    await page.close();
}

/* Drops and pastes a file that the page builds of these bytes. */
async function give(page, event, path) {
    await page.run(`(() => {
        const bytes = new Uint8Array(${JSON.stringify([...readFileSync(path)])});
        const file = new File([bytes], '${event}.jpg', { type: 'image/jpeg' });
        const data = new DataTransfer();
        const event = '${event}' === 'drop'
            ? new DragEvent('drop', { dataTransfer: data, cancelable: true })
            : new ClipboardEvent('paste', { clipboardData: data });
        // (a paste has data of its own in Firefox)
        (event.dataTransfer ?? event.clipboardData).items.add(file);
        document.body.dataset.state = 'waiting';
        document.dispatchEvent(event);
    })()`);
    await page.until(`document.body.dataset.state === 'shown'`);
    assert.equal((await factsOf(page)).File, `${event}.jpg`);
}

/* A picture that is larger than the page, and the first one there, has the width of the view. */
async function checkFit(page) {
    await page.choose('#file', [larger()]);
    await page.until(`document.body.dataset.state === 'shown'`);
    const width = await page.run(`document.getElementById('canvas').getBoundingClientRect().width`);
    const room = await page.run(`document.getElementById('view').clientWidth`);
    assert.ok(Math.abs(width - room) < 1, `${width} of ${room}`);
}

/* The list is scrolled to the file that is chosen. */
async function checkList(page, paths) {
    for (const path of [paths.at(-1), paths[0]]) {
        await show(page, path);
        const sides = await page.run(`[${button(path)}, document.getElementById('files')].map(
            (it) => [it.getBoundingClientRect().top, it.getBoundingClientRect().bottom])`);
        const [[top, bottom], room] = sides;
        assert.ok(top > room[0] - 1 && bottom < room[1] + 1, path);
    }
}

async function checkKeys(page) {
    const scale = () => page.run(`document.getElementById('scale').textContent`);
    await show(page, PICTURES[0]);
    await page.run(`document.getElementById('view').focus()`);
    for (const [key, wanted] of [
        ['1', '100 %'],
        ['+', '200 %'],
        ['+', '400 %'],
        ['-', '200 %'],
        ['0', '100 %'],
    ]) {
        await page.press(key);
        assert.equal(await scale(), wanted);
    }
    await page.run(`${button(PICTURES[0])}.focus()`);
    await page.press('ArrowDown');
    assert.equal(await page.run('document.activeElement.firstChild.data'), nameOf(PICTURES[1]));
}

/* The tabulator reaches all that has a use by keys, from the first on, and nothing else. */
async function checkTabulator(page) {
    const seen = `[...document.querySelectorAll('input, button, summary, [tabindex="0"]')]
        .filter((it) => it.checkVisibility())`;
    const stops = await page.run(`${seen}.length`);
    await page.run(`${seen}[0].focus()`);
    for (let stop = 0; stop < stops; stop++) {
        await page.run(`document.activeElement.classList.add('reached')`);
        await page.press('Tab');
    }
    assert.equal(await page.run(`document.querySelector('main :focus')`), null);
    assert.ok(await page.run(`${seen}.every((it) => it.classList.contains('reached'))`));
    return stops;
}

/* All that takes the focus, and the picture, has a name, and some roles are there. */
async function checkNames(page) {
    for (const role of ['button', 'image', 'region', 'group', 'navigation', 'heading']) {
        assert.notEqual(await page.count(role), 0, role);
        assert.equal(await page.count(role, ''), 0, `a ${role} without a name`);
    }
    assert.notEqual(await page.count('status'), 0);
    return page.count('button');
}

/* The console is empty, and one that is heard. */
async function checkConsole(page) {
    await page.run(`console.error('the last')`);
    for (let round = 0; round < 100 && page.logs.length === 0; round++) {
        await new Promise((done) => setTimeout(done, 50));
    }
    assert.match(page.logs[0] ?? 'nothing', /the last/);
}

/* The page, and its decoder, after its server has closed. */
async function checkOffline(page, url) {
    await page.open(url);
    await page.until(`document.body?.dataset.state === 'ready'`);
    await page.choose('#file', PICTURES);
    await page.until(`document.querySelectorAll('#files button').length === ${PICTURES.length}`);
    assert.equal(await show(page, PICTURES[0]), 'shown');
    await checkSample(page);
}

/* A module whose stack is too small, for the first worker alone. */
async function checkTrap() {
    const first = Buffer.from([0x7e, 0x01, 0x42, 0x80, 0x80, 0x10, 0x0b]);
    const smaller = Buffer.from([0x7e, 0x01, 0x42, 0x80, 0xa0, 0x00, 0x0b]);
    let isSmall = true;
    const { url, close } = await serve(web, (path, bytes) => {
        if (path.endsWith('offline.js')) return null;
        if (path.endsWith('.wasm') && isSmall) bytes.set(smaller, bytes.indexOf(first));
        return bytes;
    });
    const page = await Page.browse(url);
    await page.until(`document.body.dataset.state === 'ready'`);
    await page.choose('#file', PICTURES.slice(0, 1));
    await page.until(`document.body.dataset.state === 'refused'`);
    const text = await page.run(`document.querySelector('#error small').textContent`);
    assert.match(text, /^FAILED: .*unreachable/);
    isSmall = false;
    assert.equal(await show(page, PICTURES[0]), 'shown');
    assert.equal(await page.run('document.body.dataset.workers'), '2');
    await page.close();
    close();
}

/* What is put into the worker for files that are read slowly: they give half of their bytes, one
 * more half a second later, and the others once the page says so. */
const SLOWLY = `
const released = new Promise((done) => (new BroadcastChannel('rest').onmessage = done));
Blob.prototype.stream = function () {
    const file = this;
    return new ReadableStream({
        async start(controller) {
            const bytes = new Uint8Array(await file.arrayBuffer());
            const half = bytes.length >> 1;
            controller.enqueue(bytes.subarray(0, half));
            await new Promise((done) => setTimeout(done, 500));
            controller.enqueue(bytes.subarray(half, half + 1));
            await released;
            controller.enqueue(bytes.subarray(half + 1));
            controller.close();
        },
    });
};`;

/* The canvas shows what decode gives of these bytes, upright. */
async function checkCanvas(page, bytes) {
    const zaxbriar = await load();
    const options = { layout: 'rgba', upright: true, partial: true };
    const { picture, pixels } = zaxbriar.decode(bytes, options);
    const { width, height, data } = await canvasOf(page);
    assert.deepEqual([width, height], [picture.width, picture.height]);
    assert.ok(pixels.every((sample, at) => sample === data[at]));
}

/* The canvas shows more than a quarter of the lines that decode gives of these bytes, and grey. */
async function checkLines(page, bytes) {
    const { pixels } = (await load()).decode(bytes, { layout: 'rgba' });
    const { width, height, data } = await canvasOf(page);
    const end = data.findLastIndex((sample, at) => sample !== (at % 4 < 3 ? 128 : 255)) + 1;
    assert.ok(end > width * height && end < pixels.length);
    const lines = pixels.subarray(0, 4 * width * Math.ceil(end / (4 * width)));
    assert.ok(lines.every((sample, at) => sample === data[at]));
}

/* A picture is shown while its file is read slowly, and can be zoomed; the rest comes into the same
 * place. */
async function checkEarly() {
    const { url, close } = await serve(web, (path, bytes) => {
        if (path.endsWith('offline.js')) return null;
        return path.endsWith('worker.mjs') ? Buffer.concat([bytes, Buffer.from(SLOWLY)]) : bytes;
    });
    const photograph = new URL('../../../examples/rocket.jpg', import.meta.url).pathname;
    const bytes = readFileSync(photograph);
    const page = await Page.browse(url);
    await page.until(`document.body.dataset.state === 'ready'`);
    await page.choose('#file', [photograph, ours('picture.png')]);
    await page.until(`document.body.dataset.state === 'early'`);
    await checkLines(page, bytes);
    const textOf = (id) => page.run(`document.getElementById('${id}').textContent`);
    const label = () => page.run(`document.getElementById('canvas').getAttribute('aria-label')`);
    assert.equal(await textOf('status'), 'rocket.jpg: shown while it is read');
    assert.equal(await label(), 'rocket.jpg, so far, 640 by 427 pixels');
    const names = 'File Length Size Process Colours Samples Sampling Orientation'.split(' ');
    assert.deepEqual(Object.keys(await factsOf(page)), names);
    assert.ok(await page.run(`document.getElementById('error').hidden`));
    assert.equal(await page.run(`${button(photograph)}.lastChild.textContent`), 'waiting');
    const scale = async () => Number.parseFloat(await textOf('scale'));
    const fitting = await scale();
    await page.run(`document.querySelector('[data-zoom=in]').click()`);
    const zoomed = await scale();
    assert.ok(zoomed > 1.9 * fitting);
    await page.run(`new BroadcastChannel('rest').postMessage('now')`);
    assert.equal(await shown(page), 'shown');
    await checkCanvas(page, bytes);
    assert.equal(await textOf('status'), 'rocket.jpg: shown');
    assert.equal(await label(), 'rocket.jpg, 640 by 427 pixels');
    assert.equal(await scale(), zoomed);
    assert.ok('Decoded in' in (await factsOf(page)));
    assert.equal(await show(page, ours('picture.png')), 'refused');
    assert.equal(await show(page, photograph), 'shown');
    assert.equal(await scale(), fitting);
    await page.close();
    close();
}

const { url, close } = await serve(web);
const page = await Page.browse(url);
await page.until(`document.body.dataset.state === 'ready'`);
await checkFit(page);
await checkDrawing(page);
await checkOrder(page, url);
await checkPatience(page, url);
await checkPhone(url);
await page.open(url);
await page.until(`document.body.dataset.state === 'ready'`);
const files = [...PICTURES, ...Object.keys(PARTIAL), ...Object.keys(REFUSED)];
await page.choose('#file', files);
await page.until(`[...document.querySelectorAll('#files small')].length === ${files.length} &&
    ![...document.querySelectorAll('#files small')].some((it) => it.textContent === 'waiting')`);
for (const [path, sampling] of Object.entries(SAMPLINGS)) {
    assert.equal(await show(page, path), 'shown', path);
    assert.equal((await factsOf(page)).Sampling, sampling, path);
}
await checkPixels(page);
await checkPartial(page);
await checkRefusals(page);
await checkThumbnail(page);
await checkList(page, files);
for (const event of ['drop', 'paste']) await give(page, event, PICTURES[0]);
await checkKeys(page);
const stops = await checkTabulator(page);
const buttons = await checkNames(page);
await page.screenshot(`${folder}/${browser}.png`);
await checkConsole(page);
await page.until(`navigator.serviceWorker.controller !== null`);
close();
await checkOffline(page, url);
await page.close();
await checkTrap();
await checkEarly();
const [parts, refusals] = [PARTIAL, REFUSED].map((files) => Object.keys(files).length);
console.log(`page in ${browser}: ${PICTURES.length} pictures with their sampling,`);
console.log(`      ${parts} in part, ${refusals} refusals by name, the list, drop, paste, fit, zoom,`);
console.log(`      ${stops} stops of the tabulator, ${buttons} buttons with names, a thumbnail,`);
console.log('      the chosen file first, a slow one put off, the first screen of a phone,');
console.log('      the photograph, an empty console, no network, the worker after a trap,');
console.log('      a picture while its file is read');
