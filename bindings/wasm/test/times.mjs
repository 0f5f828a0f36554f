/* node times.mjs BROWSER FILE..: how long headless chromium or firefox takes from the bytes of a
 * file to its RGBA pixels, in milliseconds: in the page's own worker, by the module, and in such a
 * worker by createImageBitmap with getImageData (peer.mjs). The two take turns, once both have run
 * for a second. A table has the least and the median of all rounds of each, and the module's as
 * ratios to the browser's. The last column is how far samples are apart at most. The module's time
 * includes copying the file and the pixels; starting the worker isn't in it. */
import { cpSync, mkdtempSync, rmSync } from 'node:fs';
import { tmpdir } from 'node:os';
import { basename, join } from 'node:path';
import { Chromium } from './chromium.mjs';
import { Firefox } from './firefox.mjs';
import { serve } from './serve.mjs';

const ROUNDS = 41;
const WARM = 1000;
const [browser, ...files] = process.argv.slice(2);
const Page = { chromium: Chromium, firefox: Firefox }[browser];
const pathOf = (name) => new URL(name, import.meta.url).pathname;

const folder = mkdtempSync(join(tmpdir(), 'times-'));
process.once('exit', () => rmSync(folder, { recursive: true }));
cpSync(pathOf('../dist/web'), folder, { recursive: true });
cpSync(pathOf('peer.mjs'), join(folder, 'peer.mjs'));
files.forEach((file, index) => cpSync(file, join(folder, `${index}.jpg`)));
const { url, close } = await serve(folder, undefined, { isAlone: true });
const page = await Page.browse(url);
await page.until(`document.body.dataset.state === 'ready' && crossOriginIsolated`);

/* In the page: asks a worker for a file's pixels. */
await page.run(`(() => {
    const start = (name) => {
        const worker = new Worker(name, { type: 'module' });
        return (file) => new Promise((done) => {
            worker.onmessage = ({ data }) => done(data);
            worker.onerror = ({ message }) => done({ fault: message });
            worker.postMessage({ file, isShown: true });
        });
    };
    // (the page's worker gives the picture drawn)
    globalThis.samplesOf = ({ pixels, bitmap }) => {
        if (pixels) return new Uint8Array(pixels);
        const { width, height } = bitmap;
        const context = new OffscreenCanvas(width, height).getContext('2d');
        context.drawImage(bitmap, 0, 0);
        bitmap.close();
        return context.getImageData(0, 0, width, height).data;
    };
    globalThis.decoders = [start('worker.mjs'), start('peer.mjs')];
})()`);

/* The times of each decoder in the rounds, and how far their samples are apart. */
const timesOf = (index) =>
    page.run(`(async () => {
        const file = await (await fetch('${index}.jpg')).blob();
        for (const decode of decoders) {
            const start = performance.now();
            while (performance.now() - start < ${WARM}) await decode(file);
        }
        const times = decoders.map(() => []);
        const last = [];
        for (let round = 0; round < ${ROUNDS}; round++) {
            for (const [at, decode] of decoders.entries()) {
                const reply = await decode(file);
                if (reply.fault) throw new Error(reply.fault);
                times[at].push(reply.milliseconds);
                last[at] = samplesOf(reply);
            }
        }
        const [ours, theirs] = last;
        if (ours.length !== theirs.length) throw new Error('pictures of other sizes');
        let apart = 0;
        for (let at = 0; at < ours.length; at++) {
            apart = Math.max(apart, Math.abs(ours[at] - theirs[at]));
        }
        return { times, apart };
    })()`);

const sorted = (list) => list.toSorted((a, b) => a - b);
console.log('| file | this module | createImageBitmap, getImageData | ratios | apart |');
console.log('|---|---|---|---|---|');
for (const [index, file] of files.entries()) {
    const { times, apart } = await timesOf(index);
    const [ours, theirs] = times.map(sorted).map((list) => [list[0], list[list.length >> 1]]);
    const cell = (pair) => pair.map((time) => time.toFixed(2)).join(', ');
    const ratios = ours.map((time, at) => (time / theirs[at]).toFixed(2)).join(', ');
    console.log(`| ${basename(file)} | ${cell(ours)} | ${cell(theirs)} | ${ratios} | ${apart} |`);
}
await page.close();
close();
