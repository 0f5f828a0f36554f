/* node async_page.mjs BROWSER FOLDER: decodeAsync in headless chromium or firefox, on a page with
 * the policy of README.md: of the package's files, and of each bundle that bundlers.mjs has made in
 * FOLDER. */
import assert from 'node:assert/strict';
import { existsSync, mkdirSync, readFileSync, rmSync, symlinkSync, writeFileSync } from 'node:fs';
import { resolve } from 'node:path';
import { fileURLToPath } from 'node:url';
import { load } from '../dist/node.mjs';
import { Chromium } from './chromium.mjs';
import { endless } from './endless.mjs';
import { Firefox } from './firefox.mjs';
import { serve } from './serve.mjs';

const [browser, room] = process.argv.slice(2);
const Page = { chromium: Chromium, firefox: Firefox }[browser];
const folder = resolve(room, 'async');
const pathOf = (name) => fileURLToPath(new URL(name, import.meta.url));
const jpeg = readFileSync(pathOf('../../../tests/programs/files/turned.jpg'));
const zaxbriar = await load();
const POLICY = [
    "default-src 'none'",
    "script-src 'self' 'wasm-unsafe-eval'",
    "connect-src 'self'",
    "worker-src 'self'",
].join('; ');
const PAGE = `<!doctype html><meta charset="utf-8"><link rel="icon" href="data:,">
    <meta http-equiv="Content-Security-Policy" content="${POLICY}; img-src data:">
    <script src="streams.js"></script>`;
const STREAMS = `const jpeg = Uint8Array.from([${[...jpeg]}]);
    const endless = Uint8Array.from([${endless()}]);`;

/* A site with the package and the bundles that are there; gives what its page imports. */
function makeSite() {
    rmSync(folder, { recursive: true, force: true });
    mkdirSync(folder, { recursive: true });
    writeFileSync(`${folder}/index.html`, PAGE);
    writeFileSync(`${folder}/streams.js`, STREAMS);
    symlinkSync(pathOf('../dist'), `${folder}/package`);
    const entries = { package: 'package/index.mjs' };
    for (const name of ['esbuild', 'rollup', 'webpack']) {
        const bundle = resolve(room, 'bundlers', name);
        if (!existsSync(`${bundle}/bundle.mjs`)) continue;
        symlinkSync(bundle, `${folder}/${name}`);
        entries[name] = `${name}/bundle.mjs`;
    }
    return entries;
}

/* What the code of an asynchronous function gives in the page. */
const answer = (page, code) => page.run(`(async () => { ${code} })()`);

/* Pictures, a part, refusals, and a stream that is moved. */
async function checkCalls(page, entry) {
    await answer(page, `globalThis.zaxbriar =
        await import('./${entry}').then(({ load, loaded }) => loaded ?? load());`);
    const decode = (options) => answer(page, `
        const { picture, pixels, fault, wholeRows } = await zaxbriar.decodeAsync(${options});
        const kept = fault && { code: fault.code, message: fault.message, name: fault.name };
        return { picture, pixels: [...pixels], fault: kept, wholeRows };`);
    const wanted = zaxbriar.decode(jpeg, { layout: 'rgba' });
    const given = await decode(`jpeg, { layout: 'rgba' }`);
    assert.deepEqual(given.picture, wanted.picture);
    assert.deepEqual(given.pixels, [...wanted.pixels]);

    const length = jpeg.length - 40;
    const part = zaxbriar.decode(jpeg.subarray(0, length), { partial: true });
    const { code, message, name } = part.fault;
    const partial = await decode(`jpeg.subarray(0, ${length}), { partial: true }`);
    assert.deepEqual(partial.pixels, [...part.pixels]);
    assert.deepEqual(partial.fault, { code, message, name });
    assert.equal(partial.wholeRows, part.wholeRows);

    const refusal = (call) => answer(page, `return ${call}.then(() => 'decoded', (error) =>
        error.code ? error.code + ' ' + error.message : error.name);`);
    const refused = await refusal(`zaxbriar.decodeAsync(jpeg.subarray(0, ${length}))`);
    assert.equal(refused, `${code} ${message}`);
    assert.match(await refusal('zaxbriar.decodeAsync(jpeg, { maxPixels: 9 })'), /^TOO_LARGE /);
    assert.equal(await refusal('zaxbriar.decodeAsync(jpeg, { scale: -1 })'), 'RangeError');
    const moved = await answer(page, `
        const copy = jpeg.slice();
        await zaxbriar.decodeAsync(copy, { transfer: true });
        return copy.length;`);
    assert.equal(moved, 0);
}

/* A picture of half a minute ends at its signal; the page isn't held meanwhile, and the next call
 * has another worker. */
async function checkSignal(page) {
    const { ticks, names, width } = await answer(page, `
        const controller = new AbortController();
        let ticks = 0;
        const clock = setInterval(() => ++ticks === 50 && controller.abort(), 4);
        const signals = [controller.signal, AbortSignal.timeout(100)];
        const calls = signals.map((signal) =>
            zaxbriar.decodeAsync(endless, { signal, maxPasses: 0 }).catch(({ name }) => name));
        const last = zaxbriar.decodeAsync(jpeg);
        const names = await Promise.all(calls);
        clearInterval(clock);
        return { ticks, names, width: (await last).picture.width };`);
    assert.ok(ticks >= 50, `${ticks} ticks`);
    assert.deepEqual(names, ['AbortError', 'TimeoutError']);
    assert.equal(width, 40);
}

/* A worker that isn't there is an error, and the next call starts one that is. */
async function checkMissing(page) {
    const start = (name) => `new Worker('package/${name}.mjs', { type: 'module' })`;
    const told = await answer(page, `
        const { Zaxbriar, compile } = await import('./package/index.mjs');
        const starts = [() => ${start('nothing')}, () => ${start('zaxbriar-worker')}];
        const startWorker = () => starts.shift()();
        const decoder = new Zaxbriar(await compile(), { startWorker });
        const calls = [decoder.decodeAsync(jpeg), decoder.decodeAsync(jpeg)];
        return Promise.all(calls.map((call) => call.then(
            ({ picture }) => picture.width, (error) => error instanceof Error)));`);
    assert.deepEqual(told, [true, 40]);
}

const LOADED = `document.readyState === 'complete' && endless.length > 0`;
const entries = makeSite();
const { url, close } = await serve(folder);
const page = await Page.browse(url);
for (const entry of Object.values(entries)) {
    await page.open(url);
    await page.until(LOADED);
    await checkCalls(page, entry);
    await checkSignal(page);
}
await checkMissing(page);
await page.close();
close();
console.log(`async in ${browser}: ${Object.keys(entries).join(', ')}: pictures, a part, refusals,`);
console.log('      streams that are moved, signals, the page meanwhile, a worker that is missing');
