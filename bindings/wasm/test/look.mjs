/* node look.mjs BROWSER FOLDER FILE..: pictures of the page of dist/web in headless chromium or
 * firefox, to be looked at: one for each file, which FOLDER takes as NAME.BROWSER.png. For each it
 * tells the page's state, what it says of the file, and the size of its canvas. */
import { basename, resolve } from 'node:path';
import { Chromium } from './chromium.mjs';
import { Firefox } from './firefox.mjs';
import { serve } from './serve.mjs';

const [browser, folder, ...files] = process.argv.slice(2);
const Page = { chromium: Chromium, firefox: Firefox }[browser];
const { url, close } = await serve(new URL('../dist/web', import.meta.url).pathname);
const page = await Page.browse(url, { width: 1400, height: 1000 });
await page.until(`document.body.dataset.state === 'ready'`);
for (const file of files) {
    await page.run(`document.body.dataset.state = 'waiting'`);
    await page.choose('#file', [resolve(file)]);
    // (a file is shown when the first of a choice has been decoded)
    await page.until(`['shown', 'partial', 'refused'].includes(document.body.dataset.state)`);
    await page.run(`new Promise((done) => requestAnimationFrame(() => setTimeout(done, 100)))`);
    const told = await page.run(`(() => {
        const canvas = document.getElementById('canvas');
        const facts = [...document.querySelectorAll('#facts dd')].map((it) => it.textContent);
        const size = canvas.width + 'x' + canvas.height;
        const text = document.getElementById('status').textContent;
        return [document.body.dataset.state, text, size, facts.at(-1)].join(' | ');
    })()`);
    console.log(told);
    await page.screenshot(`${folder}/${basename(file)}.${browser}.png`);
}
await page.close();
close();
for (const text of page.logs) console.log(`console: ${text}`);
