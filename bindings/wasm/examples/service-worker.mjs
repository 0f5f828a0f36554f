/* Answers a site's requests for images that not all browsers show, lossless JPEG files, by BMP
 * files of their pictures. All other requests go their usual way: a file of another kind is passed
 * on as it comes, once its first bytes have told that.
 *
 * A file at the top of the site that imports this one is the service worker, as
 *
 *     import './zaxbriar/examples/service-worker.mjs';
 *
 * and a page registers it by
 *
 *     navigator.serviceWorker.register('service-worker.mjs', { type: 'module' });
 */
import { load } from '../zaxbriar.mjs';
import { BMP_OPTIONS, bmpOf } from './bmp.mjs';
import { LOSSLESS, frameOf } from './frame.mjs';

const OPTIONS = { ...BMP_OPTIONS, maxPixels: 100e6, maxBytes: 400e6 };
let loaded;

const joined = async (pieces) => new Uint8Array(await new Blob(pieces).arrayBuffer());

/* The bytes of a lossless file, or null as soon as it is known to be another. */
async function losslessBytes(body) {
    const reader = body.getReader();
    const pieces = [];
    let frame;
    while (frame === undefined || frame === LOSSLESS) {
        const { value, done } = await reader.read();
        if (done) break;
        pieces.push(value);
        if (frame === undefined) frame = frameOf(await joined(pieces));
    }
    if (frame === LOSSLESS) return joined(pieces);
    // (it isn't done before the other reader is, so nobody waits for it)
    reader.cancel().catch(() => {});
    return null;
}

/* The picture of a lossless file as a file that browsers show, or null. */
async function shownOf(body) {
    try {
        const bytes = await losslessBytes(body);
        if (!bytes) return null;
        loaded ??= load();
        return bmpOf((await loaded).decode(bytes, OPTIONS));
    } catch {
        // (the browser says what it makes of it)
        return null;
    }
}

async function answer(request) {
    const response = await fetch(request);
    // (what another server sends without leave to read it can't be read)
    if (!response.ok || !response.body) return response;
    // (two readers of one body: what the first has read is kept for the second)
    const shown = await shownOf(response.clone().body);
    return shown ? new Response(shown) : response;
}

self.addEventListener('install', (event) => event.waitUntil(self.skipWaiting()));
self.addEventListener('activate', (event) => event.waitUntil(self.clients.claim()));
self.addEventListener('fetch', (event) => {
    if (event.request.destination === 'image') event.respondWith(answer(event.request));
});
