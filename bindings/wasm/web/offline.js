/* Keeps the page's files, so that it works without a network. The name changes with what they
 * hold. */
const KEPT = 'zaxbriar-@SUM@';
const FILES = [
    './',
    'index.html',
    'style.css',
    'page.mjs',
    'decoder.mjs',
    'early.mjs',
    'worker.mjs',
    'words.mjs',
    'zaxbriar.mjs',
    'zaxbriar.wasm',
    'rocket.jpg',
];

async function keep() {
    const kept = await caches.open(KEPT);
    await kept.addAll(FILES.map((file) => new Request(file, { cache: 'reload' })));
    await self.skipWaiting();
}

async function dropOthers() {
    const names = await caches.keys();
    const others = names.filter((name) => name.startsWith('zaxbriar-') && name !== KEPT);
    await Promise.all(others.map((name) => caches.delete(name)));
    await self.clients.claim();
}

async function answer(request) {
    const kept = await caches.open(KEPT);
    return (await kept.match(request)) ?? fetch(request);
}

self.addEventListener('install', (event) => event.waitUntil(keep()));
self.addEventListener('activate', (event) => event.waitUntil(dropOthers()));
self.addEventListener('fetch', (event) => event.respondWith(answer(event.request)));
