/* A server of a folder, on this machine alone. */
import { readFileSync } from 'node:fs';
import { createServer } from 'node:http';
import { extname, join, normalize } from 'node:path';
import { Readable } from 'node:stream';

const TYPES = {
    '.css': 'text/css',
    '.html': 'text/html',
    '.js': 'text/javascript',
    '.mjs': 'text/javascript',
    '.wasm': 'application/wasm',
};

/* The clock of a page that no other page can reach into has a finer grain. */
const ALONE = {
    'Cross-Origin-Opener-Policy': 'same-origin',
    'Cross-Origin-Embedder-Policy': 'require-corp',
};

/* Serves a folder; `replace` may give other bytes for a path, or null for none, or their pieces one
 * after the other, as an asynchronous generator. */
export async function serve(folder, replace = (path, bytes) => bytes, { isAlone = false } = {}) {
    const server = createServer((request, response) => {
        const { pathname } = new URL(request.url, 'http://x');
        const path = normalize(pathname).replace(/\/$/, '/index.html');
        let bytes = null;
        try {
            bytes = replace(path, readFileSync(join(folder, path)));
        } catch {
            // (there is no such file)
        }
        response.writeHead(bytes ? 200 : 404, {
            'Content-Type': TYPES[extname(path)] ?? 'application/octet-stream',
            'Cache-Control': 'no-store',
            ...(isAlone ? ALONE : {}),
        });
        if (bytes?.[Symbol.asyncIterator]) Readable.from(bytes).pipe(response);
        else response.end(bytes ?? undefined);
    });
    await new Promise((done) => server.listen(0, '127.0.0.1', done));
    const { port } = server.address();
    const close = () => {
        server.closeAllConnections();
        server.close();
    };
    return { url: `http://127.0.0.1:${port}/`, close };
}
