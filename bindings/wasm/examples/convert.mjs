/* node convert.mjs FILE OUTPUT: makes a PNG file of a JPEG file, in Node, line by line as it is
 * read: of most files neither they nor the picture are in memory as a whole. It may be grey or in
 * colour, of 8 or 16 bits a sample, and isn't turned upright. OUTPUT is made only where the file
 * has no fault. FILE may be -, for standard input. */
import { createReadStream, createWriteStream, renameSync, rmSync } from 'node:fs';
import { pipeline } from 'node:stream/promises';
import { createDeflate } from 'node:zlib';
import { load } from 'zaxbriar';
import { SIGNATURE, chunk, headerOf } from './png.mjs';

const NO_FILTER = Buffer.alloc(1);
const COLORS = { 1: 'grey', 3: 'rgb' };
const LIMITS = { maxPixels: 2e9, maxBytes: 4e9 };

/* The lines as PNG has them: before each stands the number of its filter, and the higher byte of
 * a sample is first. */
async function* linesOf(rows) {
    for await (const row of rows) {
        const line = Buffer.from(row.buffer);
        yield Buffer.concat([NO_FILTER, rows.picture.sampleBytes === 2 ? line.swap16() : line]);
    }
}

/* The header of the PNG file of a picture, if there is one that has its samples as they are. */
function pngHeader(picture) {
    const { components, precision: bits } = picture;
    if (!(components in COLORS && (bits === 8 || bits === 16))) {
        throw new Error(`no PNG file has ${components} components of ${bits} bits`);
    }
    return headerOf(picture, { bits, color: COLORS[components] });
}

const [path, output] = process.argv.slice(2);
if (!output) {
    console.error('usage: node convert.mjs FILE OUTPUT');
    process.exit(2);
}
const part = `${output}.part`;
try {
    const zaxbriar = await load();
    const input = path === '-' ? process.stdin : createReadStream(path);
    const rows = zaxbriar.rows(input, LIMITS);
    const file = async function* (compressed) {
        let header = null;
        for await (const data of compressed) {
            // (by now there is a line, and with it the picture)
            if (!header) yield* [SIGNATURE, (header = pngHeader(rows.picture))];
            yield chunk('IDAT', data);
        }
        yield chunk('IEND', Buffer.alloc(0));
    };
    await pipeline(linesOf(rows), createDeflate(), file, createWriteStream(part));
    renameSync(part, output);
} catch (error) {
    rmSync(part, { force: true });
    console.error(`${path}: ${error.code ?? error.name}: ${error.message}`);
    process.exitCode = 1;
}
