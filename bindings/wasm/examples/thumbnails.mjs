/* node thumbnails.mjs FOLDER OUTPUT [WIDTH]: makes a thumbnail of each JPEG file of a folder, in
 * Node. The folder OUTPUT gets FILE.png for each FILE: upright, and WIDTH (256) pixels wide, or as
 * wide as the picture is if that is less. A file that is refused is named, with its fault, and the
 * status is then 1. */
import { mkdirSync, readFileSync, readdirSync, writeFileSync } from 'node:fs';
import { join } from 'node:path';
import { deflateSync } from 'node:zlib';
import { load } from 'zaxbriar';
import { SIGNATURE, chunk, headerOf } from './png.mjs';

const CHANNELS = 3;
const OPTIONS = { layout: 'rgb', upright: true, maxPixels: 500e6, maxBytes: 1e9 };

const zaxbriar = await load();

/* A picture of red, green and blue as a PNG file. */
function pngOf(picture, pixels) {
    const { width, height } = picture;
    const lineBytes = width * CHANNELS;
    // (before each line stands the number of its filter, which is none)
    const lines = Buffer.alloc(height * (lineBytes + 1));
    for (let y = 0; y < height; y++) {
        const line = pixels.subarray(y * lineBytes, (y + 1) * lineBytes);
        lines.set(line, y * (lineBytes + 1) + 1);
    }
    const chunks = [headerOf(picture), chunk('IDAT', deflateSync(lines))];
    return Buffer.concat([SIGNATURE, ...chunks, chunk('IEND', Buffer.alloc(0))]);
}

const [folder, output, width = '256'] = process.argv.slice(2);
if (!output || !(Number(width) >= 1 && Number(width) <= 65535)) {
    console.error('usage: node thumbnails.mjs FOLDER OUTPUT [WIDTH]');
    process.exit(2);
}
/* The picture of a file that is so wide, or as wide as it is if that is less, decoded at the least
 * of 1/8, 1/4, 1/2 and its whole size that is wide enough. */
function thumbnailOf(jpeg, width) {
    // (the least sides are those of the stored picture, which may lie on its side)
    const side = zaxbriar.readInfo(jpeg).orientation > 4 ? 'minHeight' : 'minWidth';
    return zaxbriar.decode(jpeg, { ...OPTIONS, [side]: width, within: { width } });
}

mkdirSync(output, { recursive: true });
for (const name of readdirSync(folder).filter((it) => /\.jpe?g$/i.test(it))) {
    try {
        const jpeg = readFileSync(join(folder, name));
        const { picture, pixels } = thumbnailOf(jpeg, Number(width));
        writeFileSync(join(output, `${name}.png`), pngOf(picture, pixels));
    } catch (error) {
        console.error(`${name}: ${error.code ?? error.name}: ${error.message}`);
        process.exitCode = 1;
    }
}
