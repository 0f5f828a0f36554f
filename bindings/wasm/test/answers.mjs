/* node answers.mjs: what jpegraw would write for each stream of standard input, by the module: the
 * picture, after a line with its size and format, or the line of a refusal. A stream comes after
 * its length, in four bytes, and an answer after its status, a byte, and its length. */
import { readSync, writeSync } from 'node:fs';
import { ZaxbriarError, load } from '../dist/node.mjs';

const NAMES = { grey8: 'L8', grey16: 'L16', rgb: 'RGB24', cmyk: 'CMYK32' };
const zaxbriar = await load();

/* Reads so many bytes, or those before the end. */
function read(count) {
    const bytes = Buffer.alloc(count);
    let at = 0;
    while (at < count) {
        const more = readSync(0, bytes, at, count - at);
        if (more === 0) break;
        at += more;
    }
    return bytes.subarray(0, at);
}

function write(bytes) {
    for (let at = 0; at < bytes.length; ) at += writeSync(1, bytes, at);
}

function answerTo(stream) {
    try {
        const { picture, pixels } = zaxbriar.decode(stream);
        const line = `${picture.width} ${picture.height} ${NAMES[picture.format]}\n`;
        return [0, Buffer.concat([Buffer.from(line), Buffer.from(pixels.buffer)])];
    } catch (error) {
        if (!(error instanceof ZaxbriarError)) throw error;
        return [1, Buffer.from(`jpegraw: ${error.message}\n`)];
    }
}

for (let length = read(4); length.length === 4; length = read(4)) {
    const [status, answer] = answerTo(read(length.readUInt32LE()));
    const head = Buffer.alloc(5);
    head.writeUInt8(status);
    head.writeUInt32LE(answer.length, 1);
    write(Buffer.concat([head, answer]));
}
