/* Tells a lossless JPEG file from all others by its first bytes. */

/* The marker of a lossless frame, SOF3. */
export const LOSSLESS = 0xc3;

/* The markers between SOF0 and SOF15 that don't begin a frame: DHT, JPG and DAC. */
const OTHERS = [0xc4, 0xc8, 0xcc];

/* Gives the marker of a JPEG file's frame; undefined where it takes more bytes to tell, and null
 * where no more bytes make a JPEG file of these. */
export function frameOf(bytes) {
    const start = [0xff, 0xd8];
    if (start.some((byte, at) => at < bytes.length && bytes[at] !== byte)) return null;
    let at = start.length;
    while (at + 3 < bytes.length) {
        const marker = bytes[at + 1];
        if (bytes[at] !== 0xff) return null;
        if (marker >= 0xc0 && marker <= 0xcf && !OTHERS.includes(marker)) return marker;
        // (any number of FF may stand before a marker, and a length after it)
        at += marker === 0xff ? 1 : 2 + 256 * bytes[at + 2] + bytes[at + 3];
    }
    return undefined;
}
