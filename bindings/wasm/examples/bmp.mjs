/* Pictures as BMP files, which browsers show, and which take no time to write: the pixels stay as
 * they are. */
const HEADER_BYTES = 54;
const PIXEL_BITS = 32;

/* What a picture is decoded by for it. */
export const BMP_OPTIONS = { layout: 'bgra', upright: true };

/* Gives a BMP file of what `decode` gives by these. */
export function bmpOf({ picture: { width, height }, pixels }) {
    const header = new DataView(new ArrayBuffer(HEADER_BYTES));
    header.setUint16(0, 0x424d); // BM
    header.setUint32(2, HEADER_BYTES + pixels.length, true);
    header.setUint32(10, HEADER_BYTES, true);
    header.setUint32(14, HEADER_BYTES - 14, true);
    header.setInt32(18, width, true);
    header.setInt32(22, -height, true); // (from the top)
    header.setUint16(26, 1, true);
    header.setUint16(28, PIXEL_BITS, true);
    header.setUint32(34, pixels.length, true);
    return new Blob([header, pixels], { type: 'image/bmp' });
}
