/* Pictures upright by code of the tests' own, and streams with each orientation. */

/* Where the first line of a stored picture is to be seen, and its first column, by the orientation
 * of Exif. */
const SIDES = [
    ,
    ['top', 'left'],
    ['top', 'right'],
    ['bottom', 'right'],
    ['bottom', 'left'],
    ['left', 'top'],
    ['right', 'top'],
    ['right', 'bottom'],
    ['left', 'bottom'],
];

/* An APP1 segment whose Exif data have an orientation alone. */
const SEGMENT = 'ffe1001e4578696600004d4d002a0000000800010112000300000001';

/* A stream with that segment after its first marker, so that it counts where no other follows. */
export function withOrientation(stream, orientation) {
    const value = Buffer.from([0, orientation, 0, 0]);
    const segment = Buffer.concat([Buffer.from(SEGMENT, 'hex'), value]);
    return Buffer.concat([stream.subarray(0, 2), segment, stream.subarray(2)]);
}

/* What `decode` gives without `upright` and without gaps, upright. */
export function turned({ picture, pixels }) {
    const { orientation, pixelBytes } = picture;
    const [lineSide, columnSide] = SIDES[orientation];
    const isTurned = ['left', 'right'].includes(lineSide);
    const width = isTurned ? picture.height : picture.width;
    const height = isTurned ? picture.width : picture.height;
    const seen = new Uint8ClampedArray(pixels.length);
    for (let line = 0; line < picture.height; line++) {
        for (let column = 0; column < picture.width; column++) {
            const away = { [lineSide]: line, [columnSide]: column };
            const x = away.left ?? width - 1 - away.right;
            const y = away.top ?? height - 1 - away.bottom;
            const from = (line * picture.width + column) * pixelBytes;
            const pixel = pixels.subarray(from, from + pixelBytes);
            seen.set(pixel, (y * width + x) * pixelBytes);
        }
    }
    return { width, height, pixels: seen };
}
