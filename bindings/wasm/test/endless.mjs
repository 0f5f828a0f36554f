/* A picture with many scans, each over all of its blocks by 15 bytes. By default it has 12 million
 * pixels and three thousand scans, in 45 kB, and takes half a minute where `maxPasses` is 0. */
const segment = (marker, bytes) => [0xff, marker, 0, bytes.length + 2, ...bytes];
const huffman = (selector) => segment(0xc4, [selector, 1, ...Array(15).fill(0), 0]);

export function endless(count = 3000, [width, height] = [4000, 3000]) {
    const size = [height >> 8, height & 255, width >> 8, width & 255];
    const frame = segment(0xc0, [8, ...size, 3, 1, 17, 0, 2, 17, 0, 3, 17, 0]);
    const tables = [...segment(0xdb, [0, ...Array(64).fill(1)]), ...huffman(0), ...huffman(0x10)];
    const scan = [...segment(0xda, [3, 1, 0, 2, 0, 3, 0, 0, 63, 0]), 0];
    const scans = Array.from({ length: count }, () => scan).flat();
    return Uint8Array.from([0xff, 0xd8, ...tables, ...frame, ...scans, 0xff, 0xd9]);
}
