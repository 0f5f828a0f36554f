/* The parts of PNG files. */
const CHANNELS = { grey: 0, rgb: 2 };

export const SIGNATURE = Buffer.from([0x89, 0x50, 0x4e, 0x47, 0x0d, 0x0a, 0x1a, 0x0a]);

function crcOf(bytes) {
    let crc = ~0;
    for (const byte of bytes) {
        crc ^= byte;
        for (let bit = 0; bit < 8; bit++) crc = (crc >>> 1) ^ (crc & 1 ? 0xedb88320 : 0);
    }
    return ~crc >>> 0;
}

/* A chunk of a PNG file: its length, its type and data, and their checksum. */
export function chunk(type, data) {
    const checked = Buffer.concat([Buffer.from(type), data]);
    const bytes = Buffer.alloc(checked.length + 8);
    bytes.writeUInt32BE(data.length, 0);
    checked.copy(bytes, 4);
    bytes.writeUInt32BE(crcOf(checked), bytes.length - 4);
    return bytes;
}

/* The header of a picture of so many bits a sample, grey or of red, green and blue. */
export function headerOf({ width, height }, { bits = 8, color = 'rgb' } = {}) {
    const header = Buffer.from([0, 0, 0, 0, 0, 0, 0, 0, bits, CHANNELS[color], 0, 0, 0]);
    header.writeUInt32BE(width, 0);
    header.writeUInt32BE(height, 4);
    return chunk('IHDR', header);
}
