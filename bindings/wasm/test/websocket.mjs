/* The client of a WebSocket, for texts alone: Node 20 has none. */
import { randomBytes } from 'node:crypto';
import { request } from 'node:http';

// Kinds of frames; 0 goes on with a text.
const TEXT = 1;
const CLOSE = 8;
const PING = 9;
const PONG = 10;

/* A frame, masked as a client's have to be. */
function frameOf(kind, payload) {
    const { length } = payload;
    const size = length < 126 ? 0 : length < 65536 ? 2 : 8;
    const head = Buffer.alloc(2 + size);
    head[0] = 0x80 | kind;
    head[1] = 0x80 | (size === 0 ? length : size === 2 ? 126 : 127);
    if (size === 2) head.writeUInt16BE(length, 2);
    if (size === 8) head.writeBigUInt64BE(BigInt(length), 2);
    const mask = randomBytes(4);
    const masked = payload.map((byte, index) => byte ^ mask[index % 4]);
    return Buffer.concat([head, mask, masked]);
}

/* The first frame of these bytes, which a server doesn't mask, or null where they end in it. */
function firstFrame(bytes) {
    if (bytes.length < 2) return null;
    const short = bytes[1];
    const start = 2 + (short < 126 ? 0 : short === 126 ? 2 : 8);
    if (bytes.length < start) return null;
    let length = short;
    if (short === 126) length = bytes.readUInt16BE(2);
    if (short === 127) length = Number(bytes.readBigUInt64BE(2));
    const end = start + length;
    if (bytes.length < end) return null;
    const payload = bytes.subarray(start, end);
    return { kind: bytes[0] & 15, isLast: bytes[0] >= 0x80, payload, end };
}

/* Gives each text that arrives on the socket, in one frame or several, to `heard`. */
function listen(socket, head, heard) {
    let bytes = Buffer.alloc(0);
    let text = [];
    const read = (chunk) => {
        bytes = Buffer.concat([bytes, chunk]);
        for (let frame = firstFrame(bytes); frame; frame = firstFrame(bytes)) {
            bytes = bytes.subarray(frame.end);
            if (frame.kind === PING) socket.write(frameOf(PONG, frame.payload));
            if (frame.kind === CLOSE) socket.end();
            if (frame.kind > TEXT) continue;
            text.push(frame.payload);
            if (!frame.isLast) continue;
            heard(Buffer.concat(text).toString());
            text = [];
        }
    };
    read(head);
    socket.on('data', read);
}

/* Connects to an address (http:), and gives a function that sends a text; `heard` is given those
 * that arrive. */
export async function connect(address, heard) {
    const headers = {
        Connection: 'Upgrade',
        Upgrade: 'websocket',
        'Sec-WebSocket-Key': randomBytes(16).toString('base64'),
        'Sec-WebSocket-Version': '13',
    };
    const [socket, head] = await new Promise((done, fail) => {
        const asked = request(address, { headers });
        asked.on('upgrade', (_, ...rest) => done(rest)).on('error', fail);
        asked.on('response', ({ statusCode }) => fail(new Error(`${address}: ${statusCode}`)));
        asked.end();
    });
    // (a browser that ends may reset it)
    socket.on('error', () => {});
    listen(socket, head, heard);
    return (text) => socket.write(frameOf(TEXT, Buffer.from(text)));
}
