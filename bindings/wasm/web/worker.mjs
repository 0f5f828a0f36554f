/* Decodes away from the page, and draws there, too. A request is { file, isShown }. Its answer
 * describes the file, and the picture as it is stored; `fault` names what went wrong, and `sentence`
 * says what that means. Where the picture is to be shown it is an ImageBitmap, upright: with
 * `isPartial` beside a fault. Answers with `isEarly` come before it where a file takes long to be
 * read, with the picture so far. After a fault with `isBroken` the page takes another worker. */
import { reading, showEarly } from './early.mjs';
import { sentenceOf } from './words.mjs';
import { ZaxbriarError, load } from './zaxbriar.mjs';

const MAX_MEMORY = 2 ** 30;
const loaded = load(new URL('zaxbriar.wasm', import.meta.url), { maxMemory: MAX_MEMORY });
// (each answer waits for it anew, and names its fault)
loaded.catch(() => {});

/* What names a fault of the stream's, of which there may be a part. */
const FAULTS = ['MALFORMED', 'UNSUPPORTED', 'TRUNCATED', 'TOO_MANY_PASSES'];

const OPTIONS = { layout: 'rgba', upright: true };

/* Metadata that may stand in several segments. */
const JOINED = ['exif', 'xmp', 'extendedXmp', 'iptc', 'thumbnail'];

/* The picture for a canvas, upright, or the part of it that comes before a fault of the stream, and
 * that fault. */
function pictureOf(zaxbriar, jpeg) {
    try {
        return zaxbriar.decode(jpeg, OPTIONS);
    } catch (error) {
        if (!FAULTS.includes(error.code)) throw error;
        return zaxbriar.decode(jpeg, { ...OPTIONS, partial: true });
    }
}

/* The same, and how long that took. */
function decode(zaxbriar, jpeg) {
    const start = performance.now();
    const decoded = pictureOf(zaxbriar, jpeg);
    return { decoded, milliseconds: performance.now() - start };
}

/* The picture as what a canvas takes without a copy. */
function draw({ picture: { width, height }, pixels }) {
    const canvas = new OffscreenCanvas(width, height);
    canvas.getContext('2d').putImageData(new ImageData(pixels, width, height), 0, 0);
    return canvas.transferToImageBitmap();
}

/* The picture drawn, or the fault that the browser can't. */
function drawn(decoded) {
    try {
        return { bitmap: draw(decoded) };
    } catch (error) {
        const text = `the browser has no canvas of that size (${error.message})`;
        return { fault: 'NOT SHOWN', text, isPartial: false };
    }
}

/* The metadata of the whole image, but for an ICC profile, which stands before the frame: how many
 * bytes of each kind there are, the texts of XMP data, and the thumbnail. */
function metadata(zaxbriar, jpeg) {
    const found = { icc: zaxbriar.metadata(jpeg, 'icc') };
    for (const kind of JOINED) found[kind] = zaxbriar.joinedMetadata(jpeg, kind);
    const { xmp, extendedXmp, thumbnail } = found;
    const bytes = Object.entries(found).map(([kind, data]) => [kind, data?.length ?? 0]);
    const texts = [xmp, extendedXmp].filter(Boolean).map((data) => new TextDecoder().decode(data));
    return { bytes: Object.fromEntries(bytes), texts, thumbnail };
}

/* What a fault says of itself; any other error is the end of the decoder. */
const told = (error) => ({
    fault: error instanceof ZaxbriarError ? error.code : 'FAILED',
    text: error.message,
    feature: error.feature,
    featureArgument: error.featureArgument,
});

/* The bytes of a file, whose picture so far is told if that is to be shown. */
async function read(zaxbriar, { file, isShown }) {
    if (!isShown) return new Uint8Array(await file.arrayBuffer());
    const jpeg = new Uint8Array(file.size);
    const readOn = reading(file, jpeg);
    let picture = null;
    const tell = (bytes, bitmap) => {
        picture ??= zaxbriar.readInfo(bytes);
        postMessage({ isEarly: true, picture, bitmap }, [bitmap]);
    };
    await showEarly({ zaxbriar, read: readOn, draw, tell }, zaxbriar.feed(OPTIONS));
    while (await readOn());
    return jpeg;
}

async function answer(request) {
    const reply = {};
    let jpeg;
    try {
        const zaxbriar = await loaded;
        jpeg = await read(zaxbriar, request);
        reply.picture = zaxbriar.readInfo(jpeg);
        reply.metadata = metadata(zaxbriar, jpeg);
        const { decoded, milliseconds } = decode(zaxbriar, jpeg);
        const { wholeRows, fault } = decoded;
        reply.milliseconds = milliseconds;
        reply.wholeRows = wholeRows;
        reply.isPartial = Boolean(fault);
        if (fault) Object.assign(reply, told(fault));
        if (request.isShown) Object.assign(reply, drawn(decoded));
    } catch (error) {
        reply.isBroken = !(error instanceof ZaxbriarError);
        Object.assign(reply, told(error));
    }
    if (reply.fault) reply.sentence = sentenceOf(reply, jpeg);
    postMessage(reply, reply.bitmap ? [reply.bitmap] : []);
}

onmessage = (event) => answer(event.data);
