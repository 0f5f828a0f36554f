/* The decoder for JavaScript, over zaxbriar.wasm, with synchronous calls: all that a worker needs.
 * The package's name gives index.mjs, which adds `decodeAsync`, or node.mjs in Node.
 *
 *     import { load } from './zaxbriar.mjs';
 *     const zaxbriar = await load();
 *     const { picture, pixels } = zaxbriar.decode(bytes, { layout: 'rgba' });
 *
 * zaxbriar.d.mts has the types, and what each call does. Nothing in this file is proved: it copies
 * bytes into the module's memory and out of it. */

/* Names of the numbers of bindings/c/zaxbriar.h. The module says which of them fit a picture:
 * others are BAD_ARGUMENT. */
const LAYOUTS = {
    stored: 0,
    grey: 1,
    rgb: 2,
    rgba: 3,
    bgra: 4,
    bgr: 5,
    xrgb: 6,
    abgr: 7,
    rgb565: 8,
    grey16: 9,
    rgb16: 10,
};
const TRANSFORMS = { stream: 0, none: 1, rgb: 2, ycbcr: 3, cmyk: 4, ycck: 5 };
const KINDS = { exif: 1, xmp: 2, icc: 3 };
const JOINED_KINDS = { exif: 1, xmp: 2, extendedXmp: 4, iptc: 5, thumbnail: 6 };
const PROCESSES = ['', 'sequential', 'progressive', 'lossless'];
const FORMATS = ['', 'grey8', 'grey16', 'rgb', 'cmyk'];
const FEATURES = [
    '',
    'hierarchical',
    'arithmetic',
    'precision',
    'components',
    'dnl',
    'subsampling',
    'factors',
    'transform',
];
/* What decode and readInfo take, and what a decoder takes. */
export const OPTIONS = [
    'layout',
    'scale',
    'minWidth',
    'minHeight',
    'stride',
    'bottomUp',
    'upright',
    'luma',
    'crop',
    'within',
    'colorTransform',
    'maxPixels',
    'maxBytes',
    'maxPasses',
    'partial',
];
/* What decodePlanes takes: the others arrange or convert samples. */
const PLANES_OPTIONS = ['scale', 'minWidth', 'minHeight', 'maxPixels', 'maxBytes', 'maxPasses'];
/* What rows takes, for the same reason. */
const ROWS_OPTIONS = [...PLANES_OPTIONS, 'colorTransform'];
/* What it takes with a stream, whose lines have their full size. */
const ARRIVING_OPTIONS = ['maxPixels', 'maxBytes', 'maxPasses', 'colorTransform'];
/* What feed takes, which always decodes as far as a stream goes. */
const FED_OPTIONS = OPTIONS.filter((name) => name !== 'partial');
/* The options whose values are objects, and the members of these. */
const PARTS = { crop: ['left', 'top', 'width', 'height'], within: ['width', 'height'] };
const MOST_SIDE = 65535;
/* The limits of `decode` where none are given: of its memory, and of its time. */
const LIMITS = { maxBytes: 2 ** 30, maxPasses: 100 };
export const DECODER_OPTIONS = ['maxMemory'];
const BUFFERS = ['ArrayBuffer', 'SharedArrayBuffer'];
/* The features that come with a number. */
const NUMBERED = ['precision', 'components', 'transform'];
const OK = 0;
const TRUNCATED = 3;
const NO_MEMORY = 4;
const NO_ROOM = 5;
const NO_DATA = 7;
const TOO_LARGE = 8;
const PARTIAL = 9;
const END = 11;
const WAITING = 12;
const CODES = [
    'OK',
    'MALFORMED',
    'UNSUPPORTED',
    'TRUNCATED',
    'NO_MEMORY',
    'NO_ROOM',
    'BAD_ARGUMENT',
    'NO_DATA',
    'TOO_LARGE',
    'PARTIAL',
    'TOO_MANY_PASSES',
];

/* The structs zaxbriar_options and zaxbriar_picture of bindings/c/zaxbriar.h. */
const OPTIONS_BYTES = 128;
const PICTURE_BYTES = 320;
const WHOLE_ROWS_AT = 40;
const SAMPLE_BYTES_AT = 48;
const FEATURE_AT = 52;
const SAMPLING_AT = 54;
const FAULT_AT = 58;
const DENSITY_AT = 59;
const TRANSFORM_AT = 64;
const PLANE_WIDTH_AT = 66;
const PLANE_HEIGHT_AT = 74;
const PLANES_SIZE_AT = 88;
const TEXT_AT = 208;
const TEXT_BYTES = 112;

const nameOf = (numbers, number) => Object.keys(numbers).find((name) => numbers[name] === number);

export class ZaxbriarError extends Error {
    constructor(answer, text, [feature, argument] = [0, 0]) {
        super(text);
        this.name = 'ZaxbriarError';
        this.code = CODES[answer] ?? `ANSWER_${answer}`;
        if (feature) this.feature = FEATURES[feature] ?? `FEATURE_${feature}`;
        if (NUMBERED.includes(this.feature)) this.featureArgument = argument;
    }
}

function numberOf(names, name, what) {
    if (!Object.hasOwn(names, name)) {
        throw new TypeError(`${what}: one of ${Object.keys(names).join(', ')}, not ${name}`);
    }
    return names[name];
}

function wholeNumber(value, most, what) {
    if (!Number.isInteger(value) || value < 0 || value > most) {
        throw new RangeError(`${what}: a whole number from 0 to ${most}, not ${value}`);
    }
    return value;
}

/* Refuses an option that doesn't exist, which may be the misspelt name of a limit. */
function checkNames(options, names) {
    for (const name in options) {
        if (!names.includes(name)) {
            throw new TypeError(`${name} is no option; there are ${names.join(', ')}`);
        }
    }
}

/* The value of an option that is an object, as an object of its own; undefined if there is none. */
function partOf(options, name) {
    const value = options[name];
    if (value === undefined) return undefined;
    if (typeof value !== 'object' || value === null) {
        throw new TypeError(`${name}: an object of ${PARTS[name].join(', ')}, not ${value}`);
    }
    return ownOptions(value, PARTS[name]);
}

/* The options as an object's own, also those that it inherits, once their names are checked. */
export function ownOptions(options, names) {
    checkNames(options, names);
    const own = (name) => (name in PARTS ? partOf(options, name) : options[name]);
    return Object.fromEntries(names.map((name) => [name, own(name)]));
}

/* The name of a value's class, which `instanceof` doesn't know where the value is of another realm,
 * as of a frame or in a test runner. */
const classOf = (value) => Object.prototype.toString.call(value).slice(8, -1);

/* The bytes of a buffer or of any view of one. */
export function bytesOf(source, what = 'jpeg') {
    if (source instanceof Uint8Array || source instanceof Uint8ClampedArray) return source;
    if (ArrayBuffer.isView(source)) {
        return new Uint8Array(source.buffer, source.byteOffset, source.byteLength);
    }
    if (BUFFERS.includes(classOf(source))) return new Uint8Array(source);
    throw new TypeError(`${what}: an ArrayBuffer or a view of one`);
}

/* Puts the members of an option that is an object, which are numbers of columns or lines. */
function putPart(view, at, options, name) {
    const part = partOf(options, name) ?? {};
    PARTS[name].forEach((member, index) => {
        const number = wholeNumber(part[member] ?? 0, MOST_SIDE, `${name}.${member}`);
        view.setUint16(at + 2 * index, number, true);
    });
}

/* Puts the part of a picture that is asked for. One of zeros alone would be none. */
function putCrop(view, at, options) {
    putPart(view, at, options, 'crop');
    const { crop } = options;
    if (crop && !(crop.width > 0 && crop.height > 0)) {
        throw new RangeError('crop: at least one pixel wide and high');
    }
}

/* The options as the bytes of zaxbriar_options, with these limits where they give none. */
function optionsOf(options, limits = {}) {
    const bytes = new Uint8Array(OPTIONS_BYTES);
    const view = new DataView(bytes.buffer);
    const number = (name, most) => wholeNumber(options[name] ?? limits[name] ?? 0, most, name);
    view.setBigUint64(8, BigInt(number('stride', 2 ** 32)), true);
    view.setUint16(16, number('minWidth', MOST_SIDE), true);
    view.setUint16(18, number('minHeight', MOST_SIDE), true);
    view.setUint8(20, numberOf(TRANSFORMS, options.colorTransform ?? 'stream', 'colorTransform'));
    view.setUint8(21, numberOf(LAYOUTS, options.layout ?? 'stored', 'layout'));
    view.setUint8(22, number('scale', 255));
    view.setUint8(23, isSet(options, 'bottomUp') ? 1 : 0);
    view.setBigUint64(24, BigInt(number('maxBytes', Number.MAX_SAFE_INTEGER)), true);
    view.setBigUint64(48, BigInt(number('maxPasses', Number.MAX_SAFE_INTEGER)), true);
    view.setUint8(56, isSet(options, 'upright') ? 1 : 0);
    view.setUint8(57, isSet(options, 'luma') ? 1 : 0);
    putCrop(view, 64, options);
    putPart(view, 72, options, 'within');
    return bytes;
}

/* Whether an option is set that is true or false. */
export function isSet(options, name) {
    const { [name]: value = false } = options;
    if (typeof value !== 'boolean') throw new TypeError(`${name}: a boolean, not ${value}`);
    return value;
}

/* How many pixels a picture may have; 0: any number. */
const pixelLimit = ({ maxPixels }) =>
    wholeNumber(maxPixels ?? 0, Number.MAX_SAFE_INTEGER, 'maxPixels');

/* Refuses options of `decode` whose values don't exist. */
export function checkValues(options) {
    optionsOf(options);
    isSet(options, 'partial');
    pixelLimit(options);
}

/* Whether a value is the bytes of a stream. */
const isBytes = (value) => ArrayBuffer.isView(value) || BUFFERS.includes(classOf(value));

/* An error after some lines: that of a stream says how many there were. */
function afterLines(error, lines) {
    if (!(error instanceof ZaxbriarError)) return error;
    error.message += `, after ${lines} lines`;
    return Object.assign(error, { lines });
}

/* Refuses to go on where the module's memory isn't the one any more that a state is in. */
function checkThere(isThere) {
    if (!isThere()) throw new Error('the memory of the decoder was given back');
}

/* The sampling factors that a byte of a frame header has. */
const factorsOf = (byte) => ({ horizontal: byte >> 4, vertical: byte & 15 });

/* Compiles the module: of a URL, a response, bytes, or one that is compiled already. */
export async function compile(source = new URL('zaxbriar.wasm', import.meta.url)) {
    const given = await source;
    const kind = classOf(given);
    if (kind === 'WebAssembly.Module') return given;
    if (kind === 'ArrayBuffer' || ArrayBuffer.isView(given)) return WebAssembly.compile(given);
    const response = kind === 'Response' ? given : await fetch(given);
    if (!response.ok) throw new Error(`${response.url}: ${response.status}`);
    // (some servers don't know the type of .wasm, which compileStreaming asks for)
    return WebAssembly.compile(await response.arrayBuffer());
}

export async function load(source, options) {
    return new Zaxbriar(await compile(source), options);
}

/* Frees what lines, and a stream that is fed, take in the module's memory where nobody can ask for
 * more of them. */
const dropped = new FinalizationRegistry((free) => free());

/* The lines of a picture, as an iterator. `read` gives the next one, or null after the last; `free`
 * frees what they take in the module's memory. */
class Rows {
    #read;
    #free;
    #lines = 0;

    constructor(picture, read, free) {
        this.picture = picture;
        this.#read = read;
        this.#free = free;
        dropped.register(this, free, this);
    }

    get lines() {
        return this.#lines;
    }

    next() {
        if (!this.#read) return { value: undefined, done: true };
        try {
            const value = this.#read();
            if (!value) return this.return();
            this.#lines++;
            return { value, done: false };
        } catch (error) {
            this.return();
            throw afterLines(error, this.#lines);
        }
    }

    return(value) {
        dropped.unregister(this);
        this.#free?.();
        this.#read = this.#free = null;
        return { value, done: true };
    }

    [Symbol.iterator]() {
        return this;
    }
}

/* By this name a stream that is fed is asked for its lines. */
const ask = Symbol('ask');

/* A stream that arrives in pieces. `calls` have what is asked of the module; `free` frees what the
 * stream takes in its memory. */
class Fed {
    #calls;
    #free;
    #byteLength = 0;

    constructor(calls, free) {
        this.#calls = calls;
        this.#free = free;
        dropped.register(this, free, this);
    }

    get byteLength() {
        return this.#byteLength;
    }

    [ask](name, ...words) {
        if (!this.#calls) throw new Error('the stream was freed');
        return this.#calls[name](...words);
    }

    feed(piece) {
        const bytes = bytesOf(piece, 'piece');
        this[ask]('feed', bytes);
        this.#byteLength += bytes.length;
    }

    info() {
        return this[ask]('info');
    }

    show() {
        return this[ask]('show');
    }

    free() {
        dropped.unregister(this);
        this.#free?.();
        this.#calls = this.#free = null;
    }
}

// (not all engines have `using`)
if (Symbol.dispose) Fed.prototype[Symbol.dispose] = Fed.prototype.free;

/* The pieces of a stream, which is cancelled where it isn't read to its end. (The streams of some
 * browsers are no iterables.) */
async function* read(stream) {
    const reader = stream.getReader();
    try {
        for (;;) {
            const { value, done } = await reader.read();
            if (done) return;
            yield value;
        }
    } finally {
        await reader.cancel();
        reader.releaseLock();
    }
}

/* What gives the pieces of a stream one after the other. */
function piecesOf(stream) {
    if (typeof stream?.getReader === 'function') return read(stream);
    if (stream?.[Symbol.asyncIterator] ?? stream?.[Symbol.iterator]) return stream;
    throw new TypeError('stream: a ReadableStream, or an iterable of its pieces');
}

/* The lines of a picture while its stream arrives, as an asynchronous iterator. `begin` begins to
 * take a stream, at the first line that is asked for. */
class ArrivingRows {
    #stream;
    #given;
    #hasBegun = false;
    #picture = null;
    #lines = 0;

    constructor(stream, begin) {
        this.#stream = stream;
        this.#given = this.#rowsOf(piecesOf(stream), begin);
    }

    get picture() {
        return this.#picture;
    }

    get lines() {
        return this.#lines;
    }

    next() {
        this.#hasBegun = true;
        return this.#given.next();
    }

    async return(value) {
        // (a generator that hasn't begun ends without a word to its stream)
        if (!this.#hasBegun) await this.#stream.cancel?.();
        this.#hasBegun = true;
        return this.#given.return(value);
    }

    [Symbol.asyncIterator]() {
        return this;
    }

    async *#rowsOf(pieces, begin) {
        const fed = begin();
        let next = 0;
        try {
            for await (const piece of pieces) {
                this.#feed(fed, piece);
                // (a header of many pieces isn't read for each of them)
                if (!this.#picture && fed.byteLength < next) continue;
                next = 1.25 * fed.byteLength;
                this.#picture ??= fed[ask]('beginRows');
                if (this.#picture) yield* this.#arrived(fed);
            }
            this.#picture ??= fed[ask]('beginRows', true);
            fed[ask]('endRows');
            yield* this.#arrived(fed);
        } finally {
            fed.free();
        }
    }

    #feed(fed, piece) {
        try {
            fed.feed(piece);
        } catch (error) {
            throw this.#picture ? afterLines(error, this.#lines) : error;
        }
    }

    /* The lines that are there now. */
    *#arrived(fed) {
        for (let line; (line = this.#nextOf(fed)); ) {
            this.#lines++;
            yield line;
        }
    }

    #nextOf(fed) {
        try {
            return fed[ask]('nextRow');
        } catch (error) {
            throw afterLines(error, this.#lines);
        }
    }
}

/* Whether bytes that follow change nothing of a picture. */
const isFinal = ({ fault }) => fault?.code !== CODES[TRUNCATED];

export class Zaxbriar {
    #module;
    #maxMemory;
    #exports;
    /* How many instances there were. */
    #instances = 0;
    /* Whether the last call into the instance has returned. */
    #isWhole = false;

    constructor(module, options = {}) {
        checkNames(options, DECODER_OPTIONS);
        const { maxMemory = 0 } = options;
        this.#module = module;
        this.#maxMemory = wholeNumber(maxMemory, 2 ** 32, 'maxMemory');
    }

    get memoryBytes() {
        return this.#isWhole ? this.#exports.memory.buffer.byteLength : 0;
    }

    reset() {
        this.#isWhole = false;
        this.#exports = undefined;
    }

    /* Calls the module, whose pointers and sizes are BigInt. A call that doesn't return (a trap, or
     * too deep a stack of the engine's) leaves an instance that is never called again. */
    #call(name, ...words) {
        this.#isWhole = false;
        const result = this.#exports[name](...words);
        this.#isWhole = true;
        return result;
    }

    #start() {
        if (this.#isWhole) return;
        this.#exports = new WebAssembly.Instance(this.#module).exports;
        this.#instances++;
        this.#isWhole = true;
        if (this.#maxMemory) this.#call('zaxbriar_limit_memory', BigInt(this.#maxMemory));
    }

    #bytes(at, count) {
        return new Uint8Array(this.#exports.memory.buffer, at, count);
    }

    /* A function that allocates, one that tells whether the instance in which it does is there, and
     * one that frees all that was allocated. */
    #blocks() {
        this.#start();
        const instance = this.#instances;
        const blocks = [];
        const isThere = () => this.#isWhole && this.#instances === instance;
        const allocate = (size) => {
            const at = Number(this.#call('zaxbriar_malloc', BigInt(size)));
            if (!at) throw new ZaxbriarError(NO_MEMORY, `no memory for ${size} bytes`);
            blocks.push(at);
            return at;
        };
        const free = () => {
            while (blocks.length > 0 && isThere()) {
                this.#call('zaxbriar_free', BigInt(blocks.pop()));
            }
        };
        return { allocate, isThere, free };
    }

    /* Runs `body`, which is given a function that allocates, and frees what that has allocated. */
    #with(body) {
        const { allocate, free } = this.#blocks();
        try {
            return body(allocate);
        } finally {
            free();
        }
    }

    #put(allocate, bytes) {
        const at = allocate(bytes.length);
        this.#bytes(at, bytes.length).set(bytes);
        return at;
    }

    #text(at, most) {
        const bytes = this.#bytes(at, most).slice();
        const end = bytes.indexOf(0);
        return new TextDecoder().decode(end < 0 ? bytes : bytes.subarray(0, end));
    }

    #picture(at) {
        const view = new DataView(this.#exports.memory.buffer, at, PICTURE_BYTES);
        const long = (place) => Number(view.getBigUint64(place, true));
        const layout = view.getUint8(45);
        const transform = view.getUint8(TRANSFORM_AT);
        return {
            width: view.getUint32(32, true),
            height: view.getUint32(36, true),
            size: long(0),
            rowBytes: long(8),
            decodingBytes: long(16),
            streamBytes: long(24),
            pixelBytes: view.getUint8(44),
            layout: nameOf(LAYOUTS, layout),
            components: view.getUint8(46),
            precision: view.getUint8(47),
            sampleBytes: view.getUint8(SAMPLE_BYTES_AT),
            process: PROCESSES[view.getUint8(49)],
            orientation: view.getUint8(50),
            format: FORMATS[view.getUint8(51)],
            sampling: Array.from(this.#bytes(at + SAMPLING_AT, 4).filter(Boolean), factorsOf),
            density: {
                unit: view.getUint8(DENSITY_AT),
                horizontal: view.getUint16(DENSITY_AT + 1, true),
                vertical: view.getUint16(DENSITY_AT + 3, true),
            },
            colorTransform: transform === 0 ? null : nameOf(TRANSFORMS, transform),
        };
    }

    /* The bytes of the planes of a picture that was described. */
    #planesSize(at) {
        const view = new DataView(this.#exports.memory.buffer, at, PICTURE_BYTES);
        return Number(view.getBigUint64(PLANES_SIZE_AT, true));
    }

    /* The planes of such a picture, as views of their samples, which stand one after the other. */
    #planes(at, samples) {
        const view = new DataView(this.#exports.memory.buffer, at, PICTURE_BYTES);
        const Samples = view.getUint8(SAMPLE_BYTES_AT) === 2 ? Uint16Array : Uint8Array;
        const planes = [];
        let start = 0;
        for (let index = 0; index < 4 && start < samples.length; index++) {
            const width = view.getUint16(PLANE_WIDTH_AT + 2 * index, true);
            const height = view.getUint16(PLANE_HEIGHT_AT + 2 * index, true);
            const data = new Samples(samples.buffer, start, width * height);
            start += data.byteLength;
            planes.push({ width, height, data });
        }
        return planes;
    }

    #error(answer, picture) {
        const text = this.#text(picture + TEXT_AT, TEXT_BYTES);
        return new ZaxbriarError(answer, text, this.#bytes(picture + FEATURE_AT, 2));
    }

    #check(answer, picture) {
        if (answer !== OK) throw this.#error(answer, picture);
    }

    /* Reads the header of a stream that lies in the module's memory. */
    #readHeader(stream, picture) {
        this.#check(this.#call('zaxbriar_read_info', ...stream, BigInt(picture)), picture);
    }

    /* The same, and compares maxPixels. */
    #describe(stream, picture, options) {
        this.#readHeader(stream, picture);
        return this.#allowed(picture, options);
    }

    /* A picture that was described, unless it has more than maxPixels. */
    #allowed(picture, options) {
        const described = this.#picture(picture);
        const most = pixelLimit(options);
        if (most && described.width * described.height > most) {
            const size = `${described.width} by ${described.height} pixels`;
            throw new ZaxbriarError(TOO_LARGE, `the picture has ${size}, above ${most}`);
        }
        return described;
    }

    /* Puts a stream and its options into the module's memory, and gives the words of a call. */
    #stream(allocate, jpeg, options, limits) {
        const bytes = bytesOf(jpeg);
        pixelLimit(options);
        const given = optionsOf(options, limits);
        const at = this.#put(allocate, bytes);
        return [at, bytes.length, this.#put(allocate, given)].map(BigInt);
    }

    readInfo(jpeg, options = {}) {
        checkNames(options, OPTIONS);
        return this.#with((allocate) => {
            const stream = this.#stream(allocate, jpeg, options);
            return this.#describe(stream, allocate(PICTURE_BYTES), options);
        });
    }

    decode(jpeg, options = {}) {
        checkNames(options, OPTIONS);
        const isPartial = isSet(options, 'partial');
        return this.#with((allocate) => {
            const stream = this.#stream(allocate, jpeg, options, LIMITS);
            const at = allocate(PICTURE_BYTES);
            const { size } = this.#describe(stream, at, options);
            const taken = { allocate, at, size, hasGaps: options.stride > 0 };
            if (!isPartial) return this.#decoded(taken, 'zaxbriar_decode', ...stream);
            return this.#decodedPart(taken, 'zaxbriar_decode_partial', ...stream);
        });
    }

    /* Decodes by a call of the module, whose first words are given. */
    #decoded({ allocate, at, size, hasGaps }, name, ...words) {
        const pixels = allocate(size);
        // The bytes between lines stay as they are, and blocks are used again.
        if (hasGaps) this.#bytes(pixels, size).fill(0);
        const answer = this.#call(name, ...words, ...[pixels, size, at].map(BigInt));
        if (answer !== PARTIAL) this.#check(answer, at);
        // (engines fill what `slice` gives with zeros first, which takes as long as the copy)
        const view = new Uint8ClampedArray(this.#exports.memory.buffer, pixels, size);
        return { picture: this.#picture(at), pixels: new Uint8ClampedArray(view) };
    }

    /* The same as far as a stream goes, with its fault. */
    #decodedPart(taken, name, ...words) {
        const decoded = this.#decoded(taken, name, ...words);
        const struct = new DataView(this.#exports.memory.buffer, taken.at, PICTURE_BYTES);
        const wholeRows = struct.getUint32(WHOLE_ROWS_AT, true);
        const fault = struct.getUint8(FAULT_AT);
        return { ...decoded, wholeRows, fault: fault ? this.#error(fault, taken.at) : null };
    }

    decodePlanes(jpeg, options = {}) {
        checkNames(options, PLANES_OPTIONS);
        return this.#with((allocate) => {
            const stream = this.#stream(allocate, jpeg, options, LIMITS);
            const at = allocate(PICTURE_BYTES);
            this.#describe(stream, at, options);
            const size = this.#planesSize(at);
            const samples = allocate(size);
            const words = [samples, size, at].map(BigInt);
            this.#check(this.#call('zaxbriar_decode_planes', ...stream, ...words), at);
            const planes = this.#planes(at, this.#bytes(samples, size).slice());
            return { picture: this.#picture(at), planes };
        });
    }

    rows(jpeg, options = {}) {
        if (typeof jpeg === 'object' && !isBytes(jpeg)) return this.#arrivingRows(jpeg, options);
        checkNames(options, ROWS_OPTIONS);
        const { allocate, isThere, free } = this.#blocks();
        try {
            const stream = this.#stream(allocate, jpeg, options, LIMITS);
            const at = allocate(PICTURE_BYTES);
            const { rowBytes } = this.#describe(stream, at, options);
            const line = allocate(rowBytes);
            const handle = allocate(8);
            const begun = this.#call('zaxbriar_rows_new', ...stream, ...[handle, at].map(BigInt));
            this.#check(begun, at);
            const view = new DataView(this.#exports.memory.buffer);
            const rows = view.getBigUint64(handle, true);
            const read = () => {
                checkThere(isThere);
                return this.#nextRow('rows', rows, line, rowBytes, at);
            };
            const end = () => {
                if (isThere()) this.#call('zaxbriar_rows_free', rows);
                free();
            };
            return new Rows(this.#picture(at), read, end);
        } catch (error) {
            free();
            throw error;
        }
    }

    /* The lines of a stream, while it arrives. */
    #arrivingRows(stream, options) {
        const own = ownOptions(options, ARRIVING_OPTIONS);
        checkValues(own);
        return new ArrivingRows(stream, () => this.#fed(own));
    }

    /* The next line, outside the module's memory, by the calls of `kind`; null: there is none now,
     * or the stream is whole. The picture at `at` is told of a refusal. */
    #nextRow(kind, rows, line, size, at) {
        const answer = this.#call(`zaxbriar_${kind}_next`, rows, BigInt(line), BigInt(size));
        if (answer === END || answer === WAITING) return null;
        if (answer !== OK) {
            this.#call(`zaxbriar_${kind}_refusal`, rows, BigInt(at));
            throw this.#error(answer, at);
        }
        return this.#bytes(line, size).slice();
    }

    feed(options = {}) {
        const own = ownOptions(options, FED_OPTIONS);
        checkValues(own);
        return this.#fed(own);
    }

    /* Begins to take a stream, by options that were checked. */
    #fed(own) {
        const { allocate, isThere, free } = this.#blocks();
        try {
            const at = allocate(PICTURE_BYTES);
            const fed = this.#beginFed(allocate, at, optionsOf(own, LIMITS));
            const ifThere = (call) => (words) => {
                checkThere(isThere);
                return call(words);
            };
            let line = 0;
            let rowBytes = 0;
            const beginRows = (isLast) => {
                const picture = this.#fedInfo(fed, at, own, isLast, 'zaxbriar_fed_rows');
                if (!picture) return null;
                ({ rowBytes } = picture);
                line = allocate(rowBytes);
                return picture;
            };
            const calls = {
                feed: ifThere((bytes) => this.#feed(fed, bytes)),
                info: ifThere(() => this.#fedInfo(fed, at, own)),
                show: ifThere(() => this.#fedShow(fed, at, own)),
                beginRows: ifThere(beginRows),
                nextRow: ifThere(() => this.#nextRow('fed', fed, line, rowBytes, at)),
                endRows: ifThere(() => this.#call('zaxbriar_fed_end', fed)),
            };
            const end = () => {
                if (isThere()) this.#call('zaxbriar_fed_free', fed);
                free();
            };
            return new Fed(calls, end);
        } catch (error) {
            free();
            throw error;
        }
    }

    /* Begins to take a stream, and gives what its calls take. */
    #beginFed(allocate, at, given) {
        const [options, handle] = [this.#put(allocate, given), allocate(8)].map(BigInt);
        const answer = this.#call('zaxbriar_fed_new', options, handle);
        // (the text for options that don't exist is the one that a stream of no bytes gets)
        if (answer !== OK && answer !== NO_MEMORY) this.#readHeader([0n, 0n, options], at);
        if (answer !== OK) throw this.#named(answer);
        return new DataView(this.#exports.memory.buffer).getBigUint64(Number(handle), true);
    }

    #feed(fed, bytes) {
        this.#with((allocate) => {
            const piece = [this.#put(allocate, bytes), bytes.length].map(BigInt);
            const answer = this.#call('zaxbriar_fed_feed', fed, ...piece);
            if (answer !== OK) throw this.#named(answer);
        });
    }

    /* The picture of a stream that is fed; null: its header isn't there yet, and may come. */
    #fedInfo(fed, at, options, isLast = false, name = 'zaxbriar_fed_info') {
        const answer = this.#call(name, fed, BigInt(at));
        if (answer === TRUNCATED && !isLast) return null;
        this.#check(answer, at);
        return this.#allowed(at, options);
    }

    #fedShow(fed, at, options) {
        this.#check(this.#call('zaxbriar_fed_info', fed, BigInt(at)), at);
        const { size } = this.#allowed(at, options);
        return this.#with((allocate) => {
            const taken = { allocate, at, size, hasGaps: options.stride > 0 };
            return this.#decodedPart(taken, 'zaxbriar_fed_show', fed);
        });
    }

    showStream(stream, options = {}) {
        const { growth = 2, ...own } = ownOptions(options, [...FED_OPTIONS, 'growth']);
        if (typeof growth !== 'number' || !(growth > 1)) {
            throw new RangeError(`growth: a number above 1, not ${growth}`);
        }
        checkValues(own);
        return this.#shown(piecesOf(stream), own, growth);
    }

    /* The picture of a stream each time that it has grown, and the one of all of it. */
    async *#shown(pieces, options, growth) {
        const fed = this.feed(options);
        let next = 0;
        let shown = -1;
        try {
            for await (const piece of pieces) {
                fed.feed(piece);
                if (fed.byteLength < next) continue;
                // (a header of many pieces isn't read for each of them)
                next = growth * fed.byteLength;
                if (!fed.info()) continue;
                const picture = fed.show();
                shown = fed.byteLength;
                yield picture;
                if (isFinal(picture)) return;
            }
            if (fed.byteLength > shown) yield fed.show();
        } finally {
            fed.free();
        }
    }

    /* The error of an answer to a call that gives no other text. */
    #named(answer) {
        const name = Number(this.#call('zaxbriar_answer_name', answer));
        return new ZaxbriarError(answer, this.#text(name, 64));
    }

    /* Returns the data that a call of the module copies, or null. `kind` are its words between
     * those of the stream and those of the memory for the data. */
    #copied(jpeg, name, ...kind) {
        return this.#with((allocate) => {
            const bytes = bytesOf(jpeg);
            const stream = [this.#put(allocate, bytes), bytes.length].map(BigInt);
            const length = allocate(8);
            const copy = (...room) =>
                this.#call(name, ...stream, ...kind, ...[...room, length].map(BigInt));
            const found = () =>
                Number(new DataView(this.#exports.memory.buffer).getBigUint64(length, true));
            let answer = copy(0, 0);
            let data = 0;
            if (answer === NO_ROOM) {
                data = allocate(found());
                answer = copy(data, found());
            }
            if (answer === NO_DATA) return null;
            // (a fault of the stream is one of its header, which the other calls name)
            if (answer !== OK && answer <= TRUNCATED) {
                this.#readHeader([...stream, 0n], allocate(PICTURE_BYTES));
            }
            if (answer !== OK) throw this.#named(answer);
            return this.#bytes(data, found()).slice();
        });
    }

    metadata(jpeg, kind) {
        return this.#copied(jpeg, 'zaxbriar_metadata', numberOf(KINDS, kind, 'kind'));
    }

    joinedMetadata(jpeg, kind) {
        const number = numberOf(JOINED_KINDS, kind, 'kind');
        return this.#copied(jpeg, 'zaxbriar_joined_metadata', 0n, number);
    }

    get version() {
        this.#start();
        const version = this.#call('zaxbriar_version');
        return `${version >> 16}.${(version >> 8) & 255}.${version & 255}`;
    }
}
