/* node compare.mjs NATIVE FOLDER [FILE..]: the module beside the native library, whose program
 * NATIVE is of native.c: every stream of tests/decoder, each beginning of those of
 * `cuts`, the files that are named, and damaged ones of all, which have an orientation, with each
 * list of options below. Answers, descriptions, texts, pixels and metadata have to be the same.
 * FOLDER takes the stream that is compared. */
import { spawnSync } from 'node:child_process';
import { readFileSync, writeFileSync } from 'node:fs';
import { ZaxbriarError, load } from '../dist/node.mjs';
import { allCases } from './cases.mjs';
import { withOrientation } from './turned.mjs';

const [native, folder, ...files] = process.argv.slice(2);
const zaxbriar = await load();
const MOST_SIZE = 2 ** 28;
const MOST_PART = 2 ** 26;
const MOST_BYTES = 400000000;
const LAYOUTS = ['stored', 'grey', 'rgb', 'rgba', 'bgra', 'bgr', 'xrgb', 'abgr', 'rgb565'];
LAYOUTS.push('grey16', 'rgb16');
const TRANSFORMS = ['stream', 'none', 'rgb', 'ycbcr', 'cmyk', 'ycck'];
const PROCESSES = ['', 'sequential', 'progressive', 'lossless'];
const FORMATS = ['', 'grey8', 'grey16', 'rgb', 'cmyk'];
const FEATURES = ['', 'hierarchical', 'arithmetic', 'precision', 'components', 'dnl'];
FEATURES.push('subsampling', 'factors', 'transform');
const NUMBERED = [3, 4, 8];
const CODES = ['', 'MALFORMED', 'UNSUPPORTED', 'TRUNCATED', 'NO_MEMORY', 'NO_ROOM', 'BAD_ARGUMENT'];
CODES.push('NO_DATA', 'TOO_LARGE', 'PARTIAL', 'TOO_MANY_PASSES');
const PARTIAL = 9;

const ALL_OPTIONS = [
    {},
    ...LAYOUTS.slice(1).map((layout) => ({ layout })),
    { scale: 1, layout: 'bgra', stride: 300 },
    { bottomUp: true },
    { layout: 'rgb', stride: 300, bottomUp: true },
    { layout: 'abgr', scale: 8, bottomUp: true },
    { layout: 'rgb565', scale: 2, stride: 301, bottomUp: true },
    { upright: true },
    { layout: 'rgba', upright: true, minWidth: 3 },
    { layout: 'rgb', stride: 300, bottomUp: true, upright: true },
    { layout: 'grey16', scale: 2, upright: true },
    { colorTransform: 'none', upright: true },
    { luma: true },
    { luma: true, layout: 'rgba', scale: 2 },
    { luma: true, layout: 'rgb565', upright: true, stride: 300, bottomUp: true },
    { luma: true, colorTransform: 'ycbcr', minWidth: 3 },
    { crop: { width: 3, height: 2 } },
    { crop: { left: 1, top: 5, width: 2, height: 3 }, upright: true, layout: 'rgb' },
    { crop: { left: 5, top: 1, width: 2, height: 2 }, luma: true, stride: 300, bottomUp: true },
    { crop: { left: 2, width: 1, height: 1 }, scale: 2, upright: true, layout: 'grey16' },
    { crop: { width: 1, height: 1 }, colorTransform: 'none' },
    { within: { width: 3 } },
    { within: { width: 7, height: 4 }, upright: true, layout: 'rgb' },
    { within: { height: 5 }, layout: 'rgb16', stride: 300, bottomUp: true },
    { within: { width: 5 }, luma: true, upright: true },
    { within: { width: 5 }, scale: 2, layout: 'bgr' },
    { within: { width: 3, height: 2 }, crop: { left: 2, width: 5, height: 3 }, upright: true },
    { within: { width: 5 }, colorTransform: 'none' },
    { layout: 'grey16', stride: 300, minWidth: 3 },
    { layout: 'rgb16', scale: 4, stride: 301 },
    { scale: 2 },
    { scale: 4, layout: 'rgb' },
    { scale: 8, layout: 'rgba' },
    { scale: 3 },
    { minWidth: 3, minHeight: 5 },
    { minWidth: 9 },
    { colorTransform: 'none' },
    { colorTransform: 'none', scale: 2, stride: 300 },
    { colorTransform: 'none', bottomUp: true },
    { colorTransform: 'none', layout: 'rgb' },
    { colorTransform: 'none', layout: 'rgb16' },
    { colorTransform: 'rgb' },
    { colorTransform: 'ycbcr', layout: 'rgba' },
    { colorTransform: 'cmyk' },
    { colorTransform: 'cmyk', layout: 'rgb16', bottomUp: true },
    { colorTransform: 'ycck' },
    { colorTransform: 'ycck', layout: 'rgb565' },
    { maxBytes: 1000 },
    { maxPasses: 1 },
    { maxPasses: 2, layout: 'grey' },
].map((options) => ({ maxBytes: MOST_BYTES, maxPasses: 0, ...options }));

const lineOf = (options) =>
    [
        LAYOUTS.indexOf(options.layout ?? 'stored'),
        options.scale ?? 0,
        TRANSFORMS.indexOf(options.colorTransform ?? 'stream'),
        options.minWidth ?? 0,
        options.minHeight ?? 0,
        options.stride ?? 0,
        options.bottomUp ? 1 : 0,
        options.maxBytes,
        options.maxPasses,
        options.upright ? 1 : 0,
        options.luma ? 1 : 0,
        ...['left', 'top', 'width', 'height'].map((name) => options.crop?.[name] ?? 0),
        ...['width', 'height'].map((name) => options.within?.[name] ?? 0),
    ].join(' ');
const INPUT = ALL_OPTIONS.map((options) => `${lineOf(options)}\n`).join('');

/* What the native program wrote, read from its start. */
class Written {
    constructor(bytes) {
        this.bytes = bytes;
        this.at = 0;
    }

    take(size) {
        this.at += size;
        return this.bytes.subarray(this.at - size, this.at);
    }

    int() {
        return this.take(4).readInt32LE();
    }

    long() {
        return Number(this.take(8).readBigUInt64LE());
    }

    /* A description, or a refusal; for PARTIAL a description, and the fault after it. */
    description(answer) {
        const struct = this.take(320);
        if (answer && answer !== PARTIAL) return refusalOf(answer, struct);
        const described = pictureOf(struct) + rowsText(struct.readUInt32LE(40));
        return answer ? described + refusalOf(struct[58], struct) : described;
    }
}

/* How many rows of a picture in part are complete, if any are. */
const rowsText = (rows = 0) => (rows ? ` with ${rows} rows` : '');

/* A picture, as the module describes it. */
function pictureOf(struct) {
    const long = (place) => Number(struct.readBigUInt64LE(place));
    return JSON.stringify({
        width: struct.readUInt32LE(32),
        height: struct.readUInt32LE(36),
        size: long(0),
        rowBytes: long(8),
        decodingBytes: long(16),
        streamBytes: long(24),
        pixelBytes: struct[44],
        layout: LAYOUTS[struct[45]],
        components: struct[46],
        precision: struct[47],
        sampleBytes: struct[48],
        process: PROCESSES[struct[49]],
        orientation: struct[50],
        format: FORMATS[struct[51]],
        sampling: [...struct.subarray(54, 58).filter(Boolean)].map((byte) => ({
            horizontal: byte >> 4,
            vertical: byte % 16,
        })),
        density: {
            unit: struct[59],
            horizontal: struct.readUInt16LE(60),
            vertical: struct.readUInt16LE(62),
        },
        colorTransform: struct[64] === 0 ? null : TRANSFORMS[struct[64]],
    });
}

/* A refusal as a text: its code, the feature and its number where there are, and its text. */
const words = (code, feature, argument, text) =>
    [code, feature, argument, text].filter((word) => word !== undefined).join(' ');

/* The refusal of an answer and its struct. */
function refusalOf(answer, struct) {
    const [feature, argument] = struct.subarray(52);
    const text = struct.subarray(208);
    return words(
        CODES[answer],
        feature ? FEATURES[feature] : undefined,
        NUMBERED.includes(feature) ? argument : undefined,
        text.subarray(0, text.indexOf(0)),
    );
}

const refusedBy = (error) =>
    words(error.code, error.feature, error.featureArgument, error.message);

/* What a call gives, or its refusal. */
function outcome(call) {
    try {
        return call();
    } catch (error) {
        if (!(error instanceof ZaxbriarError)) throw error;
        return refusedBy(error);
    }
}

const counts = { streams: 0, pictures: 0, partial: 0, refusals: 0, metadata: 0, bytes: 0 };
counts.different = 0;

function differs(name, what, mine, theirs) {
    counts.different++;
    if (counts.different <= 20) {
        console.error(`DIFFERENT: ${name}: ${what}: ${mine} | ${theirs}`.slice(0, 400));
    }
}

function compareDecoding(name, what, jpeg, options, written) {
    const answer = written.int();
    const described = written.description(answer);
    const pixels = written.take(written.long());
    const mine = outcome(() => zaxbriar.decode(jpeg, options));
    const fault = mine.fault ? refusedBy(mine.fault) : '';
    const told =
        typeof mine === 'string'
            ? mine
            : JSON.stringify(mine.picture) + rowsText(mine.wholeRows) + fault;
    if (told !== described) {
        differs(name, what, told, described);
    } else if (typeof mine === 'string') {
        counts.refusals++;
    } else if (!pixels.equals(Buffer.from(mine.pixels.buffer))) {
        differs(name, what, 'pixels', 'other pixels');
    } else {
        if (fault) counts.partial++;
        else counts.pictures++;
        counts.bytes += pixels.length;
    }
}

/* Metadata, of which a refusal is that of the header, `read`. */
function compareMetadata(name, kind, { jpeg, read }, written) {
    const answer = written.int();
    const data = written.take(written.long());
    const mine = outcome(() => zaxbriar.metadata(jpeg, kind));
    const told = typeof mine === 'string' ? mine : mine && Buffer.from(mine);
    const isSame = Buffer.isBuffer(told)
        ? answer === 0 && data.equals(told)
        : CODES[answer] === (told?.split(' ')[0] ?? 'NO_DATA') && (told === null || told === read);
    if (isSame) counts.metadata += data.length > 0;
    else differs(name, kind, told, CODES[answer]);
}

function compare(name, jpeg) {
    const path = `${folder}/stream.jpg`;
    writeFileSync(path, jpeg);
    const ran = spawnSync(native, [path], { input: INPUT, maxBuffer: 2 ** 31 });
    if (ran.status !== 0) throw new Error(`${name}: ${native}: ${ran.status} ${ran.error}`);
    const written = new Written(ran.stdout);
    counts.streams++;
    const whole = outcome(() => zaxbriar.readInfo(jpeg));
    // (a part takes the coefficients of the full size, for which the module's memory has no room)
    const hasPart = whole.size <= MOST_PART;
    for (const options of ALL_OPTIONS) {
        const what = JSON.stringify(options);
        const described = written.description(written.int());
        const read = outcome(() => zaxbriar.readInfo(jpeg, options));
        const told = typeof read === 'string' ? read : JSON.stringify(read);
        if (told !== described) differs(name, what, told, described);
        if (!described.startsWith('{')) counts.refusals++;
        else if (JSON.parse(described).size <= MOST_SIZE) {
            compareDecoding(name, what, jpeg, options, written);
            if (hasPart) {
                const partly = { ...options, partial: true };
                compareDecoding(name, `${what}, in part`, jpeg, partly, written);
            }
        }
    }
    for (const kind of ['exif', 'xmp', 'icc']) {
        compareMetadata(name, kind, { jpeg, read: whole }, written);
    }
    if (written.at !== ran.stdout.length) throw new Error(`${name}: more was written`);
}

let seed = 1;
const random = (below) => {
    seed = (Math.imul(seed, 1103515245) + 12345) >>> 0;
    return Math.floor((seed / 2 ** 32) * below);
};

/* A stream with an orientation, and up to four bytes of another value. */
function damaged(jpeg) {
    const bytes = withOrientation(jpeg, 1 + random(8));
    for (let left = 1 + random(4); left > 0 && bytes.length; left--) {
        bytes[random(bytes.length)] = random(256);
    }
    return bytes;
}

for (const { file, name, stream, calls } of allCases()) {
    const label = `${file}, ${name}`;
    compare(label, stream);
    if (calls[0]?.[0] === 'cuts') {
        for (let length = 0; length < stream.length; length++) {
            compare(`${label}, ${length} bytes`, stream.subarray(0, length));
        }
    } else {
        compare(`${label}, damaged`, damaged(stream));
    }
}
for (const file of files) {
    const jpeg = readFileSync(file);
    compare(file, jpeg);
    for (let index = 0; index < 20; index++) compare(`${file}, damaged`, damaged(jpeg));
}
const { streams, pictures, partial, refusals, metadata, bytes, different } = counts;
console.log(
    `compared: ${streams} streams by ${ALL_OPTIONS.length} lists of options: ${pictures} pictures` +
        ` and ${partial} in part, of ${bytes} bytes, ${refusals} refusals,` +
        ` ${metadata} metadata; ${different} different`,
);
process.exitCode = different ? 1 : 0;
