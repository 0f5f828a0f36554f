/* node suite.mjs: the streams of tests/decoder by the module, whose answers have to be
 * those of the suite: pictures, refusals with their texts and features, the parts of streams before
 * a fault, the lines before one, sizes at scales, metadata, bytes left unread.
 *
 * Not asked is what the calls of JavaScript don't have: the original crate's limit, decoding into a
 * caller's memory, the transforms that bindings/c/zaxbriar.h has no number for, the transform of a
 * stream apart from an option's, and all that stands after such a call or after the picture, but
 * for the bytes left unread. */
import { ZaxbriarError, load } from '../dist/node.mjs';
import { allCases, bytesOf } from './cases.mjs';

const zaxbriar = await load();
const FORMATS = { grey8: 'L8', grey16: 'L16', rgb: 'RGB24', cmyk: 'CMYK32' };
const TRANSFORMS = { None: 'none', RGB: 'rgb', YCbCr: 'ycbcr', CMYK: 'cmyk', YCCK: 'ycck' };
const FEATURES = {
    Hierarchical: 'hierarchical',
    ArithmeticEntropyCoding: 'arithmetic',
    SamplePrecision: 'precision',
    ComponentCount: 'components',
    DNL: 'dnl',
    NonIntegerSubsamplingRatio: 'factors',
    ColorTransform: 'transform',
};
const GAMUTS = { JcsBgYcc: 6, JcsBgRgb: 7 };
const PROCESSES = {
    sequential: 'DctSequential',
    progressive: 'DctProgressive',
    lossless: 'Lossless',
};
const sizeOf = ({ width, height }) => `${width} ${height}`;

/* What a call gives, or the text of its refusal. */
function outcome(call) {
    try {
        return { value: call() };
    } catch (error) {
        if (!(error instanceof ZaxbriarError)) throw error;
        return { refused: error.message, error };
    }
}

const KINDS = [
    ['MALFORMED', 'refused: invalid JPEG format'],
    ['UNSUPPORTED', 'refused: unsupported JPEG feature: '],
    ['TRUNCATED', 'refused: the file ends too soon'],
];

/* Whether an error has the feature that an answer names, and its number; or neither. */
function isOfFeature({ feature, featureArgument }, answer) {
    const [, name, word] = /JPEG feature: (\w+)(?:\((\w+)\))?$/.exec(answer) ?? [];
    const number = word && (GAMUTS[word] ?? Number(word));
    return feature === FEATURES[name] && featureArgument === number;
}

/* Whether a refusal is of the kind of an answer, and has its words, of which 111 bytes are kept. */
function isRefusal({ refused, error }, answer, isWhole) {
    const [kind] = KINDS.find(([, text]) => answer.startsWith(text)) ?? [];
    const text = answer.slice('refused: '.length);
    const kept = Buffer.from(text).subarray(0, 111).toString();
    const isText = isWhole ? refused === kept : refused.startsWith(kept);
    return error.code === kind && isText && isOfFeature(error, answer);
}

function isPicture({ picture, pixels }, answer) {
    const [width, height, format, ...words] = answer.split(' ');
    return (
        sizeOf(picture) === `${width} ${height}` &&
        FORMATS[picture.format] === format &&
        bytesOf(words.join(' ')).equals(Buffer.from(pixels.buffer))
    );
}

/* Whether the part of a stream is that of an answer, and its rows and its fault too. */
function isPartial({ picture, pixels, wholeRows, fault }, answer) {
    const [, whole, rows, name] = answer.match(/^(.*), rows (\d+), fault (.*)$/s);
    const isFault = fault
        ? isRefusal({ refused: fault.message, error: fault }, `refused: ${name}`, false)
        : name === 'none';
    return isFault && wholeRows === Number(rows) && isPicture({ picture, pixels }, whole);
}

/* The lines of a picture, and why there are no more; or why there are none. */
function linesOf(stream, options) {
    const { value: rows, ...refused } = outcome(() => zaxbriar.rows(stream, options));
    if (!rows) return { ...refused, lines: [] };
    const lines = [];
    const { error } = outcome(() => {
        for (const line of rows) lines.push(line);
    });
    if (error && error.lines !== lines.length) throw new Error(`${error.lines} lines?`);
    return { picture: rows.picture, lines, error };
}

/* Whether lines, and the kind of a refusal after them, are those of an answer. */
function isRows({ picture, lines, error }, answer) {
    const pixels = Buffer.concat(lines);
    if (!error) return isPicture({ picture, pixels: new Uint8ClampedArray(pixels) }, answer);
    const [, text, count, words] = answer.match(/^(refused: .*?)(?:, lines (\d+)(.*))?$/s) ?? [];
    const [code] = KINDS.find(([, kind]) => text?.startsWith(kind)) ?? [];
    const isSame = lines.length === Number(count ?? 0) && pixels.equals(bytesOf(words ?? ''));
    return error.code === code && isSame;
}

function isMetadata(found, answer) {
    if (found === null) return answer === 'none';
    const [count, , ...words] = answer.split(' ');
    return found.length === Number(count) && bytesOf(words.join(' ')).equals(found);
}

/* The answers to one case, call by call: [call, answer, whether it is right]; null: not asked. */
function* answered({ stream, calls, answers: line }) {
    const answers = line.split('; ');
    let options = {};
    let decoded = null;
    let isRead = false;
    for (const [call, ...words] of calls) {
        if (call === 'transform' && TRANSFORMS[words[0]] && !decoded && !isRead) {
            options.colorTransform = TRANSFORMS[words[0]];
            continue;
        }
        if (call === 'luma') {
            options.luma = true;
            continue;
        }
        if (call === 'cuts') {
            yield* cuts(stream, answers);
            return;
        }
        if (call === 'transform' || call === 'limit' || call === 'into') {
            yield [call, null, null];
            return;
        }
        const answer = answers.shift();
        if (call === 'planes') {
            yield [call, answer, null];
            return;
        }
        if (call === 'decode' || call === 'refusal') {
            if (decoded) {
                yield [call, answer, null];
                return;
            }
            decoded = outcome(() => zaxbriar.decode(stream, options));
            const isRight = decoded.value
                ? isPicture(decoded.value, answer)
                : isRefusal(decoded, answer, call === 'refusal');
            yield [call, answer, isRight];
        } else if (call === 'rows') {
            // (lines have no luma alone)
            if (decoded || options.luma) {
                yield [call, answer, null];
                return;
            }
            decoded = linesOf(stream, options);
            yield [call, answer, isRows(decoded, answer)];
        } else if (call === 'partial') {
            if (decoded) {
                yield [call, answer, null];
                return;
            }
            decoded = outcome(() => zaxbriar.decode(stream, { ...options, partial: true }));
            const isRight = decoded.value
                ? isPartial(decoded.value, answer)
                : isRefusal(decoded, answer, false);
            yield [call, answer, isRight];
        } else if (call === 'rest') {
            const left = decoded?.value && stream.length - decoded.value.picture.streamBytes;
            yield [call, answer, decoded?.value ? Number(answer) === left : null];
        } else if (decoded) {
            yield [call, answer, null];
        } else if (call === 'scale' || call === 'at') {
            const [width, height] = words.map(Number);
            options =
                call === 'scale'
                    ? { ...options, scale: 0, minWidth: width, minHeight: height }
                    : { ...options, scale: Number(words[0].split('/')[1] ?? 1) };
            const read = outcome(() => zaxbriar.readInfo(stream, options));
            if (!read.value) {
                yield [call, answer, isRefusal(read, answer, false)];
                return;
            }
            yield [call, answer, sizeOf(read.value) === answer];
        } else if (call === 'header') {
            const read = outcome(() => zaxbriar.readInfo(stream, options));
            isRead = Boolean(read.value);
            yield [call, answer, isRead ? answer === 'ok' : isRefusal(read, answer, false)];
            if (!isRead) return;
        } else if (!isRead || call === 'stream_transform') {
            yield [call, answer, null];
        } else if (call === 'info') {
            const picture = zaxbriar.readInfo(stream, options);
            const bytes = answer.split(' bytes ')[1].split(' ');
            const format = FORMATS[picture.format];
            const found = `${sizeOf(picture)} ${format} ${PROCESSES[picture.process]}`;
            const isSame =
                answer.startsWith(`${found}, precision ${picture.precision},`) &&
                picture.size === Number(bytes[2]);
            yield [call, answer, isSame];
        } else if (call === 'orientation') {
            const told = answer === 'none' ? 1 : Number(answer);
            yield [call, answer, zaxbriar.readInfo(stream).orientation === told];
        } else {
            yield [call, answer, isMetadata(zaxbriar.metadata(stream, call), answer)];
        }
    }
}

/* Each beginning of a stream has the answer that stands last before its length. */
function* cuts(stream, answers) {
    const parts = answers.map((it) => it.match(/^from (\d+) bytes (.*)$/s).slice(1));
    for (let length = 0; length < stream.length; length++) {
        const [, answer] = parts.filter(([from]) => Number(from) <= length).at(-1);
        const decoded = outcome(() => zaxbriar.decode(stream.subarray(0, length)));
        yield ['cut', answer, !decoded.value && isRefusal(decoded, answer, false)];
    }
}

const counts = {};
let wrong = 0;
for (const one of allCases()) {
    for (const [call, answer, isRight] of answered(one)) {
        const count = (counts[call] ??= { right: 0, notAsked: 0 });
        if (isRight === null) count.notAsked++;
        else if (isRight) count.right++;
        else {
            wrong++;
            console.error(`WRONG: ${one.file}, ${one.name}: ${call}: ${answer.slice(0, 80)}`);
        }
    }
}
const right = Object.values(counts).reduce((sum, count) => sum + count.right, 0);
const by = Object.entries(counts).map(([call, count]) => `${call} ${count.right}`);
const notAsked = Object.values(counts).reduce((sum, count) => sum + count.notAsked, 0);
console.log(`suite: ${right} answers are right (${by.join(', ')}); ${notAsked} not asked`);
if (wrong) {
    console.error(`suite: ${wrong} answers are wrong`);
    process.exitCode = 1;
}
