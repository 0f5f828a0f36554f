/* What a refusal means, for people: which format a file has that is no JPEG file, each fault in a
 * sentence, and how much of a picture in part is complete. */

/* Formats by their first bytes, as a pattern of these as Latin-1 characters. */
const FORMATS = [
    [/^\x89PNG/, 'a PNG file'],
    [/^GIF8/, 'a GIF file'],
    [/^RIFF....WEBP/s, 'a WebP file'],
    [/^....ftypavi[fs]/s, 'an AVIF file'],
    [/^....ftyp(hei|hev|mif1)/s, 'an HEIC file'],
    [/^....ftyp/s, 'a video file'],
    [/^(II\*\0|MM\0\*)/, 'a TIFF file, or one of a camera'],
    [/^BM/, 'a BMP file'],
    [/^(\xff\x0a|\0\0\0\x0cJXL )/, 'a JPEG XL file'],
    [/^(\xff\x4f\xff\x51|\0\0\0\x0cjP {2})/, 'a JPEG 2000 file'],
    [/^\xff\xd8\xff\xf7/, 'a JPEG-LS file'],
    [/^%PDF/, 'a PDF file'],
    [/^PK\x03\x04/, 'a ZIP file'],
    [/^(\xef\xbb\xbf)?\s*<(!doctype html|html)/i, 'a web page'],
    [/^(\xef\xbb\xbf)?\s*<(\?xml|svg)/i, 'an SVG or XML file'],
];
const MOST_BYTES = 64;

/* Names the format of a file that isn't a JPEG file, or gives null. */
export function formatOf(bytes) {
    const start = String.fromCharCode(...bytes.subarray(0, MOST_BYTES));
    const [, name] = FORMATS.find(([pattern]) => pattern.test(start)) ?? [];
    if (name) return name;
    return /^\xff\xd8/.test(start) ? null : 'another kind of file';
}

/* What a file needs that the decoder doesn't have, some with a number. */
const FEATURES = {
    hierarchical: () => 'several pictures that refine each other (hierarchical coding)',
    arithmetic: () => 'arithmetic coding, which hardly any program reads',
    precision: (bits) => `samples of ${bits} bits in lossy coding`,
    components: (count) => `${count} colour components`,
    dnl: () => 'a number of lines that comes after the picture',
    factors: () => "sampling factors that don't divide each other",
    transform: () => "the colours of libjpeg's big gamut",
};
const FAULTS = {
    MALFORMED: 'The file is damaged, or it breaks a rule of JPEG.',
    TRUNCATED: 'The file ends too soon: a part of it is missing.',
    TOO_MANY_PASSES: 'The file goes over its picture again and again: a part is left out.',
    NO_MEMORY: 'The picture is too large for this page.',
    TOO_LARGE: 'The picture is too large for this page.',
    'NOT SHOWN': 'The picture is too large for this browser to show.',
    FAILED: "The decoder didn't run to its end.",
};

/* Says in a sentence why a file isn't shown, or only in part. */
export function sentenceOf({ fault, feature, featureArgument }, bytes) {
    if (bytes?.length === 0) return 'The file is empty.';
    const isRead = fault === 'MALFORMED' || fault === 'TRUNCATED';
    const format = isRead && bytes ? formatOf(bytes) : null;
    if (format) return `This is ${format}, not a JPEG file.`;
    if (fault !== 'UNSUPPORTED') return FAULTS[fault] ?? 'The file was refused.';
    const needed = FEATURES[feature]?.(featureArgument) ?? 'what this decoder lacks';
    return `This JPEG file needs ${needed}.`;
}

/* How many rows of a picture in part are complete. The file stores them in this order, and an
 * orientation above 2 exchanges or reverses them. */
export function rowsText({ picture: { height, orientation, process }, wholeRows }) {
    if (wholeRows === 0) return 'No row is complete.';
    // (a progressive picture may lack whole scans)
    const soFar = process === 'progressive' ? ' in the scans so far' : '';
    if (wholeRows === height) return `All rows are complete${soFar}.`;
    const rows =
        wholeRows === 1
            ? `The first of ${height} rows is complete`
            : `The first ${wholeRows} of ${height} rows are complete`;
    const turned = orientation > 2 ? ', before the picture is turned' : '';
    return `${rows}${soFar}${turned}.`;
}
