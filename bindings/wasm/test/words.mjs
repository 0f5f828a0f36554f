/* node words.mjs: what the page says of files that it doesn't show, or only in part: formats by
 * their first bytes, a sentence for each fault, and the rows that are complete. */
import assert from 'node:assert/strict';
import { readFileSync } from 'node:fs';
import { formatOf, rowsText, sentenceOf } from '../web/words.mjs';

const bytesOf = (text) => Buffer.from(text, 'latin1');
const FORMATS = {
    '\x89PNG\r\n\x1a\n': 'a PNG file',
    GIF89a: 'a GIF file',
    'RIFF\n\x00\x00\x00WEBPVP8 ': 'a WebP file',
    'RIFF\n\x00\x00\x00AVI LIST': 'another kind of file',
    '\x00\x00\x00\x1cftypavif': 'an AVIF file',
    '\x00\x00\x00\x18ftypheic': 'an HEIC file',
    '\x00\x00\x00\x18ftypisom': 'a video file',
    'II*\x00': 'a TIFF file, or one of a camera',
    'MM\x00*': 'a TIFF file, or one of a camera',
    BM: 'a BMP file',
    '\xff\x0a': 'a JPEG XL file',
    '\x00\x00\x00\x0cJXL \r\n\x87\n': 'a JPEG XL file',
    '\x00\x00\x00\x0cjP  \r\n\x87\n': 'a JPEG 2000 file',
    '\xff\x4f\xff\x51': 'a JPEG 2000 file',
    '\xff\xd8\xff\xf7': 'a JPEG-LS file',
    '%PDF-1.7': 'a PDF file',
    'PK\x03\x04': 'a ZIP file',
    '\n<!DOCTYPE html><title>Not found': 'a web page',
    '<html lang="en">': 'a web page',
    '\xef\xbb\xbf<?xml version="1.0"?>': 'an SVG or XML file',
    '<svg xmlns=': 'an SVG or XML file',
    'Not found': 'another kind of file',
};
for (const [start, format] of Object.entries(FORMATS)) {
    assert.equal(formatOf(bytesOf(start)), format, start);
    for (const fault of ['MALFORMED', 'TRUNCATED']) {
        const sentence = sentenceOf({ fault }, bytesOf(start));
        assert.equal(sentence, `This is ${format}, not a JPEG file.`);
    }
}
const jpeg = readFileSync(new URL('../../../tests/programs/files/turned.jpg', import.meta.url));
assert.equal(formatOf(jpeg), null);
assert.equal(sentenceOf({ fault: 'TRUNCATED' }, new Uint8Array(0)), 'The file is empty.');

/* Each fault of a JPEG file has a sentence, which isn't that of another. */
const FAULTS = ['MALFORMED', 'TRUNCATED', 'TOO_MANY_PASSES', 'NO_MEMORY', 'NOT SHOWN', 'FAILED'];
const FEATURES = ['hierarchical', 'arithmetic', 'dnl', 'factors', 'transform'];
const sentences = [
    ...FAULTS.map((fault) => sentenceOf({ fault }, jpeg)),
    ...FEATURES.map((feature) => sentenceOf({ fault: 'UNSUPPORTED', feature }, jpeg)),
    ...[12, 16].flatMap((featureArgument) =>
        ['precision', 'components'].map((feature) =>
            sentenceOf({ fault: 'UNSUPPORTED', feature, featureArgument }, jpeg),
        ),
    ),
    sentenceOf({ fault: 'UNSUPPORTED', feature: 'FEATURE_9' }, jpeg),
];
assert.equal(new Set(sentences).size, sentences.length);
for (const sentence of sentences) assert.match(sentence, /^(The|This) [^A-Z_]*(JPEG)?[^_]*\.$/);
assert.equal(sentenceOf({ fault: 'NO_MEMORY' }), sentenceOf({ fault: 'TOO_LARGE' }));

/* The rows that are complete of 24, by the process and the orientation. */
const part = (wholeRows, process, orientation) =>
    rowsText({ picture: { height: 24, orientation, process }, wholeRows });
const ROWS = [
    [part(0, 'sequential', 1), 'No row is complete.'],
    [part(1, 'sequential', 2), 'The first of 24 rows is complete.'],
    [part(16, 'sequential', 1), 'The first 16 of 24 rows are complete.'],
    [
        part(15, 'progressive', 6),
        'The first 15 of 24 rows are complete in the scans so far, before the picture is turned.',
    ],
    [part(24, 'progressive', 3), 'All rows are complete in the scans so far.'],
];
for (const [text, expected] of ROWS) assert.equal(text, expected);
const formats = Object.keys(FORMATS).length;
const [faults, parts] = [sentences, ROWS].map(({ length }) => length);
console.log(`words: ${formats} beginnings of other files, ${faults} faults, ${parts} parts`);
