/* node planes.mjs: decodePlanes gives the answers of bindings/c/test/cases/planes.case, which an
 * independent model has computed. Its room is always large enough, and options that arrange samples
 * don't exist. */
import assert from 'node:assert/strict';
import { readFileSync } from 'node:fs';
import { ZaxbriarError, load } from '../dist/node.mjs';
import { bytesOf } from './cases.mjs';

const NAMES = {
    scale: 'scale',
    min_width: 'minWidth',
    min_height: 'minHeight',
    max_bytes: 'maxBytes',
    max_passes: 'maxPasses',
};
const linesOf = (name) => {
    const url = new URL(`../../c/test/cases/${name}`, import.meta.url);
    return readFileSync(url, 'utf8').split('\n').filter((line) => line && line[0] !== '#');
};

/* The options of a call, or null where JavaScript's call has one of them not. */
function optionsOf(words) {
    const pairs = words.map((word) => word.split('='));
    if (!pairs.every(([name]) => name in NAMES)) return null;
    return Object.fromEntries(pairs.map(([name, number]) => [NAMES[name], Number(number)]));
}

/* The samples of planes, as the memory of the case has them. */
const hexOf = ({ data }) =>
    Buffer.from(data.buffer, data.byteOffset, data.byteLength).toString('hex').toUpperCase();

/* Whether what a call returns is its answer. */
function checkAnswer(stream, options, answer) {
    const [name] = answer.split(/[ ,]/);
    const sizes = answer.match(/, planes ([0-9x ]+)/)?.[1] ?? '';
    if (name !== 'OK') {
        const isRefusal = (error) => error instanceof ZaxbriarError && error.code === name;
        assert.throws(() => zaxbriar.decodePlanes(stream, options), isRefusal, answer);
        return;
    }
    const { picture, planes } = zaxbriar.decodePlanes(stream, options);
    assert.deepEqual(picture, {
        ...zaxbriar.readInfo(stream, options),
        streamBytes: picture.streamBytes,
    });
    assert.equal(picture.streamBytes, Number(answer.match(/ stream_bytes (\d+)/)[1]));
    const found = planes.map(({ width, height }) => `${width}x${height}`);
    assert.equal([...found, '0x0', '0x0', '0x0'].slice(0, 4).join(' '), sizes);
    assert.ok(planes.every(({ data }) => data.BYTES_PER_ELEMENT === picture.sampleBytes));
    assert.ok(planes.every(({ width, height, data }) => data.length === width * height));
    assert.ok(answer.match(/, memory (\w*)$/)[1].startsWith(planes.map(hexOf).join('')), answer);
}

const zaxbriar = await load();
const answers = linesOf('planes.answers');
const counts = { cases: 0, calls: 0, passedOver: 0 };
let stream = Buffer.alloc(0);
let at = 0;
for (const line of linesOf('planes.case')) {
    const [word, ...words] = line.split(' ');
    if (word === 'stream') {
        stream = Buffer.concat([stream, bytesOf(words.join(' '))]);
        continue;
    }
    const answer = answers[at++].slice(line.length + 2);
    const options = word === 'decode_planes' ? optionsOf(words.slice(1)) : null;
    if (word === 'case') {
        stream = Buffer.alloc(0);
        counts.cases++;
    } else if (options && !answer.startsWith('NO_ROOM')) {
        checkAnswer(stream, options, answer);
        counts.calls++;
    } else {
        counts.passedOver++;
    }
}
assert.equal(at, answers.length);
assert.ok(counts.calls > 30);
for (const name of ['layout', 'stride', 'bottomUp', 'upright', 'luma', 'crop', 'partial']) {
    assert.throws(() => zaxbriar.decodePlanes(stream, { [name]: undefined }), TypeError);
}
const { cases, calls, passedOver } = counts;
console.log(`planes: ${cases} cases, ${calls} calls; ${passedOver} other calls aren't asked`);
