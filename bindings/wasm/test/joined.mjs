/* node joined.mjs: joinedMetadata gives the answers of bindings/c/test/cases/joined.case, which an
 * independent model has computed. A room that is too small, which JavaScript's call never has, says
 * how long the data are. */
import assert from 'node:assert/strict';
import { readFileSync } from 'node:fs';
import { load } from '../dist/node.mjs';
import { bytesOf } from './cases.mjs';

const NAMES = { 1: 'exif', 2: 'xmp', 4: 'extendedXmp', 5: 'iptc', 6: 'thumbnail' };
const linesOf = (name) => {
    const url = new URL(`../../c/test/cases/${name}`, import.meta.url);
    return readFileSync(url, 'utf8').split('\n').filter((line) => line && line[0] !== '#');
};

/* Whether what a call returns is its answer. */
function isAnswer(found, answer) {
    const [, name, length = '0', memory] = answer.match(/^(\w+)(?: length (\d+))?, memory (\w*)$/);
    if (name === 'NO_DATA') return found === null;
    if (found?.length !== Number(length)) return false;
    const bytes = Buffer.from(found).toString('hex').toUpperCase();
    return name === 'NO_ROOM' || memory.startsWith(bytes);
}

const zaxbriar = await load();
const answers = linesOf('joined.answers');
const counts = { cases: 0, calls: 0, passedOver: 0 };
let stream = Buffer.alloc(0);
let at = 0;
for (const line of linesOf('joined.case')) {
    const [word, ...words] = line.split(' ');
    if (word === 'stream') {
        stream = Buffer.concat([stream, bytesOf(words.join(' '))]);
        continue;
    }
    const told = answers[at++];
    assert.ok(told.startsWith(line));
    if (word === 'case') {
        stream = Buffer.alloc(0);
        counts.cases++;
    } else if (word === 'joined_metadata' && NAMES[words[0]]) {
        const found = zaxbriar.joinedMetadata(stream, NAMES[words[0]]);
        assert.ok(isAnswer(found, told.slice(line.length + 2)), told);
        counts.calls++;
    } else {
        counts.passedOver++;
    }
}
assert.equal(at, answers.length);
assert.ok(counts.calls > 50);
for (const kind of ['icc', 'extended_xmp', 4, undefined]) {
    assert.throws(() => zaxbriar.joinedMetadata(stream, kind), TypeError);
}
const { cases, calls, passedOver } = counts;
console.log(`joined: ${cases} cases, ${calls} calls; ${passedOver} other calls aren't asked`);
