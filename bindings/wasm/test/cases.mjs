/* The cases of tests/decoder: { file, name, stream, calls, answers }, of which each call is a list
 * of words, and `answers` the text after its name (docs/CONFORMANCE.md has the format). */
import { readFileSync } from 'node:fs';

const FOLDER = new URL('../../../tests/decoder/', import.meta.url);
const linesOf = (path) => readFileSync(new URL(path, FOLDER), 'utf8').split('\n');

/* The bytes of words of hex digits, each with how often it stands after a star. */
export function bytesOf(words) {
    const pieces = words.split(' ').filter(Boolean).map((word) => {
        const [digits, count = 1] = word.split('*');
        const piece = Buffer.from(digits, 'hex');
        return Buffer.alloc(piece.length * Number(count), piece);
    });
    return Buffer.concat(pieces);
}

function casesOfFile(file) {
    const cases = [];
    for (const line of linesOf(`data/${file}`)) {
        const [word, ...rest] = line.split(' ');
        if (word === 'case') cases.push({ file, name: rest.join(' '), pieces: [], calls: [] });
        else if (word === 'stream') cases.at(-1).pieces.push(bytesOf(rest.join(' ')));
        else if (word && word !== '#') cases.at(-1).calls.push([word, ...rest]);
    }
    return cases;
}

export function allCases() {
    const cases = linesOf('args').filter(Boolean).flatMap(casesOfFile);
    const answers = linesOf('answers').filter(Boolean);
    if (answers.length !== cases.length) throw new Error('not a line a case');
    return cases.map(({ pieces, ...rest }, index) => ({
        ...rest,
        stream: Buffer.concat(pieces),
        answers: answers[index].slice(rest.name.length + 2),
    }));
}
