/* node bundlers.mjs FOLDER BUNDLER..: what esbuild, rollup and webpack make of the package for
 * browsers, and what Node takes of it. A bundler may not warn; its bundle has nothing of Node's in
 * it, and decodes. FOLDER takes the package, a program and the bundles, which async_page.mjs asks
 * in a browser. */
import assert from 'node:assert/strict';
import { spawnSync } from 'node:child_process';
import { copyFileSync, cpSync, mkdirSync, readFileSync, rmSync, writeFileSync } from 'node:fs';
import { resolve } from 'node:path';
import { fileURLToPath, pathToFileURL } from 'node:url';
import { load } from '../dist/node.mjs';

const [room, ...names] = process.argv.slice(2);
const folder = resolve(room, 'bundlers');
const pathOf = (name) => fileURLToPath(new URL(name, import.meta.url));
const jpeg = readFileSync(pathOf('../../../tests/programs/files/turned.jpg'));
const wanted = (await load()).decode(jpeg);
const PACKAGE = './node_modules/zaxbriar';
const PROGRAM = (name) => `import { load } from '${name}';\nexport const loaded = load();\n`;

const BESIDE = ['zaxbriar.wasm', 'zaxbriar-worker.mjs', 'zaxbriar.mjs'];

/* The words of each bundler, by which it makes NAME/bundle.mjs for browsers. rollup finds packages
 * by a plugin alone, and so it is given a path. */
const WORDS = {
    esbuild: [
        'program.mjs',
        '--bundle',
        '--format=esm',
        '--log-level=warning',
        '--outfile=esbuild/bundle.mjs',
    ],
    rollup: ['by-path.mjs', '--format', 'es', '--file', 'rollup/bundle.mjs'],
    webpack: ['--config', 'webpack.config.cjs', '--stats', 'errors-warnings'],
};
const WEBPACK = {
    mode: 'production',
    // (by default it warns of each file above 244 KiB, which the module is)
    performance: { hints: false },
    target: ['web', 'es2022'],
    entry: './program.mjs',
    experiments: { outputModule: true },
    output: {
        path: `${folder}/webpack`,
        filename: 'bundle.mjs',
        library: { type: 'module' },
    },
};

/* What bundlers say of a bundle that they have made without a warning. */
const WELL = [
    /^by-path\.mjs → rollup\/bundle\.mjs\.\.\.\ncreated rollup\/bundle\.mjs in \S+$/,
    /^webpack (\S+ )?compiled successfully( in \d+ ms)?$/,
];

/* Runs a program, which has to end well, and without a word beside these. */
function run(program, words) {
    const { status, stdout, stderr, error } = spawnSync(program, words, {
        cwd: folder,
        encoding: 'utf8',
    });
    assert.ok(!error, `${program}: ${error}`);
    const told = `${stdout}${stderr}`.replaceAll(/\x1b\[\d+m/g, '').trim();
    assert.equal(status, 0, told);
    assert.ok(told === '' || WELL.some((it) => it.test(told)), told);
}

/* Decodes by a bundle as a browser would, where files come by `fetch` alone. */
async function decodeBy(bundle) {
    const here = pathToFileURL(bundle);
    globalThis.document = { baseURI: here.href };
    globalThis.fetch = async (address) => new Response(readFileSync(new URL(address, here)));
    const { loaded } = await import(here);
    return (await loaded).decode(jpeg);
}

async function check(name) {
    run(process.env[name.toUpperCase()] ?? name, WORDS[name]);
    const bundle = `${folder}/${name}/bundle.mjs`;
    assert.doesNotMatch(readFileSync(bundle, 'utf8'), /node:|\brequire\(/, name);
    // (webpack puts the module and the worker beside its bundle, and the others leave that to the
    // caller)
    for (const file of name === 'webpack' ? [] : BESIDE) {
        copyFileSync(pathOf(`../dist/${file}`), `${folder}/${name}/${file}`);
    }
    assert.deepEqual(await decodeBy(bundle), wanted, name);
}

/* Node has the file that reads the module from its folder, by the package's name. */
function checkNode() {
    const code = `import { load } from 'zaxbriar';
        if (!import.meta.resolve('zaxbriar').endsWith('/node.mjs')) throw new Error('not node.mjs');
        await import('zaxbriar/zaxbriar.mjs');
        (await load()).version;`;
    run(process.execPath, ['--input-type=module', '--eval', code]);
}

rmSync(folder, { recursive: true, force: true });
mkdirSync(folder, { recursive: true });
cpSync(pathOf('../dist'), `${folder}/node_modules/zaxbriar`, { recursive: true });
writeFileSync(`${folder}/program.mjs`, PROGRAM('zaxbriar'));
writeFileSync(`${folder}/by-path.mjs`, PROGRAM(`${PACKAGE}/index.mjs`));
writeFileSync(`${folder}/webpack.config.cjs`, `module.exports = ${JSON.stringify(WEBPACK)};\n`);
checkNode();
for (const name of names) await check(name);
const made = names.map((name) => `${name}'s bundle decodes`).join(', ');
console.log(`bundlers: ${made || 'none is there'}; Node takes node.mjs`);
