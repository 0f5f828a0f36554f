/* node async.mjs FILE: decodeAsync in Node: pictures, parts and refusals are those of decode; what
 * becomes of the stream; signals, before a call, while it waits and while it runs; workers that
 * fail, and those that trap; memory; and that a program ends. FILE is a baseline picture. */
import assert from 'node:assert/strict';
import { spawnSync } from 'node:child_process';
import { readFileSync } from 'node:fs';
import { createContext, runInContext } from 'node:vm';
import { Worker } from 'node:worker_threads';
import { Zaxbriar, compile, load } from '../dist/node.mjs';
import { answer } from '../dist/zaxbriar-worker.mjs';
import { endless } from './endless.mjs';

const jpeg = readFileSync(process.argv[2]);
const cut = jpeg.subarray(0, jpeg.length - 40);
const address = (name) => new URL(`../dist/${name}`, import.meta.url);
const module = await compile();
const start = () => new Worker(address('node-worker.mjs'), { execArgv: [] });
const aborted = (error) => error.name === 'AbortError';

/* A decoder, and how many workers it has started. */
function counting(startWorker = start) {
    const count = { workers: 0 };
    const options = { startWorker: () => (count.workers++, startWorker(count.workers)) };
    return [new Zaxbriar(module, options), count];
}

/* What a call gives, or the error that it throws. */
const outcome = async (call) => {
    try {
        return await call();
    } catch (error) {
        return error;
    }
};
const membersOf = (error) => ({ ...error, message: error.message, class: error.constructor });

/* The answer to both calls, which has to be the same. */
async function both(zaxbriar, stream, options) {
    const wanted = await outcome(() => zaxbriar.decode(stream, options));
    const given = await outcome(() => zaxbriar.decodeAsync(stream, options));
    assert.equal(given instanceof Error, wanted instanceof Error);
    if (wanted instanceof Error) assert.deepEqual(membersOf(given), membersOf(wanted));
    else assert.deepEqual(given, wanted);
    if (wanted.fault) assert.deepEqual(membersOf(given.fault), membersOf(wanted.fault));
    return wanted;
}

/* Streams with each option, and with those that are refused. */
async function checkAnswers() {
    const [zaxbriar, count] = counting();
    const frame = jpeg.indexOf(Buffer.from([0xff, 0xc0]));
    const twelve = Buffer.from(jpeg);
    twelve.set([0xc1, 0, 17, 12], frame + 1);
    const arithmetic = Buffer.from(jpeg);
    arithmetic[frame + 1] = 0xc9;
    const streams = [jpeg, cut, twelve, arithmetic, new Uint8Array(0), Buffer.from('no picture')];
    const lists = [
        undefined,
        { layout: 'rgba' },
        { layout: undefined, partial: undefined },
        { partial: true },
        { partial: true, layout: 'grey', scale: 2 },
        { layout: 'rgb16', bottomUp: true },
        { layout: 'bgr', upright: true },
        { layout: 'rgba', luma: true },
        { layout: 'rgba', crop: { left: 3, top: 2, width: 7, height: 5 } },
        { partial: true, crop: Object.create({ width: 7, height: 5 }) },
        { crop: { left: 65535, width: 1, height: 1 } },
        { within: { width: 9 }, layout: 'rgba', upright: true },
        { minWidth: 9, minHeight: 9, stride: 200, colorTransform: 'rgb', partial: false },
        { maxPixels: 9 },
        { maxBytes: 9 },
        { maxPasses: 1 },
        Object.create({ maxPixels: 9 }),
        { scale: 3 },
        { scale: -1 },
        { layout: 'rbg' },
        { layout: () => 0 },
        { partial: 1 },
        { bottomUp: 'yes' },
        { upright: 1 },
        { luma: 1 },
        { crop: 1 },
        { crop: { width: 1 } },
        { within: 9 },
        { within: { width: 9 }, colorTransform: 'none' },
        { crop: { x: 1, y: 1, width: 1, height: 1 } },
        { maxPixels: 0.5 },
    ];
    let refused = 0;
    for (const stream of streams) {
        for (const options of lists) {
            if ((await both(zaxbriar, stream, options)) instanceof Error) refused++;
        }
    }
    for (const stream of ['text', null, [255, 216]]) await both(zaxbriar, stream);
    const signals = [{ signal: 1 }, { signal: new Event('abort') }];
    for (const options of [{ maxpixels: 9 }, { transfer: 1 }, ...signals]) {
        await assert.rejects(zaxbriar.decodeAsync(jpeg, options), TypeError);
    }
    assert.throws(() => zaxbriar.decode(jpeg, { transfer: true }), TypeError);
    await zaxbriar.decodeAsync(jpeg, { signal: null, transfer: undefined });
    assert.equal(count.workers, 1);
    const small = new Zaxbriar(module, { maxMemory: 2 ** 20 });
    await assert.rejects(small.decodeAsync(new Uint8Array(2 ** 21)), { code: 'NO_MEMORY' });
    assert.ok((await load()) instanceof Zaxbriar);
    return [streams.length * lists.length, refused];
}

/* The stream is taken at the call, as a copy unless it is to be moved. */
async function checkStreams() {
    const zaxbriar = new Zaxbriar(module);
    const { pixels } = zaxbriar.decode(jpeg);
    const inside = () => {
        const bytes = new Uint8Array(jpeg.length + 20);
        bytes.set(jpeg, 10);
        return bytes.subarray(10, 10 + jpeg.length);
    };
    const changed = inside();
    const calls = [zaxbriar.decodeAsync(jpeg), zaxbriar.decodeAsync(changed)];
    changed.fill(0);
    for (const call of calls) assert.deepEqual((await call).pixels, pixels);
    // (and so are the options, by a call that waits)
    const crop = { width: 7, height: 5 };
    const [, part] = [zaxbriar.decodeAsync(jpeg), zaxbriar.decodeAsync(jpeg, { crop })];
    crop.width = 1;
    assert.equal((await part).picture.width, 7);

    const shared = new Uint8Array(new SharedArrayBuffer(jpeg.length));
    shared.set(jpeg);
    const realm = createContext({ jpeg });
    const views = [
        inside(),
        new DataView(inside().buffer, 10, jpeg.length),
        new Uint8ClampedArray(jpeg).buffer,
        runInContext('Uint8Array.from(jpeg)', realm),
    ];
    for (const view of views) {
        const kept = { ...(await zaxbriar.decodeAsync(view)) };
        assert.deepEqual(kept.pixels, pixels);
        // (also of a call that waits)
        const moved = [zaxbriar.decodeAsync(jpeg), zaxbriar.decodeAsync(view, { transfer: true })];
        assert.equal((view.buffer ?? view).byteLength, 0);
        for (const call of moved) assert.deepEqual((await call).pixels, pixels);
    }
    for (const copied of [shared, shared.buffer, Buffer.concat([jpeg])]) {
        const { buffer = copied } = copied;
        const length = buffer.byteLength;
        const given = await zaxbriar.decodeAsync(copied, { transfer: true });
        assert.deepEqual(given.pixels, pixels);
        assert.equal(buffer.byteLength, length);
    }
    // The pixels go without a copy.
    const [{ decoded }, moved] = answer({ module, maxMemory: 0, jpeg, options: {} });
    assert.deepEqual([decoded.pixels, moved], [pixels, [decoded.pixels.buffer]]);
    // A call that is refused for its options has taken nothing.
    const whole = inside();
    await assert.rejects(zaxbriar.decodeAsync(whole, { transfer: true, scale: -1 }), RangeError);
    const signal = AbortSignal.abort();
    await assert.rejects(zaxbriar.decodeAsync(whole, { transfer: true, signal }), aborted);
    assert.notEqual(whole.length, 0);
}

/* A signal ends a call before it begins, while it waits, and while it runs; others go on. */
async function checkSignals() {
    const [zaxbriar, count] = counting();
    const { pixels } = zaxbriar.decode(jpeg);
    const reason = new Error('no longer wanted');
    const begun = performance.now();
    await assert.rejects(
        zaxbriar.decodeAsync(jpeg, { signal: AbortSignal.abort(reason) }),
        (error) => error === reason,
    );
    assert.equal(count.workers, 0);

    const [running, waiting] = [new AbortController(), new AbortController()];
    const calls = [
        zaxbriar.decodeAsync(jpeg),
        zaxbriar.decodeAsync(endless(), { signal: running.signal, maxPasses: 0 }),
        zaxbriar.decodeAsync(endless(), { signal: waiting.signal, maxPasses: 0 }),
        zaxbriar.decodeAsync(jpeg),
    ].map((call) => call.catch((error) => error));
    assert.deepEqual((await calls[0]).pixels, pixels);
    waiting.abort(reason);
    assert.equal(await calls[2], reason);
    assert.equal(count.workers, 1);
    running.abort();
    assert.ok(aborted(await calls[1]));
    assert.deepEqual((await calls[3]).pixels, pixels);
    assert.equal(count.workers, 2);
    assert.ok(performance.now() - begun < 10000);
    running.abort();

    // A deadline.
    const time = performance.now();
    const signal = AbortSignal.timeout(200);
    const options = { signal, maxPixels: 20e6, maxBytes: 100e6, maxPasses: 0 };
    await assert.rejects(zaxbriar.decodeAsync(endless(), options), { name: 'TimeoutError' });
    assert.ok(performance.now() - time < 2000);
    // By default its passes are limited, also in the worker.
    await assert.rejects(zaxbriar.decodeAsync(endless()), { code: 'TOO_MANY_PASSES' });
    // A signal that comes too late ends nothing, and is listened to no longer.
    const late = new AbortController();
    let listeners = 0;
    const { addEventListener, removeEventListener } = late.signal;
    late.signal.addEventListener = (...words) => {
        listeners++;
        addEventListener.apply(late.signal, words);
    };
    late.signal.removeEventListener = (...words) => {
        listeners--;
        removeEventListener.apply(late.signal, words);
    };
    const last = zaxbriar.decodeAsync(jpeg, { signal: late.signal });
    assert.equal(listeners, 1);
    await last;
    assert.equal(listeners, 0);
    late.abort();
    await zaxbriar.decodeAsync(jpeg);
    assert.equal(count.workers, 3);
}

/* An answer that a worker gave before it was ended is no answer to the call after it. */
async function checkLateAnswers() {
    const [zaxbriar] = counting();
    const wanted = zaxbriar.decode(jpeg, { layout: 'grey' });
    for (let round = 0; round < 40; round++) {
        const controller = new AbortController();
        const given = zaxbriar.decodeAsync(jpeg, { signal: controller.signal });
        const next = zaxbriar.decodeAsync(jpeg, { layout: 'grey' });
        // (the worker has the time to answer, and this thread none to hear it)
        const end = performance.now() + (round % 4) * 20;
        await new Promise((done) => setTimeout(done, round));
        while (performance.now() < end);
        controller.abort();
        await given.catch((error) => assert.ok(aborted(error)));
        assert.deepEqual(await next, wanted);
    }
}

/* Workers that can't be started, that end, or that are another's: the next call begins anew. */
async function checkFailures() {
    const inline = (code) => new Worker(code, { eval: true });
    const failing = [
        [() => inline('throw new RangeError("at once")'), /at once/],
        [() => inline('process.exit()'), /the worker has ended/],
        [() => new Worker(address('nothing.mjs')), /Cannot find module/],
        [
            () => {
                throw new Error('forbidden');
            },
            /forbidden/,
        ],
    ];
    for (const [startFailing, text] of failing) {
        const [zaxbriar, count] = counting((number) => (number < 3 ? startFailing() : start()));
        const calls = [1, 2, 3].map(() => zaxbriar.decodeAsync(jpeg).catch((error) => error));
        const answers = await Promise.all(calls);
        for (const error of answers.slice(0, 2)) assert.match(error.message, text);
        assert.deepEqual(answers[2], zaxbriar.decode(jpeg));
        assert.equal(count.workers, 3);
    }
    assert.throws(() => new Zaxbriar(module, { startworker: start }), TypeError);
    const wrong = new Zaxbriar(module, { startWorker: 'zaxbriar-worker.mjs' });
    await assert.rejects(wrong.decodeAsync(jpeg), TypeError);
}

/* A trap is the engine's error, also of a call after one. */
async function checkTrap() {
    const wasm = readFileSync(address('zaxbriar.wasm'));
    const first = Buffer.from([0x7e, 0x01, 0x42, 0x80, 0x80, 0x10, 0x0b]);
    const smaller = Buffer.from([0x7e, 0x01, 0x42, 0x80, 0xa0, 0x00, 0x0b]);
    wasm.set(smaller, wasm.indexOf(first));
    const small = new Zaxbriar(await compile(wasm));
    for (let call = 0; call < 2; call++) {
        const trap = await outcome(() => small.decodeAsync(jpeg));
        assert.ok(trap instanceof WebAssembly.RuntimeError, `${trap}`);
        assert.match(trap.message, /unreachable/);
    }
}

/* Memory is given back, after the call that runs; and this thread has none of the worker's. */
async function checkMemory() {
    const [zaxbriar, count] = counting();
    const wanted = new Zaxbriar(module).decode(jpeg);
    const calls = Array.from({ length: 30 }, () => zaxbriar.decodeAsync(jpeg));
    zaxbriar.reset();
    for (const call of calls) assert.deepEqual(await call, wanted);
    assert.equal(zaxbriar.memoryBytes, 0);
    assert.equal(count.workers, 2);
    zaxbriar.reset();
    zaxbriar.reset();
    assert.deepEqual(await zaxbriar.decodeAsync(jpeg), wanted);
    assert.equal(count.workers, 3);
}

/* A program ends, although its worker waits for calls; and not before its calls have ended. */
function checkEnd() {
    const code = `
        import { load } from ${JSON.stringify(address('node.mjs').href)};
        import { readFileSync } from 'node:fs';
        const jpeg = readFileSync(${JSON.stringify(process.argv[2])});
        const zaxbriar = await load();
        await zaxbriar.decodeAsync(jpeg);
        await new Promise((done) => setTimeout(done, 50));
        zaxbriar.decodeAsync(jpeg).then(({ picture }) => console.log(picture.width));`;
    const words = ['--input-type=module', '--eval', code];
    const { status, stdout, stderr } = spawnSync(process.execPath, words, {
        encoding: 'utf8',
        timeout: 20000,
    });
    assert.deepEqual([status, stdout, stderr], [0, '40\n', '']);
}

/* Several decoders have a worker each. */
async function checkSeveral() {
    const decoders = [1, 2, 3].map(() => new Zaxbriar(module));
    const wanted = decoders[0].decode(jpeg, { layout: 'bgra' });
    const calls = decoders.map((it) => it.decodeAsync(jpeg, { layout: 'bgra' }));
    for (const call of calls) assert.deepEqual(await call, wanted);
}

const [asked, refused] = await checkAnswers();
await checkStreams();
await checkSignals();
await checkLateAnswers();
await checkFailures();
await checkTrap();
await checkMemory();
await checkSeveral();
checkEnd();
console.log(`async: ${asked} answers are those of decode, ${refused} of them refusals;`);
console.log('      streams that are copied and moved, signals, deadlines, workers that fail,');
console.log('      traps, memory, the end of a program');
