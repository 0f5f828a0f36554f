// What compiles by index.d.mts and zaxbriar.d.mts, and what doesn't.
import { Zaxbriar, ZaxbriarError, compile, load } from '../dist/index.mjs';
import type { Area, AsyncOptions, AsyncPartialOptions, Bytes } from '../dist/index.mjs';
import type { DecoderOptions } from '../dist/index.mjs';
import type { DecodingOptions, DecodedPicture, DecodedPlanes } from '../dist/index.mjs';
import type { Density, Fed, Feature } from '../dist/index.mjs';
import type { Format, Layout, Options, PartialOptions, PartialPicture } from '../dist/index.mjs';
import type { ArrivingRows, Picture, Pieces, Plane, Rows, RowsOptions } from '../dist/index.mjs';
import type { Sampling } from '../dist/index.mjs';
import type { ShowingOptions, Size, Source } from '../dist/index.mjs';

// Sources, and the bytes of streams.
const sources: Source[] = ['zaxbriar.wasm', new URL('file:///zaxbriar.wasm'), new Uint8Array(8)];
const zaxbriar: Zaxbriar = await load(sources[0], { maxMemory: 1 << 30 });
const fetched: Promise<Zaxbriar> = load(fetch('zaxbriar.wasm'));
const module: WebAssembly.Module = await compile();
const other = new Zaxbriar(module);
const buffer = new ArrayBuffer(0);
const streams: Bytes[] = [buffer, new SharedArrayBuffer(0), new DataView(buffer)];
// (TypeScript's WebAssembly.Module has no members, so that a number would compile too)
// @ts-expect-error
load(null);
// @ts-expect-error
load(module, { maxMemory: '1 GB' });

// Pictures and their pixels, for a canvas or a file.
const options: Options = { layout: 'rgba', scale: 2, colorTransform: 'rgb', maxPixels: 1e6 };
const turned: Options = { layout: 'abgr', bottomUp: true, upright: true, luma: true };
const area: Area = { width: 512, height: 512 };
const tiles: Options[] = [{ crop: area }, { crop: { ...area, left: 8, top: 0 }, scale: 4 }];
const most: Size = { width: 256 };
const fits: Options[] = [{ within: most }, { within: { height: 9 }, upright: true }];
const limits: Options = { maxBytes: 1 << 30, maxPasses: 100 };
const { picture, pixels } = zaxbriar.decode(streams[0], options);
const data = new ImageData(pixels, picture.width, picture.height);
const samples: Uint8ClampedArray = pixels;
const layout: Layout = picture.layout;
const described: Picture = zaxbriar.readInfo(streams[1], { minWidth: 100, minHeight: 0 });
const ink: boolean = described.components === 4 && described.sampleBytes === 2;
const planes = zaxbriar.decode(streams[1], { colorTransform: 'none' });
const format: Format = described.format;
const factors: Sampling[] = described.sampling;
const columns: number = Math.max(...factors.map((it) => it.horizontal * it.vertical));
const density: Density = described.density;
const isLuma: boolean = described.colorTransform === 'ycbcr';
const inches: number = density.unit === 1 ? picture.width / density.horizontal : 0;
// @ts-expect-error
zaxbriar.decode('text');
// @ts-expect-error
zaxbriar.decode(streams[2], { layout: 'rbg' });
// @ts-expect-error
zaxbriar.decode(streams[2], { scale: 3 });
// @ts-expect-error
zaxbriar.decode(streams[2], { bottomUp: 1 });
// @ts-expect-error
zaxbriar.decode(streams[2], { upright: 6 });
// @ts-expect-error
zaxbriar.decode(streams[2], { luma: 1 });
// @ts-expect-error
zaxbriar.decode(streams[2], { crop: { left: 1, top: 1, width: 1 } });
// @ts-expect-error
zaxbriar.decode(streams[2], { crop: { x: 1, y: 1, width: 1, height: 1 } });
// @ts-expect-error
zaxbriar.decode(streams[2], { crop: [0, 0, 1, 1] });
// @ts-expect-error
zaxbriar.decode(streams[2], { within: 256 });
// @ts-expect-error
zaxbriar.readInfo(streams[2], { maxPixel: 1 });
// @ts-expect-error
zaxbriar.decode(streams[2], { colorTransform: 'grey' });
// @ts-expect-error
if (picture.process === 'hierarchical') throw new Error();
// @ts-expect-error
if (picture.format === 'rgb24') throw new Error();
// @ts-expect-error
if (picture.sampling === '4:2:0') throw new Error();
// @ts-expect-error
if (picture.density.unit === 'inch') throw new Error();
// @ts-expect-error
if (picture.colorTransform === 'stream') throw new Error();

// What there is of a stream, its rows that are complete, and its fault.
const part: PartialPicture = zaxbriar.decode(streams[0], { partial: true, layout: 'grey' });
const rows: number = part.wholeRows;
const fault: string = part.fault?.code ?? 'none';
const strict = zaxbriar.decode(streams[0], { partial: false });
// @ts-expect-error
strict.fault;
// @ts-expect-error
strict.wholeRows;
// @ts-expect-error
part.fault.code;
// @ts-expect-error
zaxbriar.readInfo(streams[0], { partial: true });

// Where `partial` isn't known before, the picture may have a fault or none.
const isPartial: boolean = rows > 1;
const given: DecodingOptions = { ...options, partial: isPartial };
const either: DecodedPicture | PartialPicture = zaxbriar.decode(streams[0], given);
const first: number = zaxbriar.decode(streams[0], { partial: isPartial }).pixels[0];
const told: string = 'fault' in either ? either.fault?.code ?? 'none' : 'not asked';
const asked: PartialOptions = { ...given, partial: true };
const known: number = zaxbriar.decode(streams[0], asked).wholeRows;
const plain: DecodedPicture = zaxbriar.decode(streams[0], options);
// @ts-expect-error
either.fault;
// @ts-expect-error
zaxbriar.decode(streams[0], { partial: 1 });

// The same in a worker.
const { signal } = new AbortController();
const whole: DecodedPicture = await zaxbriar.decodeAsync(streams[0], { layout: 'rgb', signal });
const deadline: AsyncOptions = { signal: null, transfer: true, maxBytes: 1e9 };
const begun: Promise<DecodedPicture> = zaxbriar.decodeAsync(streams[1]);
const piece: PartialPicture = await zaxbriar.decodeAsync(streams[0], { partial: true, signal });
const wanted: AsyncPartialOptions = { ...deadline, partial: true };
const complete: number = (await zaxbriar.decodeAsync(streams[0], wanted)).wholeRows;
const perhaps: DecodedPicture | PartialPicture = await zaxbriar.decodeAsync(streams[0], deadline);
const startWorker = () => new Worker('zaxbriar-worker.mjs', { type: 'module' });
const started: DecoderOptions = { startWorker, maxMemory: 1 << 30 };
const elsewhere: Promise<Zaxbriar> = load(sources[1], started);
// @ts-expect-error
whole.fault;
// @ts-expect-error
perhaps.wholeRows;
// @ts-expect-error
zaxbriar.decodeAsync(streams[0]).pixels;
// @ts-expect-error
zaxbriar.decodeAsync(streams[0], { signal: new AbortController() });
// @ts-expect-error
zaxbriar.decodeAsync(streams[0], { transfer: [buffer] });
// @ts-expect-error
zaxbriar.decode(streams[0], { transfer: true });
// @ts-expect-error
load(sources[1], { startWorker: 'zaxbriar-worker.mjs' });

// Planes, of one byte or two a sample.
const coded: DecodedPlanes = other.decodePlanes(streams[0], { scale: 2, maxPixels: 1e6 });
const [luma]: Plane[] = coded.planes;
const narrow: Uint8Array | Uint16Array = luma.data;
// @ts-expect-error
const wide: Uint16Array = luma.data;
// @ts-expect-error
other.decodePlanes(streams[0], { layout: 'rgba' });

// Lines, of a stream that has no fault where all of them are there.
const lines: Rows = zaxbriar.rows(streams[0], { scale: 2, colorTransform: 'none', maxPasses: 20 });
const lineBytes: number = lines.picture.rowBytes;
for (const line of lines) if (line.length === lineBytes) lines.return();
const list: Uint8Array[] = [...other.rows(streams[1])];
const next: IteratorResult<Uint8Array, undefined> = lines.next();
const bounds: RowsOptions = { maxBytes: 1e9 };
// @ts-expect-error
lines.lines = 0;
// @ts-expect-error
other.rows(streams[0], { upright: true });
// @ts-expect-error
for await (const line of other.rows(streams[0])) line.width;

// Lines of a stream that arrives.
const arriving: ArrivingRows = zaxbriar.rows(new Blob([]).stream(), { maxPasses: 20 });
for await (const line of arriving) if (line.length > 9) arriving.picture?.rowBytes;
const arrived: IteratorResult<Uint8Array, undefined> = await arriving.next();
for await (const line of other.rows([streams[0]], { colorTransform: 'none' })) list.push(line);
// @ts-expect-error
arriving.picture.rowBytes;
// @ts-expect-error
other.rows([streams[0]], { scale: 2 });

// A stream in pieces, and what there is of it.
const fed: Fed = zaxbriar.feed({ layout: 'rgba', upright: true, maxPasses: 20 });
fed.feed(streams[0]);
const perhapsKnown: Picture | null = fed.info();
const soFar: PartialPicture = fed.show();
const taken: number = fed.byteLength;
fed.free();
fed[Symbol.dispose]();
// @ts-expect-error
fed.info().width;
// @ts-expect-error
fed.feed('text');
// @ts-expect-error
fed.byteLength = 0;
// @ts-expect-error
zaxbriar.feed({ partial: true });
const often: ShowingOptions = { growth: 1.25, layout: 'rgba' };
const blob = new Blob([buffer]);
const pieces: Pieces[] = [blob.stream(), [buffer], streams.values()];
const body: ReadableStream<Uint8Array> | null = new Response(blob).body;
if (body) for await (const { pixels } of zaxbriar.showStream(body, often)) pixels.fill(0);
for await (const shown of zaxbriar.showStream(pieces[0])) if (shown.wholeRows > 9) break;
// @ts-expect-error
for (const shown of zaxbriar.showStream(pieces[0])) shown.fault;
// @ts-expect-error
zaxbriar.showStream(streams[0]);
// @ts-expect-error
zaxbriar.showStream(pieces[0], { growth: 'twice' });
// @ts-expect-error
zaxbriar.feed({ growth: 2 });

// Metadata, which may not be there.
const profile = other.metadata(streams[0], 'icc');
const file = new Blob(profile ? [profile] : []);
// @ts-expect-error
const length: number = other.metadata(streams[0], 'xmp').length;
// @ts-expect-error
other.metadata(streams[0], 'iptc');
const thumbnail = other.joinedMetadata(streams[0], 'thumbnail');
if (thumbnail) other.decode(thumbnail);
// @ts-expect-error
other.joinedMetadata(streams[0], 'icc');

// Faults.
let feature: Feature | undefined;
let bits: number | undefined;
try {
    zaxbriar.reset();
} catch (error) {
    if (!(error instanceof ZaxbriarError) || error.code === 'TOO_LARGE') throw error;
    feature = error.feature;
    bits = error.feature === 'precision' ? error.featureArgument : error.lines;
    // @ts-expect-error
    if (error.code === 'TOO_BIG') throw error;
    // @ts-expect-error
    error.code = 'MALFORMED';
    // @ts-expect-error
    if (error.feature === 'Arithmetic') throw error;
    // @ts-expect-error
    const argument: number = error.featureArgument;
}
// @ts-expect-error
zaxbriar.memoryBytes = 0;
const version: string = zaxbriar.version;
export { bits, columns, data, described, feature, fetched, file, format, ink, layout, length };
export { fault, first, inches, known, plain, planes, profile, rows, samples, strict, told };
export { arrived, begun, bounds, complete, elsewhere, fits, list, narrow, next };
export { perhapsKnown, piece, soFar, taken, tiles, version };
