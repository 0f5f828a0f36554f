/** A JPEG decoder that is proved correct, as WebAssembly. */

/** Where zaxbriar.wasm is: its URL, a response that has it, its bytes, or the compiled module. */
export type Source =
    | string
    | URL
    | Response
    | ArrayBuffer
    | ArrayBufferView
    | WebAssembly.Module;

/** The bytes of a stream, or of a piece, of any realm. They are copied before anything is read. */
export type Bytes = ArrayBuffer | SharedArrayBuffer | ArrayBufferView;

/**
 * How the pixels are arranged. `stored` has each pixel's samples in the order of the components.
 * Every picture can be decoded into each of the others: samples of another precision are scaled,
 * grey is repeated, and ink is converted by the simple formula of viewers. They have 8 bits a
 * sample, but `grey16` and `rgb16` 16. The fourth sample of `rgba` and `bgra`, and the first of
 * `xrgb` and `abgr`, is 255. `rgb565` has the upper 5 bits of red, 6 of green and 5 of blue in a
 * number of 16 bits, red uppermost.
 *
 * A number of 16 bits takes two bytes of the pixels, the lower first, as all machines that engines
 * run on have theirs: unless a `stride` is odd, `new Uint16Array(pixels.buffer)` has these numbers.
 */
export type Layout =
    | 'stored'
    | 'grey'
    | 'rgb'
    | 'rgba'
    | 'bgra'
    | 'bgr'
    | 'xrgb'
    | 'abgr'
    | 'rgb565'
    | 'grey16'
    | 'rgb16';

/**
 * How the components are to be understood: as the stream says, or as these. `rgb` and `ycbcr` are
 * for pictures of three components, `cmyk` and `ycck` for those of four; decoding others is
 * MALFORMED. Grey and lossless pictures aren't affected.
 *
 * `none` gives the samples of several components without a conversion, component after component: a
 * line has the `width` samples of the first, then those of the second, and so on. With it the
 * layout is `stored`, and the picture isn't turned `upright`; else it is a BAD_ARGUMENT.
 */
export type ColorTransform = 'stream' | 'none' | 'rgb' | 'ycbcr' | 'cmyk' | 'ycck';

/**
 * The components of a picture as it is stored, and the bits of a sample: `grey8` is one of at most
 * 8 bits, `grey16` one of 9 to 16; `rgb` is three and `cmyk` four, of as many bits as `precision`
 * says.
 */
export type Format = 'grey8' | 'grey16' | 'rgb' | 'cmyk';

/** The sampling factors of a component, 1 to 4, as the frame header has them. */
export interface Sampling {
    horizontal: number;
    vertical: number;
}

/** The pixels per unit across and down, as a JFIF segment gives them. */
export interface Density {
    /**
     * 1: an inch, 2: a centimetre. 0: there is none, and a pixel's width is to its height as
     * `vertical` is to `horizontal`, or unknown if one of these is 0. Others mean nothing.
     */
    unit: number;
    horizontal: number;
    vertical: number;
}

/** A part of a picture, in pixels: so many columns of so many lines. */
export interface Area {
    /** Its first column and its first line; the default is 0. */
    left?: number;
    top?: number;
    /** How many there are, at least 1. */
    width: number;
    height: number;
}

/** The most columns and lines that a picture may have; 0, or left out: any number. */
export interface Size {
    width?: number;
    height?: number;
}

export interface Options {
    /** The default is `stored`. */
    layout?: Layout;
    /** Decodes at exactly 1 / scale of each side, rounded up: 1, 2, 4 or 8. */
    scale?: 0 | 1 | 2 | 4 | 8;
    /**
     * Decodes at the least of 1/8, 1/4, 1/2 and 1 of the size at which the picture, before it is
     * turned, is at least that wide or that high; 0: that side doesn't matter. `scale` goes before
     * both.
     */
    minWidth?: number;
    minHeight?: number;
    /** The bytes from a line to the next; 0: no gaps. The gaps are zeros. */
    stride?: number;
    /** Whether the rows come from the bottom: the picture's first row last. */
    bottomUp?: boolean;
    /**
     * Whether the picture is turned upright, as its `orientation` says: its size is then that of
     * the upright picture.
     */
    upright?: boolean;
    /**
     * Whether a picture in colour gives its luma alone: the first component's samples, without
     * a conversion. It is described as a grey picture. A picture whose first component isn't luma,
     * as in RGB or ink, or has fewer samples than the picture has pixels, is MALFORMED. Grey and
     * lossless pictures aren't affected.
     */
    luma?: boolean;
    /**
     * A part of the picture that the other options give: of that at its scale, and of the upright
     * one if that is asked for. The picture is then described as that part. One that isn't inside
     * the picture is a BAD_ARGUMENT, and so is any with the `colorTransform` `none`. The whole
     * stream is read all the same.
     */
    crop?: Area;
    /**
     * Makes the picture that the other options give, at its scale and of its part, smaller where it
     * has more columns or lines than that, as it is shown: to the greatest one of its proportions,
     * each sample of which is the mean of those in its place. To decode less of a large picture,
     * ask for a scale, too. With the `colorTransform` `none` it is a BAD_ARGUMENT.
     */
    within?: Size;
    colorTransform?: ColorTransform;
    /** The most pixels that the picture may have, as it is given; 0: any number. */
    maxPixels?: number;
    /**
     * The most bytes that decoding may take beside the stream and the picture; 0: any number. The
     * default of `decode` is 1 GiB, and `readInfo` has none.
     */
    maxBytes?: number;
    /**
     * How many times the scans may code the blocks of the picture, all together; 0: any number. The
     * default of `decode` is 100, and few files need more than 8. This bounds the time: a scan of
     * eleven bytes can go over all blocks again. The scan that would exceed it is TOO_MANY_PASSES.
     */
    maxPasses?: number;
}

/** The options of `decode`. */
export interface DecodingOptions extends Options {
    /**
     * Decodes a stream that is truncated or damaged, too, in no more memory. What no scan has
     * brought is mid-grey. A marker in place of blocks is a fault, where decoding without `partial`
     * takes zeros.
     */
    partial?: boolean;
}

/** Options that decode as far as a stream goes. */
export interface PartialOptions extends DecodingOptions {
    partial: true;
}

/** A picture, as decoding with the options gives it. */
export interface Picture {
    /** In pixels, as the options ask for them: at the scale, upright, of the part, or within. */
    width: number;
    height: number;
    /** The bytes of the picture. */
    size: number;
    /** The bytes of a line, without its gap. */
    rowBytes: number;
    /** The most bytes that decoding takes for samples, beside the stream and the picture. */
    decodingBytes: number;
    /** How many bytes of the stream were read: after decoding. */
    streamBytes: number;
    /** The bytes of a pixel, in this layout. */
    pixelBytes: number;
    layout: Layout;
    /**
     * The samples of a pixel as it is stored: 1 (grey), 3 (red, green, blue) or 4 (ink: 255 is
     * full), one of each component of the stream; 1 if the luma alone is asked for.
     */
    components: 1 | 3 | 4;
    /** Of the stream: the bits of a sample, 2 to 16. */
    precision: number;
    /** Of the stream: 1 or 2, and then the lower byte first. */
    sampleBytes: 1 | 2;
    process: 'sequential' | 'progressive' | 'lossless';
    /** Of the stream: 1 to 8, as Exif data before the frame say; otherwise 1. */
    orientation: number;
    /** Of the picture as it is stored. */
    format: Format;
    /** Of the stream: one for each component. */
    sampling: Sampling[];
    /** Of the stream, at full size: by the first JFIF segment before the frame, or zeros. */
    density: Density;
    /**
     * Which transform the stream's header asks for: `none` for grey and lossless pictures, and null
     * for libjpeg's big gamut colours, which aren't decoded.
     */
    colorTransform: 'none' | 'rgb' | 'ycbcr' | 'cmyk' | 'ycck' | null;
}

/**
 * What a decoder returns has a buffer of its own, which no other thread has, as ImageData and Blob
 * ask of theirs. TypeScript distinguishes that since 5.7, where it is what `slice` returns.
 */
export type Pixels = ReturnType<Uint8ClampedArray['slice']>;
export type Data = ReturnType<Uint8Array['slice']>;

/**
 * What a stream asks for that isn't supported:
 * - `hierarchical`: hierarchical coding, or a second frame;
 * - `arithmetic`: arithmetic coding;
 * - `precision`: samples of so many bits;
 * - `components`: so many components;
 * - `dnl`: a number of lines after the first scan;
 * - `subsampling`: reserved: no stream is refused for it;
 * - `factors`: sampling factors that don't divide the greatest ones;
 * - `transform`: libjpeg's big gamut.
 */
export type Feature =
    | 'hierarchical'
    | 'arithmetic'
    | 'precision'
    | 'components'
    | 'dnl'
    | 'subsampling'
    | 'factors'
    | 'transform';

/** Why a stream or a call was refused. */
export class ZaxbriarError extends Error {
    readonly code:
        | 'MALFORMED'
        | 'UNSUPPORTED'
        | 'TRUNCATED'
        | 'NO_MEMORY'
        | 'NO_ROOM'
        | 'BAD_ARGUMENT'
        | 'NO_DATA'
        | 'TOO_LARGE'
        | 'TOO_MANY_PASSES';
    /** Where the code is UNSUPPORTED. */
    readonly feature?: Feature;
    /**
     * Of `precision` the bits of a sample; of `components` how many there are, where 255 also
     * stands for more; of `transform` 6 for YCC, and 7 for RGB. Other features have none.
     */
    readonly featureArgument?: number;
    /** Of an iterator over lines: how many it had given before. */
    readonly lines?: number;
}

/** What decoding returns. */
export interface DecodedPicture {
    picture: Picture;
    pixels: Pixels;
}

/** The picture that a stream has brought up to its first fault, and that fault. */
export interface PartialPicture extends DecodedPicture {
    /**
     * How many rows of the picture, or of its part, from its top and before it is turned, are
     * complete in each scan that has begun: all rows if the stream has no fault.
     */
    wholeRows: number;
    fault: ZaxbriarError | null;
}

/** The options of `decodePlanes`: the others arrange or convert samples. */
export type PlanesOptions = Pick<
    Options,
    'scale' | 'minWidth' | 'minHeight' | 'maxPixels' | 'maxBytes' | 'maxPasses'
>;

/** The samples of a component, at its own size: line by line from the top, without gaps. */
export interface Plane {
    width: number;
    height: number;
    /** A Uint16Array where the picture's `sampleBytes` is 2. */
    data: Data | ReturnType<Uint16Array['slice']>;
}

/** What decoding planes returns: one of each component, in the order of the frame header. */
export interface DecodedPlanes {
    picture: Picture;
    planes: Plane[];
}

/** The options of `rows`: the others arrange samples. */
export type RowsOptions = PlanesOptions & Pick<Options, 'colorTransform'>;

/**
 * The lines of a picture, from the top, each of them `picture.rowBytes` bytes in an array of its
 * own, outside the module's memory. The stream and the decoder's state stay in that memory until
 * the last line was given, `next` has thrown, or `return` was called, as `for` does where it is
 * left early; where nothing of these happens, until the iterator is collected.
 */
export interface Rows extends IterableIterator<Data> {
    readonly picture: Picture;
    /** How many lines were given. */
    readonly lines: number;
    /**
     * Gives the next line. `done` says that all were given and that the stream has no fault; only
     * then are the lines known to be right. A fault after some lines is thrown as a ZaxbriarError
     * with how many these are, `lines`; they are those that the stream codes before it.
     */
    next(): IteratorResult<Data, undefined>;
    /** Frees what the lines take in the module's memory. */
    return(): IteratorResult<Data, undefined>;
}

/** The options of `rows` for a stream, whose lines have their full size. */
export type ArrivingRowsOptions = Pick<
    Options,
    'colorTransform' | 'maxPixels' | 'maxBytes' | 'maxPasses'
>;

/**
 * The lines of a picture while its stream arrives, each as soon as its bytes are there. The stream
 * is read when a line is asked for, and what it takes in the module's memory is freed as that of
 * `Rows` is.
 */
export interface ArrivingRows extends AsyncIterableIterator<Data> {
    /** Null until there is a line. */
    readonly picture: Picture | null;
    /** How many lines were given. */
    readonly lines: number;
    /**
     * Gives the next line, as that of `Rows` does. The promise is rejected with what `rows` throws
     * for these bytes, also for their header, or with the stream's own error. A fault is told once
     * the stream has ended.
     */
    next(): Promise<IteratorResult<Data, undefined>>;
    /** Frees what the lines take in the module's memory, and cancels the stream. */
    return(): Promise<IteratorResult<Data, undefined>>;
}

/** The options of `showStream`: those of `feed`, and this one. */
export interface ShowingOptions extends Options {
    /**
     * How many times as many bytes as at the last picture there are when the next one is shown:
     * a number above 1. The default is 2.
     */
    growth?: number;
}

/** What `showStream` and `rows` take: pieces as they come, of any size. */
export type Pieces = ReadableStream<Bytes> | AsyncIterable<Bytes> | Iterable<Bytes>;

/**
 * A stream that arrives in pieces. However it was cut, `info` and `show` answer as `readInfo` and
 * as `decode` with `partial` do of all bytes that were fed. These, and what whole scans among them
 * have brought, stay in the module's memory until `free`, or until the object is collected.
 */
export interface Fed {
    /** How many bytes were fed. */
    readonly byteLength: number;
    /**
     * Copies the next bytes, and reads nothing of them. A ZaxbriarError, which is NO_MEMORY, says
     * that none were taken.
     */
    feed(piece: Bytes): void;
    /** Describes the picture, by its header; null: the bytes end before that does. */
    info(): Picture | null;
    /**
     * Decodes what the bytes bring. `fault` is TRUNCATED while they end before the image does; any
     * other, or null, is final: bytes that follow change nothing. Throws a ZaxbriarError where the
     * header isn't there, too, which is TRUNCATED while it may come.
     *
     * Each whole scan is read once, by the first call after it has arrived, and the scan in which
     * the bytes end by each call; and each call makes all pixels. So show a picture once the bytes
     * have doubled, say, and not for each small piece. With `scale`, `minWidth` or `minHeight` each
     * call reads all bytes.
     */
    show(): PartialPicture;
    /** Frees what the stream takes in the module's memory. Other calls throw an Error then. */
    free(): void;
    /** The same, at the end of a block: `using fed = zaxbriar.feed()`. */
    [Symbol.dispose](): void;
}

declare global {
    // (TypeScript has it since 5.2, where the program asks for it)
    interface SymbolConstructor {
        readonly dispose: unique symbol;
    }
}

/** Compiles the module, for several decoders; by default the one that lies beside zaxbriar.mjs. */
export function compile(source?: Source | Promise<Source>): Promise<WebAssembly.Module>;

export interface DecoderOptions {
    /** How many bytes the module's memory may have, of 65,536 each; 0: nearly 4 GiB. */
    maxMemory?: number;
}

/** Compiles the module, and returns a decoder. */
export function load(
    source?: Source | Promise<Source>,
    options?: DecoderOptions,
): Promise<Zaxbriar>;

/**
 * A decoder. Each call throws a ZaxbriarError where the stream or the call is refused, and a
 * TypeError or RangeError, which names it, where an option or its value doesn't exist. A call that
 * traps throws the engine's error, and the next one begins with a new instance of the module.
 */
export class Zaxbriar {
    constructor(module: WebAssembly.Module, options?: DecoderOptions);

    /** Describes the stream's picture, by its header. */
    readInfo(jpeg: Bytes, options?: Options): Picture;

    /**
     * Decodes the picture. `pixels` is a copy, outside the module's memory. With `partial`, `fault`
     * is the first fault of the stream, or null if it has none, and `wholeRows` is how many rows
     * are complete; a stream whose header can't be decoded is refused all the same.
     */
    decode(jpeg: Bytes, options: PartialOptions): PartialPicture;
    decode(jpeg: Bytes, options?: DecodingOptions & { partial?: false }): DecodedPicture;
    decode(jpeg: Bytes, options?: DecodingOptions): DecodedPicture | PartialPicture;

    /**
     * Decodes the samples of each component at the component's own size, neither upsampled nor
     * converted, as video and graphics processors take them: of a picture in 4:2:0 its luma, and
     * two planes of half the width and half the height. Streams whose colours `decode` doesn't know
     * have planes, too. They are views of one buffer, outside the module's memory, in which they
     * stand one after the other. The limits are those of `decode`; planes may be copied while they
     * are made, which takes at most as much memory once more.
     */
    decodePlanes(jpeg: Bytes, options?: PlanesOptions): DecodedPlanes;

    /**
     * Describes the picture, and gives its lines one by one while the stream is read, for a program
     * that needs no whole picture in memory: `for (const line of zaxbriar.rows(jpeg)) {..}`. If the
     * first scan has all components of a sequential frame, as in most files, two rows of MCUs are
     * in memory at most, whatever the height is. Other streams are read to their end for the first
     * line. The lines are those of `decode` with the same options, and so are the limits.
     *
     * Several pictures can be read at a time, and other calls made in between, but `reset`, or
     * a call that traps, ends them: `next` then throws an Error.
     */
    rows(jpeg: Bytes, options?: RowsOptions): Rows;

    /**
     * Gives the lines while the stream arrives: `for await (const line of
     * zaxbriar.rows(response.body)) {..}`. They and the errors are those of the bytes in one piece.
     * Of most files each row of MCUs is decoded once, when its bytes are there, which are dropped
     * then. Files with several scans give all lines after the end of the stream.
     *
     * The stream is read to its end. It is cancelled where the lines are left early, or refused by
     * their header.
     */
    rows(stream: Pieces, options?: ArrivingRowsOptions): ArrivingRows;

    /**
     * Takes a stream in pieces, and shows at any time the picture of what has arrived. The limits
     * are those of `decode`; `maxMemory` also bounds how many bytes are taken.
     *
     * Several streams can be fed at a time, and other calls made in between, but `reset`, or
     * a call that traps, ends them: their calls then throw an Error.
     */
    feed(options?: Options): Fed;

    /**
     * Shows a picture while it arrives: `for await (const { picture, pixels, fault } of
     * zaxbriar.showStream(response.body)) {..}`. The first one comes once the header is there, and
     * others each time that there are `growth` times as many bytes. The last one is that of all
     * bytes. It comes earlier if the image ends before the stream, or has a fault other than its
     * end: the rest of the stream isn't read. For each of them all pixels are made, which takes
     * half as long as decoding, or more, however little has come.
     *
     * A stream that isn't read to its end is cancelled: also where the loop is left early, or for
     * an error. A stream without a picture throws as `decode` does, and one that fails its error.
     */
    showStream(
        stream: Pieces,
        options?: ShowingOptions,
    ): AsyncGenerator<PartialPicture, void, undefined>;

    /**
     * Returns Exif data from the TIFF header on, XMP data or an ICC profile, of the segments before
     * the frame header; null: none.
     */
    metadata(jpeg: Bytes, kind: 'exif' | 'xmp' | 'icc'): Data | null;

    /**
     * Returns metadata of the whole image that may stand in several segments, joined from them, by
     * its markers alone and without decoding; null: none, as in bytes that are no JPEG stream. The
     * kinds are `exif`, from the TIFF header on; `xmp`, the main packet; `extendedXmp`, what that
     * packet names; `iptc`; and `thumbnail`, a JPEG stream as a rule, that of the Exif data.
     */
    joinedMetadata(
        jpeg: Bytes,
        kind: 'exif' | 'xmp' | 'extendedXmp' | 'iptc' | 'thumbnail',
    ): Data | null;

    /** The bytes of the module's memory. It never shrinks. */
    readonly memoryBytes: number;

    /** Gives the memory back: the next call begins with a new instance. */
    reset(): void;

    /** The version of the library, as 0.1.0. */
    readonly version: string;
}
