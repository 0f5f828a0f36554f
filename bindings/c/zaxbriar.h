/* zaxbriar: a JPEG decoder whose calls are proved.
 *
 *     zaxbriar_picture picture;
 *     if (zaxbriar_read_info(jpeg, jpeg_size, NULL, &picture) != ZAXBRIAR_OK)
 *         fail(picture.text);
 *     unsigned char *pixels = malloc(picture.size);
 *     if (zaxbriar_decode(jpeg, jpeg_size, NULL, pixels, picture.size, &picture) != ZAXBRIAR_OK)
 *         fail(picture.text);
 *
 * The calls keep no state: there is no handle to create or free, any thread may make any call at
 * any time, and a call frees all memory that it has allocated before it returns. The exceptions are
 * a picture that is taken line by line, by a zaxbriar_rows, and a stream that arrives in pieces, by
 * a zaxbriar_fed. Whatever the bytes of the stream are, a call returns; it never aborts, prints,
 * calls longjmp or blocks.
 *
 * The caller guarantees that
 * - `jpeg` points to `jpeg_size` readable bytes that don't change during the call, and so does
 *   `bytes` to `size` ones;
 * - `pixels`, `data`, `line`, `picture`, `length`, `segment` and `places` point to writable memory,
 *   which doesn't overlap each other, `jpeg` or `options`, and which nothing else uses during the
 *   call;
 * - at least 64 kB of stack are left;
 * - the system has 64-bit pointers.
 *
 * A picture is returned as the stream stores it, or converted to grey or colour (`layout`), turned
 * upright if that is asked for (`upright`), and without its colours (`luma`). As stored it has 1, 3
 * or 4 components: grey; red, green and blue; or cyan, magenta, yellow and black, of which the
 * greatest value is full ink.
 * A sample of at most 8 bits takes one byte; a sample of more bits takes two, the lower byte first
 * (only lossless pictures have other than 8 bits).
 *
 * zaxbriar_decode_planes returns the samples as the stream codes them: those of each component, at
 * the component's own size, neither upsampled nor converted.
 */
#ifndef ZAXBRIAR_H
#define ZAXBRIAR_H

#include <stddef.h>
#include <stdint.h>

/* The version of this header, as 0x00MMmmpp. zaxbriar_version returns that of the library. */
#define ZAXBRIAR_VERSION 0x000100
#define ZAXBRIAR_VERSION_TEXT "0.1.0"

#ifdef __cplusplus
extern "C" {
#endif

#if defined __GNUC__ && __GNUC__ >= 4
#define ZAXBRIAR_API __attribute__((visibility("default")))
#define ZAXBRIAR_CALL ZAXBRIAR_API __attribute__((warn_unused_result))
#else
#define ZAXBRIAR_API
#define ZAXBRIAR_CALL
#endif

/* What a call returns. Unless it is ZAXBRIAR_OK or ZAXBRIAR_PARTIAL, `pixels`, `data` and `line`
 * are unchanged. */
typedef enum zaxbriar_result {
    ZAXBRIAR_OK = 0,
    ZAXBRIAR_MALFORMED = 1,    /* the stream breaks a rule of the standard */
    ZAXBRIAR_UNSUPPORTED = 2,  /* the stream needs an unsupported feature: picture.feature */
    ZAXBRIAR_TRUNCATED = 3,    /* the stream ends too soon */
    ZAXBRIAR_NO_MEMORY = 4,    /* out of memory */
    ZAXBRIAR_NO_ROOM = 5,      /* the buffer is too small: picture.size, picture.planes_size or
                                  *length is needed */
    ZAXBRIAR_BAD_ARGUMENT = 6, /* a null pointer, options that don't exist, a stride that is shorter
                                  than a line of the picture or above 2^32, a crop that isn't
                                  inside the picture, or an option that planes don't have */
    ZAXBRIAR_NO_DATA = 7,      /* the header, or the whole image, has no such metadata */
    ZAXBRIAR_TOO_LARGE = 8,    /* according to its header, the picture exceeds a limit */
    ZAXBRIAR_PARTIAL = 9,      /* only of zaxbriar_decode_partial and zaxbriar_fed_show: the stream
                                  has a fault, and `pixels` has what it brings up to it:
                                  picture.fault */
    ZAXBRIAR_TOO_MANY_PASSES = 10, /* only of zaxbriar_decode, zaxbriar_decode_planes and the calls
                                      that ZAXBRIAR_END is of: the scans code the blocks of the
                                      picture more often than max_passes allows */
    ZAXBRIAR_END = 11,             /* only of zaxbriar_rows_next, zaxbriar_rows_refusal,
                                      zaxbriar_fed_next and zaxbriar_fed_refusal: there is no other
                                      line, and the stream has no fault */
    ZAXBRIAR_WAITING = 12          /* only of zaxbriar_fed_next: the next line needs more bytes */
} zaxbriar_result;

/* How the pixels are arranged. Every picture can be decoded into every layout. In all but
 * AS_STORED a pixel is first converted to red, green and blue from 0 to `full`, which is 65535 in
 * GREY16 and RGB16 and 255 in the others, by integer arithmetic:
 * - a sample of a precision of P bits becomes (sample * full + most / 2) / most, where most =
 *   2^P - 1, so that one of 8 or of 16 bits stays as it is where full is 255 or 65535; a greater
 *   sample, which a lossless picture may have, becomes full;
 * - a grey sample is repeated;
 * - cyan, magenta and yellow become red, green and blue by ((full - ink) * (full - black) + full /
 *   2) / full each. This is the simple formula of viewers; for exact colours use AS_STORED and the
 *   ICC profile.
 * A number of two bytes has the lower one first, as x86-64, arm64 and WebAssembly have theirs. */
typedef enum zaxbriar_layout {
    ZAXBRIAR_AS_STORED = 0, /* the samples of each pixel, in the order of the components */
    ZAXBRIAR_GREY = 1,      /* 1 byte: the grey sample; for a colour its luma, which is
                               (19595 * red + 38470 * green + 7471 * blue + 32768) / 65536 */
    ZAXBRIAR_RGB = 2,       /* 3 bytes */
    ZAXBRIAR_RGBA = 3,      /* 4 bytes, the last of which is 255 */
    ZAXBRIAR_BGRA = 4,      /* 4 bytes, the last of which is 255 */
    ZAXBRIAR_BGR = 5,       /* 3 bytes */
    ZAXBRIAR_XRGB = 6,      /* 4 bytes, the first of which is 255 */
    ZAXBRIAR_ABGR = 7,      /* 4 bytes, the first of which is 255 */
    ZAXBRIAR_RGB565 = 8,    /* 2 bytes: red / 8 * 2048 + green / 4 * 32 + blue / 8, each division
                               rounded down */
    ZAXBRIAR_GREY16 = 9,    /* 2 bytes: as GREY, of 16 bits */
    ZAXBRIAR_RGB16 = 10     /* 6 bytes: as RGB, of 16 bits each */
} zaxbriar_layout;

/* The coding process of a picture. */
typedef enum zaxbriar_process {
    ZAXBRIAR_NO_PROCESS = 0, /* there is no picture */
    ZAXBRIAR_SEQUENTIAL = 1, /* baseline, or extended sequential */
    ZAXBRIAR_PROGRESSIVE = 2,
    ZAXBRIAR_LOSSLESS = 3
} zaxbriar_process;

/* The components of a picture as it is stored, and the bits of a sample. */
typedef enum zaxbriar_format {
    ZAXBRIAR_NO_FORMAT = 0,     /* there is no picture */
    ZAXBRIAR_FORMAT_GREY8 = 1,  /* one component of at most 8 bits */
    ZAXBRIAR_FORMAT_GREY16 = 2, /* one component of 9 to 16 bits */
    ZAXBRIAR_FORMAT_RGB = 3,    /* three components, of `precision` bits each */
    ZAXBRIAR_FORMAT_CMYK = 4    /* four components, of `precision` bits each */
} zaxbriar_format;

/* The unit of a density. A file may have other numbers, which mean nothing. */
typedef enum zaxbriar_density_unit {
    ZAXBRIAR_NO_UNIT = 0, /* a pixel's width is to its height as vertical_density is to
                             horizontal_density; unknown if one of these is 0 */
    ZAXBRIAR_PER_INCH = 1,
    ZAXBRIAR_PER_CENTIMETRE = 2
} zaxbriar_density_unit;

/* How to interpret the components, regardless of what the stream says. RGB and YCBCR are for
 * pictures of three components, CMYK and YCCK for pictures of four; decoding any other picture with
 * them is MALFORMED (with `luma` see there). Grey and lossless pictures aren't affected.
 *
 * NONE returns the samples of several components without a conversion, component by component: a
 * line has `width` samples of the first component, then those of the second, and so on. It requires
 * the layout ZAXBRIAR_AS_STORED; any other is a ZAXBRIAR_BAD_ARGUMENT. (For three components
 * without a conversion, but pixel by pixel, use RGB.) */
typedef enum zaxbriar_transform {
    ZAXBRIAR_TRANSFORM_OF_STREAM = 0, /* as the stream says */
    ZAXBRIAR_TRANSFORM_NONE = 1,
    ZAXBRIAR_TRANSFORM_RGB = 2,   /* red, green and blue, unconverted */
    ZAXBRIAR_TRANSFORM_YCBCR = 3, /* luma and two colour differences */
    ZAXBRIAR_TRANSFORM_CMYK = 4,  /* cyan, magenta, yellow and black, stored inverted as by Adobe */
    ZAXBRIAR_TRANSFORM_YCCK = 5   /* YCBCR instead of cyan, magenta and yellow; and black */
} zaxbriar_transform;

/* The unsupported feature that a stream needs. Where N is mentioned, it is `feature_argument`. */
typedef enum zaxbriar_feature {
    ZAXBRIAR_NO_FEATURE = 0,           /* no feature is missing */
    ZAXBRIAR_FEATURE_HIERARCHICAL = 1, /* hierarchical coding, or a second frame */
    ZAXBRIAR_FEATURE_ARITHMETIC = 2,   /* arithmetic coding */
    ZAXBRIAR_FEATURE_PRECISION = 3,    /* samples of N bits */
    ZAXBRIAR_FEATURE_COMPONENTS = 4,   /* N components */
    ZAXBRIAR_FEATURE_DNL = 5,          /* a number of lines that follows the first scan */
    ZAXBRIAR_FEATURE_SUBSAMPLING = 6,  /* reserved: no stream is refused for it */
    ZAXBRIAR_FEATURE_FACTORS = 7,      /* sampling factors that don't divide the greatest ones */
    ZAXBRIAR_FEATURE_TRANSFORM = 8     /* libjpeg's big gamut colours: YCC (N = 6) or RGB (N = 7) */
} zaxbriar_feature;

/* Kinds of metadata, and what can be added to one of them. */
typedef enum zaxbriar_kind {
    ZAXBRIAR_EXIF = 1,
    ZAXBRIAR_XMP = 2,
    ZAXBRIAR_ICC = 3, /* not of zaxbriar_joined_metadata */

    /* Only of zaxbriar_joined_metadata. */
    ZAXBRIAR_EXTENDED_XMP = 4,
    ZAXBRIAR_IPTC = 5,
    ZAXBRIAR_THUMBNAIL = 6,

    ZAXBRIAR_WHOLE_IMAGE = 16 /* also from segments after the frame header */
} zaxbriar_kind;

/* Functions that the library takes its memory from, in place of malloc, realloc and free. They get
 * `context`, and have to behave like these for sizes that aren't 0: blocks are aligned to 16 bytes,
 * and a null pointer is returned if there is no memory. They have to return: no longjmp, and no C++
 * exception. They are called only while a call of this library runs, in its thread, and all blocks
 * have been freed when it returns; those of a zaxbriar_rows when zaxbriar_rows_free does, and those
 * of a zaxbriar_fed when zaxbriar_fed_free does. */
typedef struct zaxbriar_memory {
    void *(*allocate)(void *context, size_t size);
    void *(*resize)(void *context, void *block, size_t size);
    void (*release)(void *context, void *block);
    void *context;
} zaxbriar_memory;

/* Some of the bytes of `jpeg`; all zeros stand for none. */
typedef struct zaxbriar_place {
    uint64_t offset; /* where they begin */
    uint64_t size;   /* how many they are */
} zaxbriar_place;

/* Where the metadata of a whole image are: in all segments up to the end of the image, or as far as
 * there are whole segments. Of several segments with Exif data the last counts, and so with XMP
 * data.
 *
 * An ICC profile is joined from its parts in the order of their numbers. The number of a part, from
 * 1, and how many parts there are stand in the two bytes before its place:
 * jpeg[icc[i].offset - 2] and jpeg[icc[i].offset - 1]. */
typedef struct zaxbriar_places {
    zaxbriar_place exif;     /* Exif data, from the TIFF header on */
    zaxbriar_place xmp;      /* XMP data */
    uint64_t stream_bytes;   /* how many bytes there are up to the end of the last segment: if the
                                image ends, how many it takes */
    uint32_t icc_parts;      /* how many parts of an ICC profile there are, at most 2^32 - 1 */
    uint32_t ended;          /* 1 if the end of the image was reached, otherwise 0 */
    uint64_t reserved[4];    /* zero */
    zaxbriar_place icc[255]; /* the first parts, in the order of the stream; each without the 14
                                bytes of its name and numbers */
} zaxbriar_places;

/* The first segment in some bytes. What a result doesn't set is zero. */
typedef struct zaxbriar_segment {
    /* After ZAXBRIAR_OK. The payload of a segment follows its length field; RST0 to RST7, SOI, EOI
     * and TEM are markers without one, and have no payload. */
    uint64_t offset; /* where the payload begins */
    uint64_t size;   /* how many bytes it has */
    uint64_t end;    /* how many bytes there are up to the end of the segment */

    /* After ZAXBRIAR_TRUNCATED. */
    uint64_t needed;  /* how many more bytes are needed at least: with fewer the call is TRUNCATED
                         again, whatever they are */
    uint64_t skipped; /* how many bytes, from the first on, don't matter any more: all before the
                         marker, or without one all but an FF at the end. Without them the call
                         finds the same segment, so many bytes earlier */

    uint8_t marker;       /* the second byte of the marker's code, such as 0xE1 for APP1; 0 if there
                             is no marker. Also after ZAXBRIAR_TRUNCATED and ZAXBRIAR_MALFORMED */
    uint8_t reserved[23]; /* zero */
} zaxbriar_segment;

/* How to decode. Set the whole struct to zero first; a null pointer stands for all zeros. Later
 * versions may give reserved members a meaning, but zero will always mean what it means now, and
 * the struct will keep its size of 128 bytes. Values that a version doesn't know, in reserved
 * members too, are a ZAXBRIAR_BAD_ARGUMENT.
 *
 * `max_samples` and `max_bytes` are checked against the header, before anything is allocated for
 * the picture and before any byte after the header is read. A picture that exceeds one is
 * ZAXBRIAR_TOO_LARGE.
 *
 * `max_passes` bounds the time: each scan, of ten bytes or more, may go over all blocks of the
 * picture again. All together they may code `max_passes` times the blocks that one scan of all
 * components codes, at full size (eight samples of a lossless picture count as a block). The scan
 * that would exceed this is refused after its header, before its data, as ZAXBRIAR_TOO_MANY_PASSES
 * (as ZAXBRIAR_MALFORMED by zaxbriar_metadata_within); zaxbriar_decode_partial and
 * zaxbriar_fed_show give what the scans before it bring.
 *
 * `upright` turns the picture as picture.orientation says, from the Exif data before the frame
 * header: width, height, row_bytes and size are those of the upright picture, from
 * zaxbriar_read_info on, and `stride` and `bottom_up` are for its lines. All other members refer to
 * the picture as the stream has it: `orientation` itself, `min_width` and `min_height`, sampling
 * factors and densities, and `whole_rows` of a partial picture. Unless the orientation is 1, the
 * call allocates at most 32 lines besides `pixels`. With ZAXBRIAR_TRANSFORM_NONE, whose lines have
 * component after component, it is a ZAXBRIAR_BAD_ARGUMENT.
 *
 * `luma` gives of a picture in colour its luma alone, without a conversion: the samples of the
 * first component. It is described as a grey picture, from zaxbriar_read_info on: components,
 * format, pixel_bytes and size are those of one, `max_samples` counts its samples, and each layout
 * is made of them. The whole stream is read all the same, and refused for any fault in it. Decoding
 * is ZAXBRIAR_MALFORMED if the first of several components isn't luma, as in RGB, CMYK and YCCK
 * (picture.transform isn't ZAXBRIAR_TRANSFORM_YCBCR), or doesn't have a sample for each pixel. With
 * ZAXBRIAR_TRANSFORM_YCBCR as `transform` it counts as luma, also the first of four. Grey and
 * lossless pictures aren't affected.
 *
 * `crop_width` columns of `crop_height` lines are a part of the picture that the same options give
 * without a crop, at its scale and turned upright if they ask for that; `crop_left` and `crop_top`
 * are its first column and line, counted from 0. Unless all four are zero that part is given:
 * width, height, row_bytes and size are its own, from zaxbriar_read_info on, `stride` and
 * `bottom_up` are for its lines, `max_samples` counts its samples, and `whole_rows` of a partial
 * picture its rows, before it is turned. The whole stream is read all the same, and refused for any
 * fault in it, and decoding_bytes is that of the whole picture. A part without pixels, or one that
 * isn't inside the picture, is a ZAXBRIAR_BAD_ARGUMENT once the header has been read, with a text
 * that tells how large the picture is. With ZAXBRIAR_TRANSFORM_NONE any part is a
 * ZAXBRIAR_BAD_ARGUMENT, before the stream is read.
 *
 * `most_width` and `most_height` make the picture that the other options ask for, at its scale, its
 * luma and its part, fit within a size as it is shown: one that is wider or higher becomes the
 * greatest that fits, in its proportions. Width, height, row_bytes and size are then those, from
 * zaxbriar_read_info on, `stride` and `bottom_up` are for its lines, and `max_samples` counts its
 * samples; `whole_rows` of a partial picture counts rows of the picture before it is made smaller.
 * One side is the size's; the other, times that over what the side was, is rounded to the nearest
 * number, halves up, and 1 at least. Pixel x of `to` along a side of `from` is made of the pixels
 * from x * from / to to (x + 1) * from / to, rounded down, in the picture as it is stored: each
 * sample is the mean of theirs, rounded to the nearest number, halves up. A picture that fits stays
 * as it is: to read less of a large one, ask for a scale, too. The lines are taken one by one;
 * besides decoding_bytes the call has memory for the samples of the smaller picture, and four bytes
 * for each sample of a line. With ZAXBRIAR_TRANSFORM_NONE it is a ZAXBRIAR_BAD_ARGUMENT. */
typedef struct zaxbriar_options {
    uint64_t max_samples; /* limits width * height * components, at the scale; 0: no limit */
    uint64_t stride;      /* bytes from one line to the next, at most 2^32; 0: no gaps */

    /* Request the least of 1/8, 1/4, 1/2 and 1 at which the picture, before it is turned, is at
     * least that wide or that high. If one is 0, only the other counts; if both are, the picture
     * has its full size. */
    uint16_t min_width;
    uint16_t min_height;

    uint8_t transform;  /* zaxbriar_transform */
    uint8_t layout;     /* zaxbriar_layout */
    uint8_t scale;      /* 1, 2, 4 or 8: request exactly 1 / scale of each side, rounded up, and
                           ignore the two minima; 0: the minima count */
    uint8_t bottom_up;  /* 1: the first row is the last in memory: row y of the picture begins at
                           stride * (height - 1 - y) of `pixels`; 0: at stride * y */
    uint64_t max_bytes; /* limits picture.decoding_bytes; 0: no limit */
    const zaxbriar_memory *memory; /* null: malloc, realloc and free */
    zaxbriar_places *places; /* null, or where zaxbriar_read_info, zaxbriar_decode,
                                zaxbriar_decode_partial, zaxbriar_decode_planes,
                                zaxbriar_rows_new, zaxbriar_fed_info, zaxbriar_fed_show and
                                zaxbriar_fed_rows store what zaxbriar_find_metadata finds, whatever
                                they return but ZAXBRIAR_BAD_ARGUMENT; the limits don't affect it */
    uint64_t max_passes; /* limits how many times the scans may code the blocks of the picture, all
                            together; 0: no limit. Few files need more than 8; 100 is a limit for
                            untrusted ones */
    uint8_t upright;            /* 1: the picture is turned upright; 0: it stays as it is stored */
    uint8_t luma;               /* 1: of a picture in colour the luma alone; 0: with its colours */
    uint8_t reserved_bytes[6];  /* zero */

    /* The part of the picture that is requested, in pixels; all zeros: all of it. */
    uint16_t crop_left;
    uint16_t crop_top;
    uint16_t crop_width;
    uint16_t crop_height;

    /* The greatest size of the picture as it is shown, to which it is made smaller; 0: any. */
    uint16_t most_width;
    uint16_t most_height;
    uint8_t reserved_half[4];   /* zero */
    uint64_t reserved_words[6]; /* zero */
} zaxbriar_options;

/* Describes a picture as it is decoded with the options, also after ZAXBRIAR_NO_ROOM and
 * ZAXBRIAR_TOO_LARGE. If the header or the options are refused, everything is zero except `text`,
 * `feature`, `feature_argument` and `stream_bytes`. Later versions may use reserved members; the
 * struct will keep its size of 320 bytes. */
typedef struct zaxbriar_picture {
    uint64_t size;           /* of the picture in bytes: stride * (height - 1) + row_bytes */
    uint64_t row_bytes;      /* bytes of a line without its gap: width * pixel_bytes */
    uint64_t decoding_bytes; /* the most memory that a call uses for coefficients and samples at a
                                time, besides `pixels`, to decode the whole or a part; tables,
                                metadata, a few lines (32 more where it is turned) and, where a scan
                                is cut, a row of blocks (at most 1 MB) aren't counted, nor are the
                                samples of a scan of several components, or of a lossless frame,
                                that repeats components of an earlier scan: at most as much once
                                more; nor is a copy of the luma, where that alone is asked for of a
                                part, and one scan has all components, of the same factors; nor
                                are copies of planes in zaxbriar_decode_planes: at most as much
                                once more; nor the samples of a picture that is made smaller */
    uint64_t stream_bytes;   /* how many bytes of `jpeg` the image takes, after ZAXBRIAR_OK of
                                zaxbriar_decode and zaxbriar_decode_planes; or the header, after
                                ZAXBRIAR_OK of zaxbriar_read_info, ZAXBRIAR_NO_ROOM and
                                ZAXBRIAR_TOO_LARGE. Otherwise how many were read: 0 if the options
                                don't exist */
    uint32_t width;          /* in pixels, at the scale of the options, and upright or of a part if
                                they ask for that */
    uint32_t height;
    uint32_t whole_rows;      /* after ZAXBRIAR_PARTIAL, and ZAXBRIAR_OK of zaxbriar_decode_partial
                                 and zaxbriar_fed_show: how many rows of the picture, or of the
                                 part of it, from its top and before it is turned, are complete in
                                 each scan that has begun (all after ZAXBRIAR_OK); otherwise 0 */
    uint8_t pixel_bytes;      /* bytes of a pixel in this layout */
    uint8_t layout;           /* the requested layout */
    uint8_t components;       /* samples of a pixel as it is stored: one of each component of the
                                 stream, 1, 3 or 4; 1 if the luma alone is asked for */
    uint8_t precision;        /* of the stream: bits per sample, 2 to 16 */
    uint8_t sample_bytes;     /* of the stream: 1 or 2 */
    uint8_t process;          /* zaxbriar_process */
    uint8_t orientation;      /* 1 to 8, from Exif data before the frame; 1 if they give none */
    uint8_t format;           /* zaxbriar_format, of the picture as it is stored */
    uint8_t feature;          /* after ZAXBRIAR_UNSUPPORTED, and if `fault` is that:
                                 zaxbriar_feature; otherwise 0 */
    uint8_t feature_argument; /* the number that goes with the feature, or 0 */
    uint8_t sampling[4];      /* of the stream: the sampling factors of each component, as the
                                 frame header has them, from 1 to 4: the horizontal one in the
                                 upper four bits, the vertical one in the lower; 0 for a component
                                 that it doesn't have */
    uint8_t fault;            /* after ZAXBRIAR_PARTIAL: the stream's first fault, which is
                                 ZAXBRIAR_MALFORMED, ZAXBRIAR_UNSUPPORTED, ZAXBRIAR_TRUNCATED or
                                 ZAXBRIAR_TOO_MANY_PASSES; otherwise 0 */
    uint8_t density_unit;     /* of the stream: zaxbriar_density_unit, and then the pixels per unit
                                 across and down, at full size, as the first JFIF segment before
                                 the frame header gives them; zeros if none does */
    uint16_t horizontal_density;
    uint16_t vertical_density;
    uint8_t transform;        /* of the stream: the zaxbriar_transform that its header asks for, by
                                 the components' identifiers, or else a JFIF or an Adobe segment
                                 before the frame header: what zaxbriar_decode applies under
                                 ZAXBRIAR_TRANSFORM_OF_STREAM, unless such a segment follows. NONE
                                 for grey and lossless pictures, and 0 for libjpeg's big gamut
                                 colours, which aren't decoded */
    uint8_t reserved_byte;    /* zero */
    uint16_t plane_width[4];  /* of the stream: the width and the height of each component's
                                 samples, at the scale of the options; 0 for a component that it
                                 doesn't have. Neither layout, upright, luma, crop nor a size to fit
                                 within changes it */
    uint16_t plane_height[4];
    uint8_t reserved_bytes[6]; /* zero */
    uint64_t planes_size;     /* bytes of all these planes: plane_width * plane_height *
                                 sample_bytes of each */
    uint8_t reserved[112];    /* zero */
    char text[112];           /* why the call failed, or the fault of a partial picture, in English,
                                 ending with a zero; "" after OK */
} zaxbriar_picture;

/* Describes the picture of a stream, from its header. */
ZAXBRIAR_CALL zaxbriar_result zaxbriar_read_info(const void *jpeg, size_t jpeg_size,
                                                 const zaxbriar_options *options,
                                                 zaxbriar_picture *picture);

/* Decodes the picture into `pixels`. The bytes between the lines and after the last one are left
 * unchanged. If the buffer is too small, the call returns ZAXBRIAR_NO_ROOM before it decodes
 * anything. `picture` may be null.
 *
 * In every layout, with or without gaps, upright or not, lines are written directly into `pixels`;
 * there is no second picture, unless it is made smaller. */
ZAXBRIAR_CALL zaxbriar_result zaxbriar_decode(const void *jpeg, size_t jpeg_size,
                                              const zaxbriar_options *options, void *pixels,
                                              size_t pixels_size, zaxbriar_picture *picture);

/* Decodes as zaxbriar_decode does, but also a stream that is truncated or damaged: then `pixels`
 * gets the picture of what the stream brings up to its first fault, and the call returns
 * ZAXBRIAR_PARTIAL. What no scan has brought is mid-grey; the first `whole_rows` rows are complete,
 * and stay as they are if the scan goes on. ZAXBRIAR_OK means that the stream has no fault.
 *
 * MALFORMED, UNSUPPORTED and TRUNCATED are for streams without a frame header that can be decoded,
 * for a transform that doesn't fit the picture, and for a luma that it doesn't have. All other
 * values are as for zaxbriar_decode.
 *
 * The call uses no more memory than zaxbriar_decode: its `decoding_bytes`, with which it compares
 * `max_bytes`, is what zaxbriar_read_info returns. */
ZAXBRIAR_CALL zaxbriar_result zaxbriar_decode_partial(const void *jpeg, size_t jpeg_size,
                                                      const zaxbriar_options *options,
                                                      void *pixels, size_t pixels_size,
                                                      zaxbriar_picture *picture);

/* Decodes the samples of each component into `samples`, at the component's own size, as
 * picture.plane_width and picture.plane_height say, from zaxbriar_read_info on: line by line from
 * the top without gaps, and one component after the other, in the order of the frame header.
 * Nothing is upsampled and no colour is converted, so that this is also for streams whose colours
 * zaxbriar_decode doesn't know. Of a picture in 4:2:0, for instance:
 *
 *     unsigned char *luma = samples;
 *     unsigned char *blue = luma + (size_t)picture.plane_width[0] * picture.plane_height[0];
 *     unsigned char *red = blue + (size_t)picture.plane_width[1] * picture.plane_height[1];
 *
 * If the buffer is smaller than picture.planes_size, the call returns ZAXBRIAR_NO_ROOM before it
 * decodes anything. The bytes after the planes are left unchanged. `picture` may be null; otherwise
 * it describes the picture as zaxbriar_read_info does with these options.
 *
 * Of the options, the scale (min_width, min_height and scale), the limits, `memory` and `places`
 * count. The others arrange or convert samples and have to be zero: stride, layout, bottom_up,
 * transform, upright, luma, the crop and the size to fit within, or else the call returns
 * ZAXBRIAR_BAD_ARGUMENT. All other values are as for zaxbriar_decode: the whole stream is read, and
 * refused for any fault in it. */
ZAXBRIAR_CALL zaxbriar_result zaxbriar_decode_planes(const void *jpeg, size_t jpeg_size,
                                                     const zaxbriar_options *options,
                                                     void *samples, size_t samples_size,
                                                     zaxbriar_picture *picture);

/* Gives the lines of a picture one by one, from the top, while its stream is read: for a program
 * that needs no whole picture in memory.
 *
 *     zaxbriar_rows *rows;
 *     if (zaxbriar_rows_new(jpeg, jpeg_size, NULL, &rows, &picture) != ZAXBRIAR_OK)
 *         fail(picture.text);
 *     while (zaxbriar_rows_next(rows, line, picture.row_bytes) == ZAXBRIAR_OK)
 *         show(line);
 *     if (zaxbriar_rows_refusal(rows, &picture) != ZAXBRIAR_END)
 *         fail(picture.text);
 *     zaxbriar_rows_free(rows);
 *
 * If the first scan has all components of a sequential frame, as in most files, there are two rows
 * of MCUs in memory at most, whatever the height of the picture is. Other files (progressive,
 * lossless, or with a scan for each component) are read to their end for the first line, and take
 * picture.decoding_bytes.
 *
 * Any thread may make the calls with a zaxbriar_rows, one call at a time: threads that share one
 * take turns by a lock, say. Calls with different ones don't affect each other. */
typedef struct zaxbriar_rows zaxbriar_rows;

/* Describes the picture as zaxbriar_read_info does, and begins to give its lines. After ZAXBRIAR_OK
 * *rows is what the three calls below take, and otherwise a null pointer. `jpeg` has to stay, and
 * its bytes mustn't change, until zaxbriar_rows_free. `picture` may be null.
 *
 * Of the options, the scale (min_width, min_height and scale), the limits, `transform`, `memory`
 * and `places` count. The others arrange samples, and have to be zero: stride, layout, bottom_up,
 * upright, luma, the crop and the size to fit within; or else the call returns
 * ZAXBRIAR_BAD_ARGUMENT. `max_bytes` limits picture.decoding_bytes, as in the other calls, also
 * where two rows of MCUs would do. The functions of `memory` are copied, and are called by the
 * calls below too. */
ZAXBRIAR_CALL zaxbriar_result zaxbriar_rows_new(const void *jpeg, size_t jpeg_size,
                                                const zaxbriar_options *options,
                                                zaxbriar_rows **rows, zaxbriar_picture *picture);

/* Writes the next line: picture.row_bytes bytes, as zaxbriar_decode writes them. Returns
 * ZAXBRIAR_OK; or ZAXBRIAR_END after the last line, if the rest of the stream has no fault, either;
 * or ZAXBRIAR_NO_ROOM if line_size is less than picture.row_bytes, in which case the next call
 * gives the line; or why the stream is refused, as zaxbriar_decode does, of which
 * zaxbriar_rows_refusal tells more.
 *
 * Only at its end is a stream known to have no fault. Lines that were written before a refusal are
 * those that the stream codes before its fault; a program that must not show a part of a damaged
 * picture buffers them until ZAXBRIAR_END. All lines together are the picture of zaxbriar_decode.
 * One refusal is not among those of zaxbriar_decode: if a segment after the first scan asks for
 * another colour transform than the one by which lines were written, the stream is
 * ZAXBRIAR_MALFORMED.
 *
 * After ZAXBRIAR_END and a refusal each further call returns the same. */
ZAXBRIAR_CALL zaxbriar_result zaxbriar_rows_next(zaxbriar_rows *rows, void *line,
                                                 size_t line_size);

/* Tells why zaxbriar_rows_next has refused the stream: stores the text and the unsupported feature
 * in picture.text, picture.feature and picture.feature_argument, as zaxbriar_decode does; where it
 * hasn't, "" and 0. The other members of `picture` stay as they are, so that it may be the one of
 * zaxbriar_rows_new. Returns what zaxbriar_rows_next returns from then on, ZAXBRIAR_END or the
 * refusal; ZAXBRIAR_OK while there may be lines; or ZAXBRIAR_BAD_ARGUMENT for a null pointer. The
 * call reads nothing of the stream, and can be made any number of times. */
ZAXBRIAR_API zaxbriar_result zaxbriar_rows_refusal(zaxbriar_rows *rows, zaxbriar_picture *picture);

/* Frees all memory of what zaxbriar_rows_new has returned, at any time between two calls. A null
 * pointer is ignored. */
ZAXBRIAR_API void zaxbriar_rows_free(zaxbriar_rows *rows);

/* Takes a stream in pieces, as they arrive, and shows at any time the picture of what has arrived:
 * for a program that shows a picture while it is loaded. (For one that needs each line once, from
 * the top, see zaxbriar_fed_rows.)
 *
 *     zaxbriar_fed *fed;
 *     if (zaxbriar_fed_new(NULL, &fed) != ZAXBRIAR_OK)
 *         fail("out of memory");
 *     while ((size = receive(piece)) != 0) {
 *         if (zaxbriar_fed_feed(fed, piece, size) != ZAXBRIAR_OK)
 *             fail("out of memory");
 *         zaxbriar_result answer = zaxbriar_fed_info(fed, &picture);
 *         if (answer == ZAXBRIAR_OK && is_time_to_show()) {
 *             if (pixels == NULL)
 *                 pixels = malloc(picture.size);
 *             answer = zaxbriar_fed_show(fed, pixels, picture.size, &picture);
 *             if (answer == ZAXBRIAR_OK || answer == ZAXBRIAR_PARTIAL)
 *                 draw(pixels, picture.width, picture.height);
 *             else
 *                 fail(picture.text);
 *         } else if (answer != ZAXBRIAR_OK && answer != ZAXBRIAR_TRUNCATED) {
 *             fail(picture.text);
 *         }
 *     }
 *     zaxbriar_fed_free(fed);
 *
 * However the stream was cut, zaxbriar_fed_info answers as zaxbriar_read_info does, and
 * zaxbriar_fed_show as zaxbriar_decode_partial, of all bytes that were fed so far, in one piece,
 * and with the options of zaxbriar_fed_new. So while the header isn't complete both are
 * ZAXBRIAR_TRUNCATED; and then, while the image isn't, zaxbriar_fed_show is ZAXBRIAR_PARTIAL, and
 * picture.fault is ZAXBRIAR_TRUNCATED. Any other fault is one of the bytes that have arrived.
 *
 * All bytes that were fed stay in memory until zaxbriar_fed_free. Each segment and each whole scan
 * is read once, by the first zaxbriar_fed_show after it has arrived; what it has brought stays in
 * memory from then on, picture.decoding_bytes at most, and a call that shows takes as much again
 * while it runs. The scan in which the bytes end is read anew by each zaxbriar_fed_show, and the
 * lines are made anew. So of a progressive stream a call reads little more than one scan; but most
 * streams have a single scan, and a program that shows one after each small piece decodes it that
 * often. To make the lines alone takes about half as long as one decode, however little has come.
 * So show a picture once the bytes have doubled, say: eight such calls take about six times as long
 * as one decode. With min_width, min_height or scale each zaxbriar_fed_show reads all bytes. (A
 * program that only draws the new lines of such a stream takes them by zaxbriar_fed_next, all in
 * about one to two times the time of one decode, however small the pieces are.)
 *
 * Any thread may make the calls with a zaxbriar_fed, one call at a time: threads that share one
 * take turns by a lock, say. Calls with different ones don't affect each other. */
typedef struct zaxbriar_fed zaxbriar_fed;

/* Begins to take a stream, of which there are no bytes yet. After ZAXBRIAR_OK *fed is what the
 * calls below take, and otherwise a null pointer. Returns ZAXBRIAR_NO_MEMORY; or
 * ZAXBRIAR_BAD_ARGUMENT for options that don't exist, or a null pointer. (A stride or a crop that
 * doesn't fit the picture is one of the calls that describe and show it.)
 *
 * The options are copied, with the functions of `memory`, which are called by the calls below too.
 * `places` has to stay until zaxbriar_fed_free: zaxbriar_fed_info, zaxbriar_fed_show and
 * zaxbriar_fed_rows store there what the bytes have that were fed so far. */
ZAXBRIAR_CALL zaxbriar_result zaxbriar_fed_new(const zaxbriar_options *options,
                                               zaxbriar_fed **fed);

/* Copies the next bytes of the stream, of which there may be any number. Returns ZAXBRIAR_OK;
 * ZAXBRIAR_NO_MEMORY, after which none of them were taken, so that they can be fed again; or
 * ZAXBRIAR_BAD_ARGUMENT for a null pointer, and after zaxbriar_fed_end. The call reads nothing of
 * them. */
ZAXBRIAR_CALL zaxbriar_result zaxbriar_fed_feed(zaxbriar_fed *fed, const void *bytes, size_t size);

/* Describes the picture, as zaxbriar_read_info does of all bytes that were fed. The header is read
 * anew by each call. */
ZAXBRIAR_CALL zaxbriar_result zaxbriar_fed_info(zaxbriar_fed *fed, zaxbriar_picture *picture);

/* Decodes what the bytes bring into `pixels`, as zaxbriar_decode_partial does of all bytes that
 * were fed. More bytes can be fed after it, whatever it returns. `picture` may be null. */
ZAXBRIAR_CALL zaxbriar_result zaxbriar_fed_show(zaxbriar_fed *fed, void *pixels,
                                                size_t pixels_size, zaxbriar_picture *picture);

/* Begins to give the lines of the picture one by one, from the top, soon after their bytes have
 * come: for a program that needs each line once, and no whole picture in memory.
 *
 *     for (;;) {
 *         size = receive(piece);
 *         if (zaxbriar_fed_feed(fed, piece, size) != ZAXBRIAR_OK)
 *             fail("out of memory");
 *         if (line == NULL) {
 *             zaxbriar_result answer = zaxbriar_fed_rows(fed, &picture);
 *             if (answer == ZAXBRIAR_TRUNCATED && size != 0)
 *                 continue;
 *             if (answer != ZAXBRIAR_OK)
 *                 fail(picture.text);
 *             line = malloc(picture.row_bytes);
 *         }
 *         if (size == 0)
 *             zaxbriar_fed_end(fed);
 *         while (zaxbriar_fed_next(fed, line, picture.row_bytes) == ZAXBRIAR_OK)
 *             draw(line);
 *         if (size == 0)
 *             break;
 *     }
 *     if (zaxbriar_fed_refusal(fed, &picture) != ZAXBRIAR_END)
 *         fail(picture.text);
 *
 * Describes the picture as zaxbriar_fed_info does, which is ZAXBRIAR_TRUNCATED while the header
 * isn't complete: feed more, and call again. After ZAXBRIAR_OK the stream gives lines from then on,
 * and zaxbriar_fed_info, zaxbriar_fed_show and this call are ZAXBRIAR_BAD_ARGUMENT; after any other
 * result nothing has changed. `picture` may be null.
 *
 * Of the options, the limits, `transform`, `memory` and `places` count. The others have to be zero,
 * those of the scale (min_width, min_height and scale) too, or else the call returns
 * ZAXBRIAR_BAD_ARGUMENT. `max_bytes` limits picture.decoding_bytes, as in the other calls.
 *
 * If the first scan has all components of a sequential frame, as in most files, each row of MCUs is
 * decoded once, when its bytes are there, which are dropped then: in memory are two rows of MCUs at
 * most, and the bytes that were fed and not yet read. A row is tried once three quarters as many
 * bytes have come as the last one took, or pieces end with an EOI marker, and again once there are
 * half as many more, so that a line may come that much after its bytes. Other files (progressive,
 * lossless, or with a scan for each component) give all lines after zaxbriar_fed_end, and take
 * picture.decoding_bytes then. */
ZAXBRIAR_CALL zaxbriar_result zaxbriar_fed_rows(zaxbriar_fed *fed, zaxbriar_picture *picture);

/* Writes the next line: picture.row_bytes bytes. Returns ZAXBRIAR_OK; or ZAXBRIAR_WAITING while the
 * bytes of the line aren't all there: feed more, or call zaxbriar_fed_end; or ZAXBRIAR_END after
 * the last line, once the end was said, if the stream has no fault; or ZAXBRIAR_NO_ROOM if
 * line_size is less than picture.row_bytes, in which case the next call gives the line; or why the
 * stream is refused, of which zaxbriar_fed_refusal tells more; or ZAXBRIAR_BAD_ARGUMENT for a null
 * pointer, and before zaxbriar_fed_rows.
 *
 * However the stream was cut, lines and refusals are those of zaxbriar_rows_next, of all bytes in
 * one piece; what it says of lines before a refusal counts here too. Before zaxbriar_fed_end the
 * only refusal is ZAXBRIAR_NO_MEMORY: at a fault the call is ZAXBRIAR_WAITING until then. After
 * ZAXBRIAR_END and a refusal each further call returns the same. */
ZAXBRIAR_CALL zaxbriar_result zaxbriar_fed_next(zaxbriar_fed *fed, void *line, size_t line_size);

/* Says that no more bytes come. Returns ZAXBRIAR_OK; or ZAXBRIAR_BAD_ARGUMENT for a null pointer,
 * and before zaxbriar_fed_rows. */
ZAXBRIAR_API zaxbriar_result zaxbriar_fed_end(zaxbriar_fed *fed);

/* Tells why zaxbriar_fed_next has refused the stream, as zaxbriar_rows_refusal does.
 * ZAXBRIAR_BAD_ARGUMENT also before zaxbriar_fed_rows. */
ZAXBRIAR_API zaxbriar_result zaxbriar_fed_refusal(zaxbriar_fed *fed, zaxbriar_picture *picture);

/* Frees all memory of what zaxbriar_fed_new has returned, at any time between two calls. A null
 * pointer is ignored. */
ZAXBRIAR_API void zaxbriar_fed_free(zaxbriar_fed *fed);

/* Copies the metadata of a kind (zaxbriar_kind) from the segments before the frame: Exif data from
 * the TIFF header on, XMP data, or an ICC profile. Stores their number of bytes in *length, even if
 * `data_size` is too small. `data` may be null if `data_size` is 0, and `length` may be null. Data
 * of no bytes are ZAXBRIAR_OK with a length of 0; without data the call returns ZAXBRIAR_NO_DATA.
 *
 * With ZAXBRIAR_WHOLE_IMAGE, as in ZAXBRIAR_EXIF | ZAXBRIAR_WHOLE_IMAGE, all segments up to the end
 * of the image count, or up to its first fault. The call then reads the scans as well, which takes
 * about as long as decoding at full size, and as much memory. For a stream that you don't trust,
 * make the call with limits: zaxbriar_metadata_within.
 *
 * Of several segments with Exif data the last counts, and so with XMP data; an ICC profile is
 * joined from all of its parts. Data that precede a fault are copied all the same; if there are
 * none, the call returns the fault. */
ZAXBRIAR_CALL zaxbriar_result zaxbriar_metadata(const void *jpeg, size_t jpeg_size, int kind,
                                                void *data, size_t data_size, size_t *length);

/* Copies metadata as zaxbriar_metadata does, within the limits of some options (`max_samples` and
 * `max_bytes`, at full size, and `max_passes`) and with their `memory`; the other options are
 * ignored. A picture above a limit is ZAXBRIAR_TOO_LARGE if `kind` has ZAXBRIAR_WHOLE_IMAGE: its
 * scans aren't read. */
ZAXBRIAR_CALL zaxbriar_result zaxbriar_metadata_within(const void *jpeg, size_t jpeg_size,
                                                       const zaxbriar_options *options, int kind,
                                                       void *data, size_t data_size,
                                                       size_t *length);

/* Finds where the metadata of a whole image are, without decoding or copying anything: the call
 * looks at the markers alone, allocates nothing and takes as long as a search for bytes. What it
 * finds is what zaxbriar_metadata copies with ZAXBRIAR_WHOLE_IMAGE if the image has no fault; in a
 * damaged one it may find more, since the scans aren't read.
 *
 * Returns ZAXBRIAR_OK also for bytes that aren't a JPEG stream, in which there may be nothing, and
 * ZAXBRIAR_BAD_ARGUMENT only for a null pointer. */
ZAXBRIAR_CALL zaxbriar_result zaxbriar_find_metadata(const void *jpeg, size_t jpeg_size,
                                                     zaxbriar_places *places);

/* Copies metadata of a whole image that cameras, phones and editors may write in several segments,
 * joined from them, as zaxbriar_metadata copies those of one segment. `kind` is one of
 * - ZAXBRIAR_EXIF: Exif data from the TIFF header on, joined from the last segment that begins with
 *   such a header and those after it that continue it (zaxbriar_metadata copies the last segment
 *   alone);
 * - ZAXBRIAR_XMP: the XMP data of the last segment that has some, the main packet;
 * - ZAXBRIAR_EXTENDED_XMP: the extension that the main packet names, joined from its parts, if each
 *   byte of it is there exactly once (XMP Specification, part 3, 1.1.3.1), of at most 4,096 parts;
 * - ZAXBRIAR_IPTC: IPTC data, the first image resource 0x0404 of Photoshop's segments;
 * - ZAXBRIAR_THUMBNAIL: the thumbnail in the Exif data, which is a JPEG stream as a rule.
 *
 * Any other kind is a ZAXBRIAR_BAD_ARGUMENT: one with ZAXBRIAR_WHOLE_IMAGE, since the call always
 * takes the whole image, and ZAXBRIAR_ICC, which zaxbriar_metadata joins.
 *
 * The call decodes nothing. It looks at the markers alone, as zaxbriar_find_metadata does, up to
 * the end of the image or as far as there are whole segments, and collects what these bring in
 * memory of its own, a few times their size at most. Of the options, which may be null, only
 * `memory` counts.
 *
 * Returns ZAXBRIAR_OK; ZAXBRIAR_NO_ROOM, with the needed size in *length; ZAXBRIAR_NO_DATA, also
 * for bytes that aren't a JPEG stream; ZAXBRIAR_NO_MEMORY; or ZAXBRIAR_BAD_ARGUMENT. */
ZAXBRIAR_CALL zaxbriar_result zaxbriar_joined_metadata(const void *jpeg, size_t jpeg_size,
                                                       const zaxbriar_options *options, int kind,
                                                       void *data, size_t data_size,
                                                       size_t *length);

/* Finds the first marker in some bytes, whatever stands before it, and the payload of its segment.
 * Returns ZAXBRIAR_OK; ZAXBRIAR_TRUNCATED if the bytes end before the segment does, or contain no
 * marker; ZAXBRIAR_MALFORMED if its length field is less than 2, its own size; or
 * ZAXBRIAR_BAD_ARGUMENT for a null pointer.
 *
 * To list the segments of a stream, make the call again with the bytes after each `end`. After SOS
 * it passes over the entropy-coded data to the next marker, which may be an RST. Stop at EOI, 0xD9.
 *
 * To read a stream piece by piece, without a byte too many, read `needed` bytes after each
 * ZAXBRIAR_TRUNCATED, and make the call again with all bytes that were read but the first `skipped`
 * ones. */
ZAXBRIAR_CALL zaxbriar_result zaxbriar_next_segment(const void *jpeg, size_t jpeg_size,
                                                    zaxbriar_segment *segment);

/* Returns a short English name of a value that a call returns. */
ZAXBRIAR_API const char *zaxbriar_answer_name(int answer);

/* Returns the version of the library; ZAXBRIAR_VERSION is that of the header. */
ZAXBRIAR_API uint32_t zaxbriar_version(void);

#ifdef __cplusplus
}
#endif
#endif
