/* known: streams that were made by hand, whose samples are known, through each call. */
#include "common.h"

/* A grey stream of 8 by 8 pixels, each 0x81. */
static const unsigned char grey[] = {
    0xff, 0xd8, 0xff, 0xdb, 0x00, 0x43, 0x00, 0x01, 0x01, 0x01, 0x01, 0x01, 0x01, 0x01, 0x01, 0x01,
    0x01, 0x01, 0x01, 0x01, 0x01, 0x01, 0x01, 0x01, 0x01, 0x01, 0x01, 0x01, 0x01, 0x01, 0x01, 0x01,
    0x01, 0x01, 0x01, 0x01, 0x01, 0x01, 0x01, 0x01, 0x01, 0x01, 0x01, 0x01, 0x01, 0x01, 0x01, 0x01,
    0x01, 0x01, 0x01, 0x01, 0x01, 0x01, 0x01, 0x01, 0x01, 0x01, 0x01, 0x01, 0x01, 0x01, 0x01, 0x01,
    0x01, 0x01, 0x01, 0x01, 0x01, 0x01, 0x01, 0xff, 0xc0, 0x00, 0x0b, 0x08, 0x00, 0x08, 0x00, 0x08,
    0x01, 0x01, 0x11, 0x00, 0xff, 0xc4, 0x00, 0x14, 0x00, 0x01, 0x00, 0x00, 0x00, 0x00, 0x00, 0x00,
    0x00, 0x00, 0x00, 0x00, 0x00, 0x00, 0x00, 0x00, 0x00, 0x04, 0xff, 0xc4, 0x00, 0x14, 0x10, 0x01,
    0x00, 0x00, 0x00, 0x00, 0x00, 0x00, 0x00, 0x00, 0x00, 0x00, 0x00, 0x00, 0x00, 0x00, 0x00, 0x00,
    0xff, 0xda, 0x00, 0x08, 0x01, 0x01, 0x00, 0x00, 0x3f, 0x00, 0x43, 0xff, 0xd9,
};

/* Where the header of this stream ends: its frame. */
enum { GREY_HEADER = 84 };

/* A lossless stream of one pixel of three components of 16 bits. The first samples are predicted as
 * 2^15, and their differences are 0, 1 and -1. Byte 6 is the precision. */
static const unsigned char deep[] = {
    0xff, 0xd8, 0xff, 0xc3, 0x00, 0x11, 0x10, 0x00, 0x01, 0x00, 0x01, 0x03, 0x01, 0x11, 0x00, 0x02,
    0x11, 0x00, 0x03, 0x11, 0x00, 0xff, 0xc4, 0x00, 0x15, 0x00, 0x01, 0x01, 0x00, 0x00, 0x00, 0x00,
    0x00, 0x00, 0x00, 0x00, 0x00, 0x00, 0x00, 0x00, 0x00, 0x00, 0x00, 0x01, 0xff, 0xda, 0x00, 0x0c,
    0x03, 0x01, 0x00, 0x02, 0x00, 0x03, 0x00, 0x01, 0x00, 0x00, 0x59, 0xff, 0xd9,
};

/* An APP1 segment whose Exif data have the orientation 6, the higher byte first, and the same with
 * the lower byte first. */
static const unsigned char exif[2][32] = {
    {0xff, 0xe1, 0x00, 0x1e, 'E',  'x',  'i',  'f',  0x00, 0x00, 'M',
     'M',  0x00, 0x2a, 0x00, 0x00, 0x00, 0x08, 0x00, 0x01, 0x01, 0x12,
     0x00, 0x03, 0x00, 0x00, 0x00, 0x01, 0x00, 0x06, 0x00, 0x00},
    {0xff, 0xe1, 0x00, 0x1e, 'E',  'x',  'i',  'f',  0x00, 0x00, 'I',
     'I',  0x2a, 0x00, 0x08, 0x00, 0x00, 0x00, 0x01, 0x00, 0x12, 0x01,
     0x03, 0x00, 0x01, 0x00, 0x00, 0x00, 0x06, 0x00, 0x00, 0x00},
};

static zaxbriar_picture picture;
static unsigned char pixels[300];

/* Decodes into memory of 7s. */
static zaxbriar_result decode(const unsigned char *jpeg, size_t size, zaxbriar_options options,
                              size_t room) {
    memset(pixels, 7, sizeof pixels);
    return zaxbriar_decode(jpeg, size, &options, pixels, room, &picture);
}

static void memory(void) {
    zaxbriar_options none = {0};
    unsigned char longer[sizeof grey + 1] = {0};
    CHECK(zaxbriar_read_info(grey, sizeof grey, NULL, &picture) == ZAXBRIAR_OK);
    CHECK(picture.size == 64 && picture.decoding_bytes == 192);
    CHECK(picture.stream_bytes == GREY_HEADER);
    CHECK(picture.process == ZAXBRIAR_SEQUENTIAL && picture.format == ZAXBRIAR_FORMAT_GREY8);
    CHECK(!memcmp(picture.sampling, "\x11\0\0", 4));
    CHECK(decode(grey, sizeof grey, none, 65) == ZAXBRIAR_OK);
    CHECK(is_all(pixels, 64, 0x81) && pixels[64] == 7);
    CHECK(picture.stream_bytes == 141);
    /* A byte after the end of the image isn't read. */
    memcpy(longer, grey, sizeof grey);
    CHECK(decode(longer, sizeof longer, none, 65) == ZAXBRIAR_OK && picture.stream_bytes == 141);
    CHECK(decode(grey, sizeof grey, none, 63) == ZAXBRIAR_NO_ROOM);
    CHECK(picture.size == 64 && picture.text[0] != 0 && is_all(pixels, 65, 7));
    CHECK(picture.stream_bytes == GREY_HEADER);
    CHECK(decode(grey, 140, none, 65) == ZAXBRIAR_TRUNCATED && is_all(pixels, 65, 7));
}

static void gaps(void) {
    for (uint8_t layout = ZAXBRIAR_AS_STORED; layout <= ZAXBRIAR_GREY; layout++)
        for (uint64_t asked = 7; asked <= 9; asked++) {
            zaxbriar_options options = {.layout = layout, .stride = asked == 7 ? 0 : asked};
            uint64_t stride = asked == 9 ? 9 : 8;
            CHECK(decode(grey, sizeof grey, options, 80) == ZAXBRIAR_OK);
            CHECK(picture.size == stride * 7 + 8);
            /* 128 of coefficients and 64 of samples, with gaps and without */
            CHECK(picture.decoding_bytes == 192);
            for (uint64_t x = 0; x < 80; x++)
                CHECK(pixels[x] == (x < picture.size && x % stride < 8 ? 0x81 : 7));
        }
}

static void deep_samples(void) {
    static const unsigned char wanted[] = {0x00, 0x80, 0x01, 0x80, 0xff, 0x7f};
    zaxbriar_options options = {0};
    CHECK(decode(deep, sizeof deep, options, 6) == ZAXBRIAR_OK);
    CHECK(!memcmp(pixels, wanted, 6) && picture.size == 6 && picture.pixel_bytes == 6);
    CHECK(picture.precision == 16 && picture.sample_bytes == 2 && picture.components == 3);
    CHECK(picture.process == ZAXBRIAR_LOSSLESS && picture.format == ZAXBRIAR_FORMAT_RGB);
    /* the three planes, of two bytes a sample, with a gap and without */
    CHECK(picture.decoding_bytes == 6);
    options.stride = 7;
    CHECK(decode(deep, sizeof deep, options, 6) == ZAXBRIAR_OK && picture.decoding_bytes == 6);
    /* on the scale of 8 bits: (32768 * 255 + 32767) / 65535, and so on */
    options.layout = ZAXBRIAR_RGBA;
    CHECK(decode(deep, sizeof deep, options, 4) == ZAXBRIAR_OK);
    CHECK(!memcmp(pixels, (unsigned char[]){128, 128, 127, 255}, 4) && picture.pixel_bytes == 4);
    options.layout = ZAXBRIAR_GREY;
    CHECK(decode(deep, sizeof deep, options, 1) == ZAXBRIAR_OK && pixels[0] == 128);
    /* on their own scale: as they are stored, and (19595 * 32768 + 38470 * 32769 + 7471 * 32767 +
     * 32768) / 65536 */
    options.layout = ZAXBRIAR_RGB16;
    CHECK(decode(deep, sizeof deep, options, 6) == ZAXBRIAR_OK);
    CHECK(!memcmp(pixels, (unsigned char[]){0, 0x80, 1, 0x80, 0xff, 0x7f}, 6));
    options.layout = ZAXBRIAR_GREY16;
    CHECK(decode(deep, sizeof deep, options, 2) == ZAXBRIAR_OK);
    CHECK(pixels[0] == 0 && pixels[1] == 0x80 && picture.pixel_bytes == 2);
}

static void layouts_of_grey(void) {
    zaxbriar_options options = {.stride = 34, .layout = ZAXBRIAR_BGRA};
    CHECK(decode(grey, sizeof grey, options, 300) == ZAXBRIAR_OK);
    CHECK(picture.size == 34 * 7 + 32);
    CHECK(pixels[4] == 0x81 && pixels[7] == 255 && pixels[32] == 7 && pixels[33] == 7);
    CHECK(pixels[34] == 0x81 && pixels[269] == 255 && pixels[270] == 7);
    options = (zaxbriar_options){.layout = ZAXBRIAR_RGB};
    CHECK(decode(grey, sizeof grey, options, 300) == ZAXBRIAR_OK);
    CHECK(picture.size == 192 && is_all(pixels, 192, 0x81));
}

static void layouts_of_colours(void) {
    static const unsigned char wanted[][7] = {
        /* (19595 * 128 + 38470 * 129 + 7471 * 127) / 65536 */
        [ZAXBRIAR_GREY] = {0x80, 7, 7, 7, 7, 7, 7},
        [ZAXBRIAR_RGB] = {0x80, 0x81, 0x7f, 7, 7, 7, 7},
        [ZAXBRIAR_RGBA] = {0x80, 0x81, 0x7f, 255, 7, 7, 7},
        [ZAXBRIAR_BGRA] = {0x7f, 0x81, 0x80, 255, 7, 7, 7},
        [ZAXBRIAR_BGR] = {0x7f, 0x81, 0x80, 7, 7, 7, 7},
        [ZAXBRIAR_XRGB] = {255, 0x80, 0x81, 0x7f, 7, 7, 7},
        [ZAXBRIAR_ABGR] = {255, 0x7f, 0x81, 0x80, 7, 7, 7},
        /* 16 * 2048 + 32 * 32 + 15, the lower byte first */
        [ZAXBRIAR_RGB565] = {0x0f, 0x84, 7, 7, 7, 7, 7},
        /* each times 257, and (19595 * 32896 + 38470 * 33153 + 7471 * 32639 + 32768) / 65536 */
        [ZAXBRIAR_GREY16] = {0xfa, 0x80, 7, 7, 7, 7, 7},
        [ZAXBRIAR_RGB16] = {0x80, 0x80, 0x81, 0x81, 0x7f, 0x7f, 7},
    };
    unsigned char stream[sizeof deep];
    memcpy(stream, deep, sizeof deep);
    stream[6] = 8; /* samples of 8 bits are predicted as 2^7 */
    for (uint8_t layout = ZAXBRIAR_GREY; layout <= ZAXBRIAR_RGB16; layout++) {
        zaxbriar_options options = {.layout = layout};
        CHECK(decode(stream, sizeof stream, options, 7) == ZAXBRIAR_OK);
        CHECK(!memcmp(pixels, wanted[layout], 7) && picture.process == ZAXBRIAR_LOSSLESS);
    }
}

static void refusals(void) {
    static const unsigned char arithmetic[] = {0xff, 0xd8, 0xff, 0xcc};
    static const zaxbriar_options wrong[] = {{.layout = 11},
                                             {.stride = 7},
                                             {.transform = 6},
                                             {.transform = 1, .layout = ZAXBRIAR_GREY},
                                             {.bottom_up = 2},
                                             {.upright = 2},
                                             {.luma = 2},
                                             {.transform = 1, .upright = 1}};
    for (size_t i = 0; i < sizeof wrong / sizeof *wrong; i++) {
        CHECK(zaxbriar_read_info(grey, sizeof grey, &wrong[i], &picture) == ZAXBRIAR_BAD_ARGUMENT);
        CHECK(picture.text[0] != 0 && picture.feature == ZAXBRIAR_NO_FEATURE);
    }
    CHECK(zaxbriar_read_info("GIF89a", 6, NULL, &picture) == ZAXBRIAR_MALFORMED);
    CHECK(zaxbriar_read_info(arithmetic, sizeof arithmetic, NULL, &picture) ==
          ZAXBRIAR_UNSUPPORTED);
    CHECK(picture.width == 0 && picture.format == ZAXBRIAR_NO_FORMAT);
    CHECK(picture.feature == ZAXBRIAR_FEATURE_ARITHMETIC && picture.feature_argument == 0);
    CHECK(zaxbriar_decode(arithmetic, sizeof arithmetic, NULL, NULL, 0, &picture) ==
          ZAXBRIAR_UNSUPPORTED);
    CHECK(picture.feature == ZAXBRIAR_FEATURE_ARITHMETIC && picture.feature_argument == 0);
}

/* Features that are refused with a number, and after a header that is described. */
static void features(void) {
    static const unsigned char lines[] = {0xff, 0xdc, 0x00, 0x04, 0x00, 0x08};
    zaxbriar_options none = {0};
    unsigned char stream[sizeof grey + sizeof lines];
    memcpy(stream, grey, sizeof grey);
    stream[72] = 0xc1; /* extended, since a baseline frame has 8 bits */
    stream[75] = 12;
    CHECK(zaxbriar_read_info(stream, sizeof grey, NULL, &picture) == ZAXBRIAR_UNSUPPORTED);
    CHECK(picture.feature == ZAXBRIAR_FEATURE_PRECISION && picture.feature_argument == 12);
    CHECK(picture.width == 0 && picture.format == ZAXBRIAR_NO_FORMAT);
    memcpy(stream, grey, sizeof grey);
    memcpy(stream + sizeof grey - 2, lines, sizeof lines);
    CHECK(zaxbriar_read_info(stream, sizeof stream, NULL, &picture) == ZAXBRIAR_OK);
    CHECK(picture.feature == ZAXBRIAR_NO_FEATURE && picture.format == ZAXBRIAR_FORMAT_GREY8);
    CHECK(decode(stream, sizeof stream, none, 64) == ZAXBRIAR_UNSUPPORTED);
    CHECK(picture.feature == ZAXBRIAR_FEATURE_DNL && picture.feature_argument == 0);
    CHECK(picture.width == 8 && picture.format == ZAXBRIAR_FORMAT_GREY8 && is_all(pixels, 65, 7));
}

/* A stream of three components like `grey`, of samples 0x81, 0x7f and 0x82: with the transform NONE
 * each line has them one after the other, with RGB pixel by pixel, and its luma is the first. */
static void without_conversion(void) {
    static const unsigned char frame[] = {
        0xff, 0xc0, 0x00, 0x11, 0x08, 0x00, 0x08, 0x00, 0x08, 0x03,
        0x01, 0x11, 0x00, 0x02, 0x11, 0x00, 0x03, 0x11, 0x00,
    };
    static const unsigned char scan[] = {
        0xff, 0xda, 0x00, 0x0c, 0x03, 0x01, 0x00, 0x02, 0x00, 0x03,
        0x00, 0x00, 0x3f, 0x00, 0x40, 0xe7, 0xbf, 0xff, 0xd9,
    };
    static const unsigned char samples[] = {0x81, 0x7f, 0x82};
    enum { BEFORE = 71, TABLES = 44 };
    unsigned char stream[BEFORE + sizeof frame + TABLES + sizeof scan];
    memcpy(stream, grey, BEFORE);
    memcpy(stream + BEFORE, frame, sizeof frame);
    memcpy(stream + BEFORE + sizeof frame, grey + GREY_HEADER, TABLES);
    memcpy(stream + BEFORE + sizeof frame + TABLES, scan, sizeof scan);
    zaxbriar_options options = {.transform = ZAXBRIAR_TRANSFORM_NONE};
    CHECK(decode(stream, sizeof stream, options, 192) == ZAXBRIAR_OK);
    CHECK(picture.format == ZAXBRIAR_FORMAT_RGB && picture.row_bytes == 24);
    CHECK(!memcmp(picture.sampling, "\x11\x11\x11", 4));
    for (int i = 0; i < 192; i++) CHECK(pixels[i] == samples[i % 24 / 8]);
    options.transform = ZAXBRIAR_TRANSFORM_RGB;
    CHECK(decode(stream, sizeof stream, options, 192) == ZAXBRIAR_OK);
    for (int i = 0; i < 192; i++) CHECK(pixels[i] == samples[i % 3]);
    options.transform = ZAXBRIAR_TRANSFORM_CMYK;
    CHECK(decode(stream, sizeof stream, options, 192) == ZAXBRIAR_MALFORMED);
    options.transform = ZAXBRIAR_TRANSFORM_NONE; /* grey pictures aren't affected */
    CHECK(decode(grey, sizeof grey, options, 64) == ZAXBRIAR_OK && is_all(pixels, 64, 0x81));
    /* By its identifiers the first component is luma. */
    options = (zaxbriar_options){.luma = 1};
    CHECK(decode(stream, sizeof stream, options, 65) == ZAXBRIAR_OK);
    CHECK(picture.format == ZAXBRIAR_FORMAT_GREY8 && picture.components == 1);
    CHECK(!memcmp(picture.sampling, "\x11\x11\x11", 4) && picture.size == 64);
    CHECK(is_all(pixels, 64, 0x81) && pixels[64] == 7);
    CHECK(decode(stream, sizeof stream, options, 63) == ZAXBRIAR_NO_ROOM);
    options.layout = ZAXBRIAR_BGR;
    CHECK(decode(stream, sizeof stream, options, 192) == ZAXBRIAR_OK && is_all(pixels, 192, 0x81));
    options.transform = ZAXBRIAR_TRANSFORM_RGB;
    CHECK(decode(stream, sizeof stream, options, 192) == ZAXBRIAR_MALFORMED);
    CHECK(is_all(pixels, 192, 7));
}

/* Both limits, at the number that is allowed and one less: of the whole stream, of its header alone
 * and of a header that rubbish follows. */
static void limits(void) {
    unsigned char damaged[sizeof grey] = {0};
    memcpy(damaged, grey, GREY_HEADER);
    memcpy(damaged + GREY_HEADER, "\xff\xdb\0\1", 4); /* no length is below 2 */
    for (int which = 0; which < 2; which++) {
        uint64_t most = which ? 192 : 64;
        zaxbriar_options within = {.max_samples = which ? 0 : most, .max_bytes = which ? most : 0};
        zaxbriar_options above = within;
        *(which ? &above.max_bytes : &above.max_samples) = most - 1;
        CHECK(zaxbriar_read_info(grey, sizeof grey, &within, &picture) == ZAXBRIAR_OK);
        CHECK(decode(grey, sizeof grey, within, 64) == ZAXBRIAR_OK);
        CHECK(decode(grey, GREY_HEADER, within, 64) == ZAXBRIAR_TRUNCATED);
        CHECK(decode(damaged, sizeof grey, within, 64) == ZAXBRIAR_MALFORMED);
        CHECK(zaxbriar_read_info(grey, sizeof grey, &above, &picture) == ZAXBRIAR_TOO_LARGE);
        CHECK(picture.width == 8 && picture.size == 64 && picture.text[0] != 0);
        CHECK(picture.stream_bytes == GREY_HEADER);
        CHECK(decode(grey, sizeof grey, above, 64) == ZAXBRIAR_TOO_LARGE);
        CHECK(picture.width == 8 && picture.size == 64 && is_all(pixels, 64, 7));
        CHECK(picture.stream_bytes == GREY_HEADER);
        CHECK(decode(grey, sizeof grey, above, 0) == ZAXBRIAR_TOO_LARGE);
        CHECK(decode(grey, GREY_HEADER, above, 64) == ZAXBRIAR_TOO_LARGE);
        CHECK(decode(damaged, sizeof grey, above, 64) == ZAXBRIAR_TOO_LARGE);
        CHECK(zaxbriar_decode(grey, GREY_HEADER - 1, &above, pixels, 64, NULL) ==
              ZAXBRIAR_TRUNCATED);
    }
}

/* Decodes as far as the stream goes, into memory of 7s. */
static zaxbriar_result decode_partial(const unsigned char *jpeg, size_t size,
                                      zaxbriar_options options, size_t room) {
    memset(pixels, 7, sizeof pixels);
    return zaxbriar_decode_partial(jpeg, size, &options, pixels, room, &picture);
}

/* Whether the picture of `grey` is described beside this fault, with so many rows that are
 * complete. */
static int is_partial(zaxbriar_result fault, uint32_t rows) {
    return picture.width == 8 && picture.fault == fault && picture.whole_rows == rows &&
           picture.text[0] != 0 && is_all(picture.reserved, sizeof picture.reserved, 0);
}

/* A whole stream, and one that is cut: in its scan header, before and after its only block, after
 * its header, and in it. */
static void cut_streams(void) {
    enum { SCAN_HEADER = 130, BLOCK = 138 };
    zaxbriar_options none = {0};
    CHECK(decode_partial(grey, sizeof grey, none, 65) == ZAXBRIAR_OK);
    CHECK(is_all(pixels, 64, 0x81) && pixels[64] == 7);
    CHECK(picture.fault == 0 && picture.text[0] == 0 && picture.stream_bytes == 141);
    CHECK(picture.whole_rows == 8);
    for (size_t size = GREY_HEADER; size < sizeof grey; size++) {
        unsigned char *cut = block(size);
        memcpy(cut, grey, size);
        CHECK(decode_partial(cut, size, none, 65) == ZAXBRIAR_PARTIAL);
        int is_there = size > BLOCK;
        CHECK(is_partial(ZAXBRIAR_TRUNCATED, is_there ? 8 : 0));
        CHECK(picture.feature == ZAXBRIAR_NO_FEATURE);
        CHECK(is_all(pixels, 64, is_there ? 0x81 : 0x80) && pixels[64] == 7);
        free(cut);
    }
    CHECK(decode_partial(grey, GREY_HEADER - 1, none, 65) == ZAXBRIAR_TRUNCATED);
    CHECK(picture.fault == 0 && picture.width == 0 && picture.whole_rows == 0);
    CHECK(is_all(pixels, 65, 7));
    CHECK(zaxbriar_decode_partial(grey, SCAN_HEADER, NULL, pixels, 64, NULL) == ZAXBRIAR_PARTIAL);
}

/* A picture of two blocks, one below the other, of which the second lacks. */
static void lower_block_lacks(void) {
    enum { HEIGHT = 77 };
    zaxbriar_options none = {0}, half = {.scale = 2}, rgb = {.layout = ZAXBRIAR_RGB, .scale = 8};
    unsigned char stream[sizeof grey];
    memcpy(stream, grey, sizeof grey);
    stream[HEIGHT] = 16;
    CHECK(decode_partial(stream, sizeof stream, none, 128) == ZAXBRIAR_PARTIAL);
    CHECK(picture.height == 16 && picture.whole_rows == 8 && picture.fault != 0);
    CHECK(is_all(pixels, 64, 0x81) && is_all(pixels + 64, 64, 0x80));
    CHECK(decode_partial(stream, sizeof stream, half, 128) == ZAXBRIAR_PARTIAL);
    CHECK(picture.height == 8 && picture.whole_rows == 4);
    CHECK(is_all(pixels, 16, 0x81) && is_all(pixels + 16, 16, 0x80));
    CHECK(decode_partial(stream, sizeof stream, rgb, 128) == ZAXBRIAR_PARTIAL);
    CHECK(picture.height == 2 && picture.whole_rows == 1);
    CHECK(decode_partial(stream, sizeof stream, none, 127) == ZAXBRIAR_NO_ROOM);
    CHECK(picture.height == 16 && picture.whole_rows == 0);
    CHECK(zaxbriar_read_info(stream, sizeof stream, NULL, &picture) == ZAXBRIAR_OK);
    CHECK(picture.height == 16 && picture.whole_rows == 0);
    CHECK(decode(grey, sizeof grey, none, 64) == ZAXBRIAR_OK && picture.whole_rows == 0);
}

/* The same picture upright: by the orientation the upper block, which is there, is the upper half
 * of the picture, the lower one, the left or the right. */
static void turned_parts(void) {
    enum { HEIGHT = 77 };
    static const char sides[] = "?TTBBLRRL";
    unsigned char stream[sizeof grey + EXIF_BYTES];
    memcpy(stream, grey, 2);
    memcpy(stream + 2 + EXIF_BYTES, grey + 2, sizeof grey - 2);
    stream[HEIGHT + EXIF_BYTES] = 16;
    for (unsigned orientation = 1; orientation <= 8; orientation++) {
        zaxbriar_options options = {.upright = 1};
        int is_on_side = orientation > 4;
        exif_of(stream + 2, orientation);
        CHECK(decode_partial(stream, sizeof stream, options, 129) == ZAXBRIAR_PARTIAL);
        CHECK(picture.width == (is_on_side ? 16 : 8) && picture.height == (is_on_side ? 8 : 16));
        CHECK(picture.row_bytes == picture.width && picture.size == 128 && pixels[128] == 7);
        CHECK(picture.orientation == orientation && picture.whole_rows == 8);
        for (unsigned i = 0; i < 128; i++) {
            unsigned x = i % picture.width, y = i / picture.width;
            int is_there = sides[orientation] == 'T'   ? y < 8
                           : sides[orientation] == 'B' ? y >= 8
                           : sides[orientation] == 'L' ? x < 8
                                                       : x >= 8;
            CHECK(pixels[i] == (is_there ? 0x81 : 0x80));
        }
        CHECK(decode_partial(stream, sizeof stream, options, 127) == ZAXBRIAR_NO_ROOM);
        CHECK(picture.whole_rows == 0 && is_all(pixels, 128, 7));
        /* the least sides are those of the picture as it is stored */
        options.min_width = 8;
        CHECK(zaxbriar_read_info(stream, sizeof stream, &options, &picture) == ZAXBRIAR_OK);
        CHECK(picture.size == 128);
        options.min_width = 1;
        CHECK(zaxbriar_read_info(stream, sizeof stream, &options, &picture) == ZAXBRIAR_OK);
        CHECK(picture.width == (is_on_side ? 2 : 1) && picture.height == (is_on_side ? 1 : 2));
    }
}

/* Other faults, of which one names a feature. */
static void damaged_streams(void) {
    static const unsigned char lines[] = {0xff, 0xdc, 0x00, 0x04, 0x00, 0x08};
    zaxbriar_options none = {0};
    unsigned char stream[sizeof grey + sizeof lines];
    memcpy(stream, grey, sizeof grey);
    memcpy(stream + sizeof grey - 2, lines, sizeof lines);
    CHECK(decode_partial(stream, sizeof stream, none, 64) == ZAXBRIAR_PARTIAL);
    CHECK(is_partial(ZAXBRIAR_UNSUPPORTED, 8) && is_all(pixels, 64, 0x81));
    CHECK(picture.feature == ZAXBRIAR_FEATURE_DNL && picture.feature_argument == 0);
    memcpy(stream, grey, sizeof grey);
    memcpy(stream + GREY_HEADER, "\xff\xdb\0\1", 4); /* no length is below 2 */
    CHECK(decode_partial(stream, sizeof grey, none, 64) == ZAXBRIAR_PARTIAL);
    CHECK(is_partial(ZAXBRIAR_MALFORMED, 0) && is_all(pixels, 64, 0x80));
    CHECK(decode_partial((const unsigned char *)"GIF89a", 6, none, 64) == ZAXBRIAR_MALFORMED);
    CHECK(picture.fault == 0 && picture.whole_rows == 0 && is_all(pixels, 65, 7));
}

/* A cut stream with gaps, in another layout, in too little room, and above a limit. */
static void cut_with_options(void) {
    for (uint8_t layout = ZAXBRIAR_AS_STORED; layout <= ZAXBRIAR_GREY; layout++) {
        zaxbriar_options options = {.layout = layout, .stride = 9};
        CHECK(decode_partial(grey, GREY_HEADER, options, 80) == ZAXBRIAR_PARTIAL);
        CHECK(is_partial(ZAXBRIAR_TRUNCATED, 0) && picture.size == 71);
        for (uint64_t x = 0; x < 80; x++)
            CHECK(pixels[x] == (x < picture.size && x % 9 < 8 ? 0x80 : 7));
    }
    zaxbriar_options rgb = {.layout = ZAXBRIAR_RGB}, eighth = {.scale = 8};
    zaxbriar_options above = {.max_samples = 63};
    CHECK(decode_partial(grey, GREY_HEADER, rgb, 192) == ZAXBRIAR_PARTIAL);
    CHECK(is_all(pixels, 192, 0x80) && pixels[192] == 7);
    CHECK(decode_partial(grey, GREY_HEADER, eighth, 1) == ZAXBRIAR_PARTIAL && pixels[0] == 0x80);
    CHECK(decode_partial(grey, sizeof grey - 1, eighth, 1) == ZAXBRIAR_PARTIAL);
    CHECK(picture.whole_rows == 1 && pixels[0] == 0x81);
    CHECK(decode_partial(grey, GREY_HEADER, rgb, 191) == ZAXBRIAR_NO_ROOM);
    CHECK(picture.size == 192 && picture.fault == 0 && picture.whole_rows == 0);
    CHECK(is_all(pixels, 193, 7));
    CHECK(picture.stream_bytes == GREY_HEADER);
    CHECK(decode_partial(grey, GREY_HEADER, above, 64) == ZAXBRIAR_TOO_LARGE);
    CHECK(picture.width == 8 && picture.fault == 0 && picture.whole_rows == 0);
    CHECK(is_all(pixels, 64, 7));
    CHECK(decode_partial(grey, sizeof grey, above, 64) == ZAXBRIAR_TOO_LARGE);
}

/* A JFIF segment (T.871, 10.1) of 72 to 300 dots per inch, without a thumbnail. Byte 11 is the
 * unit. */
static const unsigned char jfif[18] = {0xff, 0xe0, 0x00, 0x10, 'J',  'F', 'I',  'F',  0x00,
                                       0x01, 0x02, 0x01, 0x00, 0x48, 1,   0x2c, 0x00, 0x00};

/* Whether a stream is described with this density, or none. */
static int is_dense(const unsigned char *jpeg, size_t size, int unit, int across, int down) {
    zaxbriar_options none = {0}, eighth = {.scale = 8};
    for (int call = 0; call < 4; call++) {
        if (call < 2) {
            const zaxbriar_options *options = call ? &eighth : NULL;
            if (zaxbriar_read_info(jpeg, size, options, &picture) != ZAXBRIAR_OK) return 0;
        } else if (call == 2) {
            if (decode(jpeg, size, none, 64) != ZAXBRIAR_OK) return 0;
        } else if (decode_partial(jpeg, size - 1, none, 64) != ZAXBRIAR_PARTIAL) {
            return 0;
        }
        if (picture.density_unit != unit || picture.horizontal_density != across ||
            picture.vertical_density != down)
            return 0;
    }
    return 1;
}

/* The density of a JFIF segment after SOI, after Exif data and fill bytes, and before a second one;
 * and none after the frame header, by another name or in another segment, or in a segment that is
 * too short. */
static void densities(void) {
    enum { SIZE = sizeof grey + sizeof jfif };
    unsigned char stream[SIZE], longer[SIZE + sizeof exif[0] + 1], twice[SIZE + sizeof jfif];
    unsigned char *start = longer + 2 + sizeof exif[0];
    CHECK(is_dense(grey, sizeof grey, 0, 0, 0));
    memcpy(stream, grey, 2);
    memcpy(stream + 2, jfif, sizeof jfif);
    memcpy(stream + 2 + sizeof jfif, grey + 2, sizeof grey - 2);
    CHECK(is_dense(stream, SIZE, ZAXBRIAR_PER_INCH, 72, 300));
    memcpy(twice, grey, 2);
    memcpy(twice + 2, jfif, sizeof jfif);
    memcpy(twice + 2 + sizeof jfif, stream + 2, SIZE - 2);
    twice[2 + 11] = ZAXBRIAR_PER_CENTIMETRE;
    twice[2 + 13] = 28;
    CHECK(is_dense(twice, sizeof twice, ZAXBRIAR_PER_CENTIMETRE, 28, 300));
    twice[2 + 3] = 13; /* eleven bytes of data: what follows them isn't a marker */
    CHECK(is_dense(twice, sizeof twice, ZAXBRIAR_PER_INCH, 72, 300));
    memcpy(longer, grey, 2);
    memcpy(longer + 2, exif[0], sizeof exif[0]);
    *start = 0xff;
    memcpy(start + 1, stream + 2, SIZE - 2);
    CHECK(is_dense(longer, sizeof longer, ZAXBRIAR_PER_INCH, 72, 300));
    stream[3] = 0xe1;
    CHECK(is_dense(stream, SIZE, 0, 0, 0));
    stream[3] = 0xe0;
    stream[9] = 'X';
    CHECK(is_dense(stream, SIZE, 0, 0, 0));
    memcpy(stream, grey, GREY_HEADER);
    memcpy(stream + GREY_HEADER, jfif, sizeof jfif);
    memcpy(stream + GREY_HEADER + sizeof jfif, grey + GREY_HEADER, sizeof grey - GREY_HEADER);
    CHECK(is_dense(stream, SIZE, 0, 0, 0));
    CHECK(zaxbriar_read_info(stream, GREY_HEADER - 1, NULL, &picture) == ZAXBRIAR_TRUNCATED);
}

/* A frame header of three components after SOI. Bytes 12, 15 and 18 are their identifiers. */
static const unsigned char colour[21] = {0xff, 0xd8, 0xff, 0xc0, 0,    17, 8, 0,    8, 0, 8,
                                         3,    0,    0x11, 0,    1,    0x11, 0, 2,    0x11, 0};

/* An Adobe segment. Byte 15 is the transform. */
static const unsigned char adobe[16] = {0xff, 0xee, 0, 14, 'A', 'd', 'o', 'b', 'e', 0, 100};

/* Whether a header with a segment after its start asks for this transform. */
static int asks_for(const unsigned char *header, const unsigned char *segment, size_t size,
                    int transform) {
    unsigned char stream[sizeof colour + 18];
    memcpy(stream, header, 2);
    if (size) memcpy(stream + 2, segment, size);
    memcpy(stream + 2 + size, header + 2, sizeof colour - 2);
    if (zaxbriar_read_info(stream, sizeof colour + size, NULL, &picture) != ZAXBRIAR_OK) return 0;
    return picture.transform == transform;
}

/* The transform by identifiers, by JFIF, and by Adobe's segment, in this order. */
static void transforms(void) {
    unsigned char header[sizeof colour], segment[sizeof adobe];
    zaxbriar_options none = {0};
    CHECK(decode(grey, sizeof grey, none, 64) == ZAXBRIAR_OK);
    CHECK(picture.transform == ZAXBRIAR_TRANSFORM_NONE);
    memcpy(header, colour, sizeof header);
    memcpy(segment, adobe, sizeof segment);
    CHECK(asks_for(header, NULL, 0, ZAXBRIAR_TRANSFORM_YCBCR));
    CHECK(asks_for(header, jfif, sizeof jfif, ZAXBRIAR_TRANSFORM_YCBCR));
    CHECK(asks_for(header, segment, sizeof segment, ZAXBRIAR_TRANSFORM_RGB));
    segment[15] = 1;
    CHECK(asks_for(header, segment, sizeof segment, ZAXBRIAR_TRANSFORM_YCBCR));
    header[12] = 'R', header[15] = 'G', header[18] = 'B';
    CHECK(asks_for(header, segment, sizeof segment, ZAXBRIAR_TRANSFORM_RGB));
    CHECK(asks_for(header, jfif, sizeof jfif, ZAXBRIAR_TRANSFORM_RGB));
    header[12] = 'r', header[15] = 'g', header[18] = 'b';
    CHECK(asks_for(header, jfif, sizeof jfif, ZAXBRIAR_TRANSFORM_OF_STREAM));
}

static void metadata(void) {
    for (int i = 0; i < 2; i++) {
        unsigned char stream[sizeof grey + sizeof exif[i]], buffer[23];
        size_t count = 0;
        memcpy(stream, grey, 2);
        memcpy(stream + 2, exif[i], sizeof exif[i]);
        memcpy(stream + 2 + sizeof exif[i], grey + 2, sizeof grey - 2);
        memset(buffer, 7, sizeof buffer);
        CHECK(zaxbriar_metadata(stream, sizeof stream, ZAXBRIAR_EXIF, buffer, 23, &count) ==
              ZAXBRIAR_OK);
        CHECK(count == 22 && !memcmp(buffer, exif[i] + 10, 22) && buffer[22] == 7);
        CHECK(zaxbriar_metadata(stream, sizeof stream, ZAXBRIAR_EXIF, NULL, 0, &count) ==
                  ZAXBRIAR_NO_ROOM &&
              count == 22);
        CHECK(zaxbriar_metadata(stream, sizeof stream, ZAXBRIAR_ICC, NULL, 0, &count) ==
              ZAXBRIAR_NO_DATA);
        /* The header ends too soon, after the Exif data. */
        CHECK(zaxbriar_metadata(stream, 40, ZAXBRIAR_EXIF, buffer, 23, &count) == ZAXBRIAR_OK &&
              count == 22);
        CHECK(zaxbriar_metadata(stream, 40, ZAXBRIAR_XMP, buffer, 23, &count) ==
              ZAXBRIAR_TRUNCATED);
        CHECK(zaxbriar_metadata(stream, sizeof stream, 4, NULL, 0, &count) ==
              ZAXBRIAR_BAD_ARGUMENT);
        CHECK(zaxbriar_read_info(stream, sizeof stream, NULL, &picture) == ZAXBRIAR_OK &&
              picture.orientation == 6);
    }
}

/* Puts segments before and after the frame header of `grey`, and before its end, and returns how
 * many bytes the stream has then. */
static size_t with_segments(unsigned char *stream, struct bytes before, struct bytes behind,
                            struct bytes last) {
    const struct bytes parts[] = {
        {(unsigned char *)grey, 2},
        before,
        {(unsigned char *)grey + 2, GREY_HEADER - 2},
        behind,
        {(unsigned char *)grey + GREY_HEADER, sizeof grey - 2 - GREY_HEADER},
        last,
        {(unsigned char *)grey + sizeof grey - 2, 2},
    };
    size_t size = 0;
    for (size_t i = 0; i < sizeof parts / sizeof *parts; i++) {
        if (parts[i].size) memcpy(stream + size, parts[i].start, parts[i].size);
        size += parts[i].size;
    }
    return size;
}

/* Exif data of the byte `value`, or none, and the answer. */
static int is_exif(const unsigned char *stream, size_t size, int kind, zaxbriar_result answer,
                   unsigned char value) {
    unsigned char data[2] = {7, 7};
    size_t length = 99;
    if (zaxbriar_metadata(stream, size, kind, data, 2, &length) != answer || data[1] != 7) return 0;
    return answer == ZAXBRIAR_OK ? length == 1 && data[0] == value : length == 0 && data[0] == 7;
}

/* Segments after the frame header and after a scan, which only a whole image has. */
static void metadata_of_image(void) {
    enum { EXIF = ZAXBRIAR_EXIF, WHOLE = ZAXBRIAR_EXIF | ZAXBRIAR_WHOLE_IMAGE };
    unsigned char first[] = "\xff\xe1\0\11Exif\0\0\1", second[] = "\xff\xe1\0\11Exif\0\0\2";
    unsigned char third[] = "\xff\xe1\0\11Exif\0\0\3", dac[] = "\xff\xcc";
    unsigned char one[] = "\xff\xe2\0\21ICC_PROFILE\0\1\2A";
    unsigned char two[] = "\xff\xe2\0\21ICC_PROFILE\0\2\2B";
    struct bytes none = {NULL, 0};
    struct bytes exif1 = {first, 11}, exif2 = {second, 11}, exif3 = {third, 11};
    unsigned char stream[sizeof grey + 60], profile[3] = {7, 7, 7};
    size_t size, length = 0;

    size = with_segments(stream, none, exif2, none);
    CHECK(is_exif(stream, size, EXIF, ZAXBRIAR_NO_DATA, 0));
    CHECK(is_exif(stream, size, WHOLE, ZAXBRIAR_OK, 2));
    CHECK(zaxbriar_metadata(stream, size, WHOLE, NULL, 0, &length) == ZAXBRIAR_NO_ROOM);
    CHECK(length == 1);
    size = with_segments(stream, none, none, none);
    CHECK(is_exif(stream, size, WHOLE, ZAXBRIAR_NO_DATA, 0));
    CHECK(is_exif(stream, size - 1, WHOLE, ZAXBRIAR_TRUNCATED, 0));
    CHECK(is_exif(stream, size - 1, EXIF, ZAXBRIAR_NO_DATA, 0));

    /* The last of several counts, by the end of the image or its first fault. */
    size = with_segments(stream, exif1, exif2, none);
    CHECK(is_exif(stream, size, EXIF, ZAXBRIAR_OK, 1));
    CHECK(is_exif(stream, size, WHOLE, ZAXBRIAR_OK, 2));
    CHECK(is_exif(stream, size - 2, WHOLE, ZAXBRIAR_OK, 2));
    CHECK(is_exif(stream, 11 + GREY_HEADER + 10, WHOLE, ZAXBRIAR_OK, 1));
    size = with_segments(stream, exif1, exif2, exif3);
    CHECK(is_exif(stream, size, WHOLE, ZAXBRIAR_OK, 3));
    /* Nothing after a fault or after the image counts. */
    memcpy(stream + 11 + GREY_HEADER, dac, 2);
    CHECK(is_exif(stream, size, WHOLE, ZAXBRIAR_OK, 1));
    size = with_segments(stream, none, none, none);
    memcpy(stream + size, third, 11);
    CHECK(is_exif(stream, size + 11, WHOLE, ZAXBRIAR_NO_DATA, 0));
    size = with_segments(stream, none, (struct bytes){dac, 2}, exif3);
    CHECK(is_exif(stream, size, EXIF, ZAXBRIAR_NO_DATA, 0));
    CHECK(is_exif(stream, size, WHOLE, ZAXBRIAR_UNSUPPORTED, 0));

    /* A profile, one part of which stands after the frame header. */
    size = with_segments(stream, (struct bytes){two, 19}, (struct bytes){one, 19}, none);
    CHECK(zaxbriar_metadata(stream, size, ZAXBRIAR_ICC, profile, 3, &length) == ZAXBRIAR_NO_DATA);
    CHECK(zaxbriar_metadata(stream, size, ZAXBRIAR_ICC | ZAXBRIAR_WHOLE_IMAGE, profile, 3,
                            &length) == ZAXBRIAR_OK);
    CHECK(length == 2 && !memcmp(profile, "AB\7", 3));
    CHECK(zaxbriar_metadata(stream, size, ZAXBRIAR_XMP | ZAXBRIAR_WHOLE_IMAGE, profile, 3,
                            &length) == ZAXBRIAR_NO_DATA);
}

/* A profile of two parts, together above 64 kB. */
static void long_profile(void) {
    enum { PART = 65519, PROFILE = 2 * PART };
    unsigned char *stream = block(sizeof grey + 2 * (PART + 18)), *at = stream + 2;
    unsigned char *profile = block(PROFILE);
    size_t count = 0;
    memcpy(stream, grey, 2);
    for (int part = 1; part <= 2; part++) {
        memcpy(at, "\xff\xe2\xff\xffICC_PROFILE\0", 16);
        at[16] = (unsigned char)part;
        at[17] = 2;
        memset(at + 18, part, PART);
        at += 18 + PART;
    }
    memcpy(at, grey + 2, sizeof grey - 2);
    size_t size = (size_t)(at - stream) + sizeof grey - 2;
    CHECK(zaxbriar_metadata(stream, size, ZAXBRIAR_ICC, profile, PROFILE - 1, &count) ==
              ZAXBRIAR_NO_ROOM &&
          count == PROFILE);
    CHECK(zaxbriar_metadata(stream, size, ZAXBRIAR_ICC, profile, PROFILE, &count) == ZAXBRIAR_OK);
    CHECK(count == PROFILE && is_all(profile, PART, 1) && is_all(profile + PART, PART, 2));
    free(profile);
    free(stream);
}

/* The first segment in bytes that end at any place: a byte, a fill byte and a segment of APP1 with
 * the length 260, after which another marker stands. */
static void first_segment(void) {
    static const struct {
        size_t size, needed, skipped;
    } cut[] = {{0, 2, 0}, {1, 2, 1}, {2, 1, 1}, {3, 1, 2}, {4, 2, 2}, {5, 255, 2}};
    unsigned char bytes[267] = {0x00, 0xff, 0xff, 0xe1, 0x01, 0x04};
    zaxbriar_segment segment;
    bytes[264] = 0xff, bytes[265] = 0xd9;
    for (size_t size = 0; size < 264; size++) {
        CHECK(zaxbriar_next_segment(bytes, size, &segment) == ZAXBRIAR_TRUNCATED);
        CHECK(segment.needed == (size < 6 ? cut[size].needed : 264 - size));
        CHECK(segment.skipped == (size < 6 ? cut[size].skipped : 2));
        CHECK(segment.marker == (size < 4 ? 0 : 0xe1));
        CHECK(segment.offset == 0 && segment.size == 0 && segment.end == 0);
    }
    for (size_t size = 264; size <= sizeof bytes; size++) {
        CHECK(zaxbriar_next_segment(bytes, size, &segment) == ZAXBRIAR_OK);
        CHECK(segment.marker == 0xe1 && segment.offset == 6 && segment.size == 258);
        CHECK(segment.end == 264 && segment.needed == 0 && segment.skipped == 0);
    }
    CHECK(zaxbriar_next_segment(bytes + 264, 3, &segment) == ZAXBRIAR_OK);
    CHECK(segment.marker == 0xd9 && segment.offset == 2 && segment.size == 0 && segment.end == 2);
    bytes[4] = 0, bytes[5] = 1;
    CHECK(zaxbriar_next_segment(bytes, 264, &segment) == ZAXBRIAR_MALFORMED);
    CHECK(segment.marker == 0xe1 && segment.end == 0 && segment.needed == 0);
}

static int is_place(zaxbriar_place place, size_t offset, size_t size) {
    return place.offset == offset && place.size == size;
}

/* The places of Exif data, the last of which counts, and of more parts of a profile than fit. */
static void places_of_metadata(void) {
    enum { PARTS = 257, PART = 19 };
    static unsigned char stream[sizeof grey + 3 * sizeof exif[0] + PARTS * PART];
    static zaxbriar_places places;
    unsigned char *at = stream + 2;
    memcpy(stream, grey, 2);
    memcpy(at, exif, sizeof exif);
    at += sizeof exif;
    for (int part = 1; part <= PARTS; part++, at += PART) {
        memcpy(at, "\xff\xe2\x00\x11ICC_PROFILE\0", 16);
        at[16] = (unsigned char)part, at[17] = 255, at[18] = 7;
    }
    memcpy(at, grey + 2, sizeof grey - 2);
    size_t size = (size_t)(at - stream) + sizeof grey - 2;
    CHECK(zaxbriar_find_metadata(stream, size, &places) == ZAXBRIAR_OK);
    CHECK(places.stream_bytes == size && places.ended == 1 && places.icc_parts == PARTS);
    CHECK(is_place(places.exif, 2 + 32 + 10, 22) && is_place(places.xmp, 0, 0));
    for (size_t i = 0; i < 255; i++) CHECK(is_place(places.icc[i], 66 + PART * i + 18, 1));

    /* Without the last byte of the image its end isn't reached. */
    CHECK(zaxbriar_find_metadata(stream, size - 1, &places) == ZAXBRIAR_OK);
    CHECK(places.ended == 0 && places.stream_bytes == size - 3 && places.icc_parts == PARTS);
    CHECK(zaxbriar_find_metadata("GIF89a", 6, &places) == ZAXBRIAR_OK);
    CHECK(is_all((unsigned char *)&places, sizeof places, 0));
}

int main(void) {
    subject = "a stream made by hand";
    memory();
    gaps();
    deep_samples();
    layouts_of_grey();
    layouts_of_colours();
    refusals();
    features();
    without_conversion();
    limits();
    cut_streams();
    lower_block_lacks();
    turned_parts();
    damaged_streams();
    cut_with_options();
    densities();
    transforms();
    metadata();
    metadata_of_image();
    long_profile();
    first_segment();
    places_of_metadata();
    printf("known: streams made by hand; %d faults\n", faults);
    return faults != 0;
}
