/* The library with a fault, FAULT, that the target has to find (fuzz/try): each call that has none
 * is the library's own. Linked with --wrap for the calls below. */
#include <string.h>

#include "processor.h"
#include "zaxbriar.h"

typedef zaxbriar_result decoding(const void *jpeg, size_t jpeg_size,
                                 const zaxbriar_options *options, void *pixels, size_t pixels_size,
                                 zaxbriar_picture *picture);
typedef zaxbriar_result describing(const void *jpeg, size_t jpeg_size,
                                   const zaxbriar_options *options, zaxbriar_picture *picture);
typedef zaxbriar_result listing(const void *jpeg, size_t jpeg_size, zaxbriar_segment *segment);
typedef zaxbriar_result copying(const void *jpeg, size_t jpeg_size, const zaxbriar_options *options,
                                int kind, void *data, size_t data_size, size_t *length);
decoding __real_zaxbriar_decode, __real_zaxbriar_decode_partial, __real_zaxbriar_decode_planes;
decoding __wrap_zaxbriar_decode, __wrap_zaxbriar_decode_partial, __wrap_zaxbriar_decode_planes;
describing __real_zaxbriar_read_info, __wrap_zaxbriar_read_info;
copying __real_zaxbriar_metadata_within, __wrap_zaxbriar_metadata_within;
copying __real_zaxbriar_joined_metadata, __wrap_zaxbriar_joined_metadata;
listing __real_zaxbriar_next_segment, __wrap_zaxbriar_next_segment;
typedef zaxbriar_result giving(zaxbriar_rows *rows, void *line, size_t line_size);
typedef void freeing(zaxbriar_rows *rows);
giving __real_zaxbriar_rows_next, __wrap_zaxbriar_rows_next;
freeing __real_zaxbriar_rows_free, __wrap_zaxbriar_rows_free;
typedef zaxbriar_result feeding(zaxbriar_fed *fed, const void *bytes, size_t size);
typedef zaxbriar_result showing(zaxbriar_fed *fed, void *pixels, size_t pixels_size,
                                zaxbriar_picture *picture);
typedef void letting_go(zaxbriar_fed *fed);
feeding __real_zaxbriar_fed_feed, __wrap_zaxbriar_fed_feed;
showing __real_zaxbriar_fed_show, __wrap_zaxbriar_fed_show;
letting_go __real_zaxbriar_fed_free, __wrap_zaxbriar_fed_free;

/* The faults of decoding. */
enum {
    BYTE_PAST_PICTURE = 1, /* writes a byte too many, which may be past the buffer */
    BYTE_IN_GAP,           /* writes between two lines */
    BYTE_BEFORE,           /* writes right before the buffer */
    SPOILS,                /* writes a byte and refuses the stream */
    SHOWS_TRUNCATED,       /* answers OK for a truncated file, with what there is */
    LEAKS,                 /* keeps a block of the caller's memory */
    TAKES_TOO_MUCH,        /* takes more memory than it says, for a while */
    CHANGES,               /* gives other pixels from time to time */
    LACKS_BYTE,            /* leaves the last byte as it was */
    DIFFERS,               /* gives other pixels by the code for x86-64-v3 */
    READS_PAST,            /* reads a byte past the stream */
    COUNTS_ROWS,           /* names a row more as complete than there is */
    HIDES_FAULT,           /* answers OK for a part */
    MIRRORS,               /* exchanges the ends of the first line of a picture that is turned */
    WRONG_LUMA,            /* gives another first sample where the luma is asked for */
    WRONG_PLANE,           /* gives another first sample of the planes */
    WRONG_PART,            /* gives another first pixel of a part of the picture */
    WRONG_MEAN,            /* gives another first pixel of a picture to fit within a size */
    WRONG_LAYOUT,          /* gives another first pixel in a layout */
    KNOWS_ALL,             /* read_info takes reserved options for zeros */
    WRONG_BYTES,           /* says that an image takes a byte more */
    PAST_DATA,             /* metadata_within writes a byte too many */
    WRONG_JOINT,           /* joined_metadata gives another last byte */
    WRONG_SIZE,            /* read_info says that a picture takes a byte more */
    WRONG_NEED,            /* next_segment asks for a byte more than it needs */
    WRONG_ROW,             /* rows_next gives another first byte from time to time */
    BEFORE_ROW,            /* rows_next writes right before the line */
    LOSES_ROW,             /* rows_next passes over a line for which there is no room */
    ENDS_EARLY,            /* rows_next says END for a truncated file */
    KEEPS_ROWS,            /* rows_free frees nothing */
    WRONG_SHOW,            /* fed_show gives another first pixel from time to time */
    LOSES_PIECE,           /* fed_feed takes a byte less from time to time */
    KEEPS_FED,             /* fed_free frees nothing */
};

static int is_now(int fault) { return FAULT == fault; }

/* Exchanges the first pixel with the last one of its line. */
static void mirror(unsigned char *pixels, const zaxbriar_options *options,
                   const zaxbriar_picture *picture) {
    if (!options->upright || picture->orientation == 1) return;
    unsigned char *last = pixels + picture->row_bytes - picture->pixel_bytes;
    for (int i = 0; i < picture->pixel_bytes; i++) {
        unsigned char byte = pixels[i];
        pixels[i] = last[i];
        last[i] = byte;
    }
}

/* Changes the first pixel for some options. */
static void change_pixel(unsigned char *pixels, const zaxbriar_options *options) {
    if (is_now(WRONG_LUMA) && options->luma) pixels[0] ^= 1;
    if (is_now(WRONG_PART) && options->crop_width) pixels[0] ^= 1;
    if (is_now(WRONG_MEAN) && (options->most_width || options->most_height)) pixels[0] ^= 1;
    if (is_now(WRONG_LAYOUT) && options->layout) pixels[0] ^= 1;
}

static void write_wrongly(unsigned char *pixels, const zaxbriar_options *options,
                          const zaxbriar_picture *picture) {
    static unsigned count;
    if (is_now(BYTE_PAST_PICTURE)) pixels[picture->size] ^= 1;
    if (is_now(BYTE_IN_GAP) && options->stride > picture->row_bytes && picture->height > 1)
        pixels[picture->row_bytes] ^= 1;
    if (is_now(BYTE_BEFORE)) pixels[-1] ^= 1;
    if (is_now(CHANGES) && ++count % 3 == 0) pixels[0] ^= 1;
    if (is_now(DIFFERS) && zaxbriar_is_v3()) pixels[0] ^= 1;
    if (is_now(MIRRORS)) mirror(pixels, options, picture);
    change_pixel(pixels, options);
}

static void take_memory(const zaxbriar_options *options, const zaxbriar_picture *picture) {
    const zaxbriar_memory *memory = options->memory;
    if (is_now(LEAKS) && memory) (void)memory->allocate(memory->context, 16);
    if (!is_now(TAKES_TOO_MUCH) || !memory) return;
    void *block = memory->allocate(memory->context, picture->decoding_bytes + (1 << 20));
    if (block) memory->release(memory->context, block);
}

zaxbriar_result __wrap_zaxbriar_decode(const void *jpeg, size_t jpeg_size,
                                       const zaxbriar_options *options, void *pixels,
                                       size_t pixels_size, zaxbriar_picture *picture) {
    unsigned char *end = (unsigned char *)pixels + pixels_size, last = pixels_size ? end[-1] : 0;
    zaxbriar_result result =
        __real_zaxbriar_decode(jpeg, jpeg_size, options, pixels, pixels_size, picture);
    if (result == ZAXBRIAR_OK) write_wrongly(pixels, options, picture);
    if (result == ZAXBRIAR_OK) take_memory(options, picture);
    if (is_now(LACKS_BYTE) && result == ZAXBRIAR_OK && picture->size == pixels_size) end[-1] = last;
    if (is_now(READS_PAST)) (void)((const volatile unsigned char *)jpeg)[jpeg_size];
    if (is_now(SPOILS) && result == ZAXBRIAR_MALFORMED && pixels_size) *(char *)pixels ^= 1;
    if (is_now(WRONG_BYTES) && result == ZAXBRIAR_OK && picture->stream_bytes < jpeg_size)
        picture->stream_bytes++;
    if (!is_now(SHOWS_TRUNCATED) || result != ZAXBRIAR_TRUNCATED) return result;
    if (__real_zaxbriar_decode_partial(jpeg, jpeg_size, options, pixels, pixels_size, picture) !=
        ZAXBRIAR_PARTIAL)
        return result;
    picture->fault = 0;
    picture->whole_rows = 0;
    picture->text[0] = 0;
    return ZAXBRIAR_OK;
}

zaxbriar_result __wrap_zaxbriar_decode_partial(const void *jpeg, size_t jpeg_size,
                                               const zaxbriar_options *options, void *pixels,
                                               size_t pixels_size, zaxbriar_picture *picture) {
    zaxbriar_result result =
        __real_zaxbriar_decode_partial(jpeg, jpeg_size, options, pixels, pixels_size, picture);
    if (is_now(MIRRORS) && result == ZAXBRIAR_OK) mirror(pixels, options, picture);
    if (result == ZAXBRIAR_OK) change_pixel(pixels, options);
    if (result != ZAXBRIAR_PARTIAL) return result;
    if (is_now(COUNTS_ROWS) && picture->whole_rows < picture->height) picture->whole_rows++;
    if (!is_now(HIDES_FAULT)) return result;
    picture->fault = picture->feature = picture->feature_argument = 0;
    picture->whole_rows = picture->height;
    picture->text[0] = 0;
    return ZAXBRIAR_OK;
}

zaxbriar_result __wrap_zaxbriar_decode_planes(const void *jpeg, size_t jpeg_size,
                                              const zaxbriar_options *options, void *samples,
                                              size_t samples_size, zaxbriar_picture *picture) {
    zaxbriar_result result =
        __real_zaxbriar_decode_planes(jpeg, jpeg_size, options, samples, samples_size, picture);
    if (is_now(WRONG_PLANE) && result == ZAXBRIAR_OK) *(char *)samples ^= 1;
    return result;
}

zaxbriar_result __wrap_zaxbriar_metadata_within(const void *jpeg, size_t jpeg_size,
                                                const zaxbriar_options *options, int kind,
                                                void *data, size_t data_size, size_t *length) {
    zaxbriar_result result = __real_zaxbriar_metadata_within(jpeg, jpeg_size, options, kind, data,
                                                             data_size, length);
    if (is_now(PAST_DATA) && result == ZAXBRIAR_OK) ((unsigned char *)data)[*length] ^= 1;
    return result;
}

zaxbriar_result __wrap_zaxbriar_joined_metadata(const void *jpeg, size_t jpeg_size,
                                                const zaxbriar_options *options, int kind,
                                                void *data, size_t data_size, size_t *length) {
    zaxbriar_result result = __real_zaxbriar_joined_metadata(jpeg, jpeg_size, options, kind, data,
                                                             data_size, length);
    if (is_now(WRONG_JOINT) && result == ZAXBRIAR_OK && *length)
        ((unsigned char *)data)[*length - 1] ^= 1;
    return result;
}

zaxbriar_result __wrap_zaxbriar_read_info(const void *jpeg, size_t jpeg_size,
                                          const zaxbriar_options *options,
                                          zaxbriar_picture *picture) {
    zaxbriar_options known = options ? *options : (zaxbriar_options){0};
    if (is_now(KNOWS_ALL)) memset(known.reserved_words, 0, sizeof known.reserved_words);
    zaxbriar_result result = __real_zaxbriar_read_info(jpeg, jpeg_size, &known, picture);
    if (is_now(WRONG_SIZE) && result == ZAXBRIAR_OK) picture->size++;
    return result;
}

zaxbriar_result __wrap_zaxbriar_next_segment(const void *jpeg, size_t jpeg_size,
                                             zaxbriar_segment *segment) {
    zaxbriar_result result = __real_zaxbriar_next_segment(jpeg, jpeg_size, segment);
    if (is_now(WRONG_NEED) && result == ZAXBRIAR_TRUNCATED) segment->needed++;
    return result;
}

zaxbriar_result __wrap_zaxbriar_rows_next(zaxbriar_rows *rows, void *line, size_t line_size) {
    static unsigned count;
    static unsigned char lost[1 << 21];
    zaxbriar_result result = __real_zaxbriar_rows_next(rows, line, line_size);
    if (is_now(LOSES_ROW) && result == ZAXBRIAR_NO_ROOM)
        return __real_zaxbriar_rows_next(rows, lost, sizeof lost) == ZAXBRIAR_OK ? result
                                                                                 : ZAXBRIAR_END;
    if (is_now(ENDS_EARLY) && result == ZAXBRIAR_TRUNCATED) return ZAXBRIAR_END;
    if (result != ZAXBRIAR_OK) return result;
    if (is_now(WRONG_ROW) && ++count % 7 == 0) *(unsigned char *)line ^= 1;
    if (is_now(BEFORE_ROW)) ((unsigned char *)line)[-1] ^= 1;
    return result;
}

void __wrap_zaxbriar_rows_free(zaxbriar_rows *rows) {
    if (!is_now(KEEPS_ROWS)) __real_zaxbriar_rows_free(rows);
}

zaxbriar_result __wrap_zaxbriar_fed_feed(zaxbriar_fed *fed, const void *bytes, size_t size) {
    static unsigned count;
    if (is_now(LOSES_PIECE) && size && ++count % 7 == 0) size--;
    return __real_zaxbriar_fed_feed(fed, bytes, size);
}

zaxbriar_result __wrap_zaxbriar_fed_show(zaxbriar_fed *fed, void *pixels, size_t pixels_size,
                                         zaxbriar_picture *picture) {
    static unsigned count;
    zaxbriar_result result = __real_zaxbriar_fed_show(fed, pixels, pixels_size, picture);
    if (is_now(WRONG_SHOW) && result == ZAXBRIAR_PARTIAL && ++count % 7 == 0)
        *(unsigned char *)pixels ^= 1;
    return result;
}

void __wrap_zaxbriar_fed_free(zaxbriar_fed *fed) {
    if (!is_now(KEEPS_FED)) __real_zaxbriar_fed_free(fed);
}
