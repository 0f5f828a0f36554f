/* The C side of the library: tests what a C caller can get wrong and the proved calls can't (null
 * pointers, sizes above PTRDIFF_MAX), and then calls these, with the memory of the options. */
#include "heap.h"
#include "proved.h"

#include <stddef.h>
#include <stdlib.h>
#include <string.h>

/* The proved code has the same structs. */
_Static_assert(sizeof(size_t) == 8, "the proofs are for 64 bits");
_Static_assert(sizeof(zaxbriar_options) == 128, "options");
_Static_assert(offsetof(zaxbriar_options, min_width) == 16, "options");
_Static_assert(offsetof(zaxbriar_options, transform) == 20, "options");
_Static_assert(offsetof(zaxbriar_options, layout) == 21, "options");
_Static_assert(offsetof(zaxbriar_options, scale) == 22, "options");
_Static_assert(offsetof(zaxbriar_options, bottom_up) == 23, "options");
_Static_assert(offsetof(zaxbriar_options, max_bytes) == 24, "options");
_Static_assert(offsetof(zaxbriar_options, memory) == 32, "options");
_Static_assert(offsetof(zaxbriar_options, places) == 40, "options");
_Static_assert(offsetof(zaxbriar_options, max_passes) == 48, "options");
_Static_assert(offsetof(zaxbriar_options, upright) == 56, "options");
_Static_assert(offsetof(zaxbriar_options, luma) == 57, "options");
_Static_assert(offsetof(zaxbriar_options, reserved_bytes) == 58, "options");
_Static_assert(offsetof(zaxbriar_options, crop_left) == 64, "options");
_Static_assert(offsetof(zaxbriar_options, crop_top) == 66, "options");
_Static_assert(offsetof(zaxbriar_options, crop_width) == 68, "options");
_Static_assert(offsetof(zaxbriar_options, crop_height) == 70, "options");
_Static_assert(offsetof(zaxbriar_options, most_width) == 72, "options");
_Static_assert(offsetof(zaxbriar_options, most_height) == 74, "options");
_Static_assert(offsetof(zaxbriar_options, reserved_half) == 76, "options");
_Static_assert(offsetof(zaxbriar_options, reserved_words) == 80, "options");
_Static_assert(sizeof(zaxbriar_picture) == 320, "picture");
_Static_assert(offsetof(zaxbriar_picture, width) == 32, "picture");
_Static_assert(offsetof(zaxbriar_picture, whole_rows) == 40, "picture");
_Static_assert(offsetof(zaxbriar_picture, pixel_bytes) == 44, "picture");
_Static_assert(offsetof(zaxbriar_picture, orientation) == 50, "picture");
_Static_assert(offsetof(zaxbriar_picture, format) == 51, "picture");
_Static_assert(offsetof(zaxbriar_picture, feature) == 52, "picture");
_Static_assert(offsetof(zaxbriar_picture, feature_argument) == 53, "picture");
_Static_assert(offsetof(zaxbriar_picture, sampling) == 54, "picture");
_Static_assert(offsetof(zaxbriar_picture, fault) == 58, "picture");
_Static_assert(offsetof(zaxbriar_picture, density_unit) == 59, "picture");
_Static_assert(offsetof(zaxbriar_picture, horizontal_density) == 60, "picture");
_Static_assert(offsetof(zaxbriar_picture, vertical_density) == 62, "picture");
_Static_assert(offsetof(zaxbriar_picture, transform) == 64, "picture");
_Static_assert(offsetof(zaxbriar_picture, reserved_byte) == 65, "picture");
_Static_assert(offsetof(zaxbriar_picture, plane_width) == 66, "picture");
_Static_assert(offsetof(zaxbriar_picture, plane_height) == 74, "picture");
_Static_assert(offsetof(zaxbriar_picture, reserved_bytes) == 82, "picture");
_Static_assert(offsetof(zaxbriar_picture, planes_size) == 88, "picture");
_Static_assert(offsetof(zaxbriar_picture, reserved) == 96, "picture");
_Static_assert(offsetof(zaxbriar_picture, text) == 208, "picture");
_Static_assert(sizeof(zaxbriar_place) == 16, "place");
_Static_assert(sizeof(zaxbriar_places) == 4160, "places");
_Static_assert(offsetof(zaxbriar_places, xmp) == 16, "places");
_Static_assert(offsetof(zaxbriar_places, stream_bytes) == 32, "places");
_Static_assert(offsetof(zaxbriar_places, icc_parts) == 40, "places");
_Static_assert(offsetof(zaxbriar_places, ended) == 44, "places");
_Static_assert(offsetof(zaxbriar_places, icc) == 80, "places");
_Static_assert(sizeof(zaxbriar_kept) == 16, "kept");
_Static_assert(offsetof(zaxbriar_kept, used) == 8, "kept");
_Static_assert(sizeof(zaxbriar_segment) == 64, "segment");
_Static_assert(offsetof(zaxbriar_segment, size) == 8, "segment");
_Static_assert(offsetof(zaxbriar_segment, end) == 16, "segment");
_Static_assert(offsetof(zaxbriar_segment, needed) == 24, "segment");
_Static_assert(offsetof(zaxbriar_segment, skipped) == 32, "segment");
_Static_assert(offsetof(zaxbriar_segment, marker) == 40, "segment");

/* Where an empty slice without a pointer begins. */
static uint8_t nothing;

static int is_slice(const void *start, size_t size) {
    return size <= PTRDIFF_MAX && (start != NULL || size == 0);
}

static zaxbriar_result bad_argument(zaxbriar_picture *picture, const char *text) {
    memset(picture, 0, sizeof *picture);
    strcpy(picture->text, text);
    return ZAXBRIAR_BAD_ARGUMENT;
}

/* The options as the proved calls know them, which have zeros in place of the pointers. */
static zaxbriar_options without_pointers(const zaxbriar_options *options) {
    zaxbriar_options others = options ? *options : (zaxbriar_options){0};
    others.memory = NULL;
    others.places = NULL;
    return others;
}

static const zaxbriar_memory *memory_of(const zaxbriar_options *options) {
    return options ? options->memory : NULL;
}

static int is_complete(const zaxbriar_memory *memory) {
    return !memory || (memory->allocate && memory->resize && memory->release);
}

/* What is wrong with arguments, or a null pointer. */
static const char *fault_of(const void *jpeg, size_t jpeg_size, const zaxbriar_options *options) {
    if (!is_slice(jpeg, jpeg_size)) return "jpeg is a null pointer";
    if (!is_complete(memory_of(options))) return "a function of memory is a null pointer";
    return NULL;
}

/* The same of a call that describes or decodes a picture. (The proved calls look at the other
 * options before they read the stream, but at the layout only after its header.) */
static const char *fault_of_decoding(const void *jpeg, size_t jpeg_size,
                                     const zaxbriar_options *options) {
    const char *fault = fault_of(jpeg, jpeg_size, options);
    if (!fault && options && options->layout > ZAXBRIAR_RGB16) fault = "the layout doesn't exist";
    return fault;
}

/* Finds the places that the options ask for, unless the arguments are wrong. */
static zaxbriar_result with_places(uint32_t answer, const void *jpeg, size_t jpeg_size,
                                   const zaxbriar_options *options) {
    if (options && options->places && answer != ZAXBRIAR_BAD_ARGUMENT)
        zaxbriar_checked_find_metadata(jpeg ? jpeg : &nothing, jpeg_size, options->places);
    return (zaxbriar_result)answer;
}

zaxbriar_result zaxbriar_read_info(const void *jpeg, size_t jpeg_size,
                                   const zaxbriar_options *options, zaxbriar_picture *picture) {
    if (!picture) return ZAXBRIAR_BAD_ARGUMENT;
    const char *fault = fault_of_decoding(jpeg, jpeg_size, options);
    if (fault) return bad_argument(picture, fault);
    zaxbriar_options others = without_pointers(options);
    const zaxbriar_memory *before = zaxbriar_exchange_memory(memory_of(options));
    uint32_t answer =
        zaxbriar_checked_read_info(jpeg ? jpeg : &nothing, jpeg_size, &others, picture);
    zaxbriar_exchange_memory(before);
    return with_places(answer, jpeg, jpeg_size, options);
}

/* A proved call that writes pixels, or the samples of planes. */
typedef uint32_t decoding(const uint8_t *jpeg, size_t jpeg_size, const zaxbriar_options *options,
                          uint8_t *pixels, size_t pixels_size, zaxbriar_picture *picture);

static zaxbriar_result decode_by(decoding *call, const void *jpeg, size_t jpeg_size,
                                 const zaxbriar_options *options, void *pixels, size_t pixels_size,
                                 zaxbriar_picture *picture) {
    zaxbriar_picture unused;
    if (!picture) picture = &unused;
    const char *fault = fault_of_decoding(jpeg, jpeg_size, options);
    if (fault) return bad_argument(picture, fault);
    if (!is_slice(pixels, pixels_size)) return bad_argument(picture, "pixels is a null pointer");
    zaxbriar_options others = without_pointers(options);
    const zaxbriar_memory *before = zaxbriar_exchange_memory(memory_of(options));
    uint32_t answer = call(jpeg ? jpeg : &nothing, jpeg_size, &others, pixels ? pixels : &nothing,
                           pixels_size, picture);
    zaxbriar_exchange_memory(before);
    return with_places(answer, jpeg, jpeg_size, options);
}

zaxbriar_result zaxbriar_decode(const void *jpeg, size_t jpeg_size,
                                const zaxbriar_options *options, void *pixels, size_t pixels_size,
                                zaxbriar_picture *picture) {
    return decode_by(zaxbriar_checked_decode, jpeg, jpeg_size, options, pixels, pixels_size,
                     picture);
}

zaxbriar_result zaxbriar_decode_partial(const void *jpeg, size_t jpeg_size,
                                        const zaxbriar_options *options, void *pixels,
                                        size_t pixels_size, zaxbriar_picture *picture) {
    return decode_by(zaxbriar_checked_decode_partial, jpeg, jpeg_size, options, pixels,
                     pixels_size, picture);
}

zaxbriar_result zaxbriar_decode_planes(const void *jpeg, size_t jpeg_size,
                                       const zaxbriar_options *options, void *samples,
                                       size_t samples_size, zaxbriar_picture *picture) {
    return decode_by(zaxbriar_checked_decode_planes, jpeg, jpeg_size, options, samples,
                     samples_size, picture);
}

/* What the proved calls keep between two of them, and the functions that they take memory from; all
 * null for malloc, realloc and free. */
struct zaxbriar_rows {
    zaxbriar_kept kept;
    zaxbriar_memory memory;
};

/* The functions that a caller gave, or all null. */
static zaxbriar_memory copied(const zaxbriar_memory *memory) {
    return memory ? *memory : (zaxbriar_memory){0};
}

static const zaxbriar_memory *given(const zaxbriar_memory *memory) {
    return memory->allocate ? memory : NULL;
}

/* All zeros but for the functions, of the memory in use, or a null pointer. */
static zaxbriar_rows *new_rows(const zaxbriar_memory *memory) {
    zaxbriar_rows *rows = zaxbriar_take_block(sizeof *rows);
    if (rows) *rows = (zaxbriar_rows){.memory = copied(memory)};
    return rows;
}

/* Begins to give lines, by the memory in use. */
static uint32_t begin_rows(const void *jpeg, size_t jpeg_size, const zaxbriar_options *options,
                           zaxbriar_rows **rows, zaxbriar_picture *picture) {
    zaxbriar_options others = without_pointers(options);
    zaxbriar_rows *begun = new_rows(memory_of(options));
    if (!begun) {
        memset(picture, 0, sizeof *picture);
        strcpy(picture->text, "out of memory");
        return ZAXBRIAR_NO_MEMORY;
    }
    uint32_t answer = zaxbriar_checked_rows_new(jpeg ? jpeg : &nothing, jpeg_size, &others,
                                                &begun->kept, picture);
    if (answer == ZAXBRIAR_OK)
        *rows = begun;
    else
        zaxbriar_give_block(begun);
    return answer;
}

zaxbriar_result zaxbriar_rows_new(const void *jpeg, size_t jpeg_size,
                                  const zaxbriar_options *options, zaxbriar_rows **rows,
                                  zaxbriar_picture *picture) {
    zaxbriar_picture unused;
    if (!picture) picture = &unused;
    if (!rows) return bad_argument(picture, "rows is a null pointer");
    *rows = NULL;
    const char *fault = fault_of_decoding(jpeg, jpeg_size, options);
    if (fault) return bad_argument(picture, fault);
    const zaxbriar_memory *before = zaxbriar_exchange_memory(memory_of(options));
    uint32_t answer = begin_rows(jpeg, jpeg_size, options, rows, picture);
    zaxbriar_exchange_memory(before);
    return with_places(answer, jpeg, jpeg_size, options);
}

zaxbriar_result zaxbriar_rows_next(zaxbriar_rows *rows, void *line, size_t line_size) {
    if (!rows || !is_slice(line, line_size)) return ZAXBRIAR_BAD_ARGUMENT;
    const zaxbriar_memory *before = zaxbriar_exchange_memory(given(&rows->memory));
    uint32_t answer = zaxbriar_checked_rows_next(&rows->kept, line ? line : &nothing, line_size);
    zaxbriar_exchange_memory(before);
    return (zaxbriar_result)answer;
}

zaxbriar_result zaxbriar_rows_refusal(zaxbriar_rows *rows, zaxbriar_picture *picture) {
    if (!picture) return ZAXBRIAR_BAD_ARGUMENT;
    if (!rows) return bad_argument(picture, "rows is a null pointer");
    const zaxbriar_memory *before = zaxbriar_exchange_memory(given(&rows->memory));
    uint32_t answer = zaxbriar_checked_rows_refusal(&rows->kept, picture);
    zaxbriar_exchange_memory(before);
    return (zaxbriar_result)answer;
}

void zaxbriar_rows_free(zaxbriar_rows *rows) {
    if (!rows) return;
    zaxbriar_memory memory = rows->memory;
    const zaxbriar_memory *before = zaxbriar_exchange_memory(given(&memory));
    zaxbriar_checked_rows_free(&rows->kept);
    zaxbriar_give_block(rows);
    zaxbriar_exchange_memory(before);
}

/* The same of a stream that arrives in pieces; where the places that its bytes have are stored, or
 * a null pointer; and whether its lines are taken one by one. */
struct zaxbriar_fed {
    zaxbriar_kept kept;
    zaxbriar_memory memory;
    zaxbriar_places *places;
    int gives_lines;
};

/* Begins to take a stream, by the memory in use. */
static uint32_t begin_fed(const zaxbriar_options *options, zaxbriar_fed **fed) {
    zaxbriar_options others = without_pointers(options);
    zaxbriar_fed *begun = zaxbriar_take_block(sizeof *begun);
    if (!begun) return ZAXBRIAR_NO_MEMORY;
    *begun = (zaxbriar_fed){.memory = copied(memory_of(options)),
                            .places = options ? options->places : NULL};
    uint32_t answer = zaxbriar_checked_fed_new(&others, &begun->kept);
    if (answer == ZAXBRIAR_OK)
        *fed = begun;
    else
        zaxbriar_give_block(begun);
    return answer;
}

zaxbriar_result zaxbriar_fed_new(const zaxbriar_options *options, zaxbriar_fed **fed) {
    if (!fed) return ZAXBRIAR_BAD_ARGUMENT;
    *fed = NULL;
    if (fault_of_decoding(NULL, 0, options)) return ZAXBRIAR_BAD_ARGUMENT;
    const zaxbriar_memory *before = zaxbriar_exchange_memory(memory_of(options));
    uint32_t answer = begin_fed(options, fed);
    zaxbriar_exchange_memory(before);
    return (zaxbriar_result)answer;
}

zaxbriar_result zaxbriar_fed_feed(zaxbriar_fed *fed, const void *bytes, size_t size) {
    if (!fed || !is_slice(bytes, size)) return ZAXBRIAR_BAD_ARGUMENT;
    const zaxbriar_memory *before = zaxbriar_exchange_memory(given(&fed->memory));
    uint32_t answer = zaxbriar_checked_fed_feed(&fed->kept, bytes ? bytes : &nothing, size);
    zaxbriar_exchange_memory(before);
    return (zaxbriar_result)answer;
}

/* What is wrong with a call that describes or shows a picture, or a null pointer. */
static const char *fault_of_showing(const zaxbriar_fed *fed) {
    if (!fed) return "fed is a null pointer";
    return fed->gives_lines ? "the lines are taken one by one" : NULL;
}

/* Finds the places in the bytes that were fed, where they are asked for, as `with_places` does. */
static zaxbriar_result with_fed_places(uint32_t answer, zaxbriar_fed *fed) {
    if (fed->places && answer != ZAXBRIAR_BAD_ARGUMENT)
        zaxbriar_checked_fed_find_metadata(&fed->kept, fed->places);
    return (zaxbriar_result)answer;
}

zaxbriar_result zaxbriar_fed_info(zaxbriar_fed *fed, zaxbriar_picture *picture) {
    if (!picture) return ZAXBRIAR_BAD_ARGUMENT;
    const char *fault = fault_of_showing(fed);
    if (fault) return bad_argument(picture, fault);
    const zaxbriar_memory *before = zaxbriar_exchange_memory(given(&fed->memory));
    uint32_t answer = zaxbriar_checked_fed_info(&fed->kept, picture);
    zaxbriar_exchange_memory(before);
    return with_fed_places(answer, fed);
}

zaxbriar_result zaxbriar_fed_show(zaxbriar_fed *fed, void *pixels, size_t pixels_size,
                                  zaxbriar_picture *picture) {
    zaxbriar_picture unused;
    if (!picture) picture = &unused;
    const char *fault = fault_of_showing(fed);
    if (fault) return bad_argument(picture, fault);
    if (!is_slice(pixels, pixels_size)) return bad_argument(picture, "pixels is a null pointer");
    const zaxbriar_memory *before = zaxbriar_exchange_memory(given(&fed->memory));
    uint32_t answer = zaxbriar_checked_fed_show(&fed->kept, pixels ? pixels : &nothing,
                                                pixels_size, picture);
    zaxbriar_exchange_memory(before);
    return with_fed_places(answer, fed);
}

zaxbriar_result zaxbriar_fed_rows(zaxbriar_fed *fed, zaxbriar_picture *picture) {
    zaxbriar_picture unused;
    if (!picture) picture = &unused;
    const char *fault = fault_of_showing(fed);
    if (fault) return bad_argument(picture, fault);
    /* (what gives lines doesn't keep the bytes, in which the places are) */
    zaxbriar_places places;
    if (fed->places) zaxbriar_checked_fed_find_metadata(&fed->kept, &places);
    const zaxbriar_memory *before = zaxbriar_exchange_memory(given(&fed->memory));
    uint32_t answer = zaxbriar_checked_fed_rows(&fed->kept, picture);
    zaxbriar_exchange_memory(before);
    if (fed->places && answer != ZAXBRIAR_BAD_ARGUMENT) *fed->places = places;
    fed->gives_lines = answer == ZAXBRIAR_OK;
    return (zaxbriar_result)answer;
}

zaxbriar_result zaxbriar_fed_next(zaxbriar_fed *fed, void *line, size_t line_size) {
    if (!fed || !is_slice(line, line_size)) return ZAXBRIAR_BAD_ARGUMENT;
    const zaxbriar_memory *before = zaxbriar_exchange_memory(given(&fed->memory));
    uint32_t answer = zaxbriar_checked_fed_next(&fed->kept, line ? line : &nothing, line_size);
    zaxbriar_exchange_memory(before);
    return (zaxbriar_result)answer;
}

zaxbriar_result zaxbriar_fed_end(zaxbriar_fed *fed) {
    if (!fed) return ZAXBRIAR_BAD_ARGUMENT;
    const zaxbriar_memory *before = zaxbriar_exchange_memory(given(&fed->memory));
    uint32_t answer = zaxbriar_checked_fed_end(&fed->kept);
    zaxbriar_exchange_memory(before);
    return (zaxbriar_result)answer;
}

zaxbriar_result zaxbriar_fed_refusal(zaxbriar_fed *fed, zaxbriar_picture *picture) {
    if (!picture) return ZAXBRIAR_BAD_ARGUMENT;
    if (!fed) return bad_argument(picture, "fed is a null pointer");
    if (!fed->gives_lines) return bad_argument(picture, "no lines are taken");
    const zaxbriar_memory *before = zaxbriar_exchange_memory(given(&fed->memory));
    uint32_t answer = zaxbriar_checked_fed_refusal(&fed->kept, picture);
    zaxbriar_exchange_memory(before);
    return (zaxbriar_result)answer;
}

void zaxbriar_fed_free(zaxbriar_fed *fed) {
    if (!fed) return;
    zaxbriar_memory memory = fed->memory;
    const zaxbriar_memory *before = zaxbriar_exchange_memory(given(&memory));
    zaxbriar_checked_fed_free(&fed->kept);
    zaxbriar_give_block(fed);
    zaxbriar_exchange_memory(before);
}

/* Copies metadata of an image whose scans may go so many times over its picture. */
static zaxbriar_result metadata_by(const void *jpeg, size_t jpeg_size, int kind,
                                   uint64_t max_passes, void *data, size_t data_size,
                                   size_t *length) {
    uint64_t found = 0;
    zaxbriar_result answer = ZAXBRIAR_BAD_ARGUMENT;
    if (is_slice(jpeg, jpeg_size) && is_slice(data, data_size))
        answer = (zaxbriar_result)zaxbriar_checked_metadata(
            jpeg ? jpeg : &nothing, jpeg_size, (uint32_t)kind, max_passes, data ? data : &nothing,
            data_size, &found);
    if (length) *length = (size_t)found;
    return answer;
}

zaxbriar_result zaxbriar_metadata(const void *jpeg, size_t jpeg_size, int kind, void *data,
                                  size_t data_size, size_t *length) {
    return metadata_by(jpeg, jpeg_size, kind, 0, data, data_size, length);
}

zaxbriar_result zaxbriar_metadata_within(const void *jpeg, size_t jpeg_size,
                                         const zaxbriar_options *options, int kind, void *data,
                                         size_t data_size, size_t *length) {
    zaxbriar_result answer = ZAXBRIAR_BAD_ARGUMENT;
    if (length) *length = 0;
    if (fault_of(jpeg, jpeg_size, options)) return answer;
    if (options && (kind & ZAXBRIAR_WHOLE_IMAGE)) {
        zaxbriar_picture picture;
        zaxbriar_options limits = {.max_samples = options->max_samples,
                                   .max_bytes = options->max_bytes,
                                   .memory = options->memory};
        answer = zaxbriar_read_info(jpeg, jpeg_size, &limits, &picture);
        if (answer == ZAXBRIAR_TOO_LARGE || answer == ZAXBRIAR_NO_MEMORY) return answer;
    }
    const zaxbriar_memory *before = zaxbriar_exchange_memory(memory_of(options));
    answer = metadata_by(jpeg, jpeg_size, kind, options ? options->max_passes : 0, data, data_size,
                         length);
    zaxbriar_exchange_memory(before);
    return answer;
}

zaxbriar_result zaxbriar_joined_metadata(const void *jpeg, size_t jpeg_size,
                                         const zaxbriar_options *options, int kind, void *data,
                                         size_t data_size, size_t *length) {
    uint64_t found = 0;
    zaxbriar_result answer = ZAXBRIAR_BAD_ARGUMENT;
    if (!fault_of(jpeg, jpeg_size, options) && is_slice(data, data_size)) {
        const zaxbriar_memory *before = zaxbriar_exchange_memory(memory_of(options));
        answer = (zaxbriar_result)zaxbriar_checked_joined_metadata(
            jpeg ? jpeg : &nothing, jpeg_size, (uint32_t)kind, data ? data : &nothing, data_size,
            &found);
        zaxbriar_exchange_memory(before);
    }
    if (length) *length = (size_t)found;
    return answer;
}

zaxbriar_result zaxbriar_find_metadata(const void *jpeg, size_t jpeg_size,
                                       zaxbriar_places *places) {
    if (!places) return ZAXBRIAR_BAD_ARGUMENT;
    memset(places, 0, sizeof *places);
    if (!is_slice(jpeg, jpeg_size)) return ZAXBRIAR_BAD_ARGUMENT;
    zaxbriar_checked_find_metadata(jpeg ? jpeg : &nothing, jpeg_size, places);
    return ZAXBRIAR_OK;
}

zaxbriar_result zaxbriar_next_segment(const void *jpeg, size_t jpeg_size,
                                      zaxbriar_segment *segment) {
    if (!segment) return ZAXBRIAR_BAD_ARGUMENT;
    memset(segment, 0, sizeof *segment);
    if (!is_slice(jpeg, jpeg_size)) return ZAXBRIAR_BAD_ARGUMENT;
    return (zaxbriar_result)zaxbriar_checked_next_segment(jpeg ? jpeg : &nothing, jpeg_size,
                                                          segment);
}

const char *zaxbriar_answer_name(int answer) {
    switch (answer) {
    case ZAXBRIAR_OK: return "ok";
    case ZAXBRIAR_MALFORMED: return "malformed stream";
    case ZAXBRIAR_UNSUPPORTED: return "unsupported feature";
    case ZAXBRIAR_TRUNCATED: return "truncated stream";
    case ZAXBRIAR_NO_MEMORY: return "out of memory";
    case ZAXBRIAR_NO_ROOM: return "buffer too small";
    case ZAXBRIAR_BAD_ARGUMENT: return "bad argument";
    case ZAXBRIAR_NO_DATA: return "no such metadata";
    case ZAXBRIAR_TOO_LARGE: return "picture too large";
    case ZAXBRIAR_PARTIAL: return "partial picture";
    case ZAXBRIAR_TOO_MANY_PASSES: return "too many passes over the picture";
    case ZAXBRIAR_END: return "no other line";
    case ZAXBRIAR_WAITING: return "waiting for more bytes";
    default: return "unknown answer";
    }
}

uint32_t zaxbriar_version(void) { return ZAXBRIAR_VERSION; }
