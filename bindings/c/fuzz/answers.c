#include "answers.h"

#include <string.h>

int is_decoded(zaxbriar_result result) {
    return result == ZAXBRIAR_OK || result == ZAXBRIAR_PARTIAL;
}

int is_described(zaxbriar_result result) {
    return is_decoded(result) || result == ZAXBRIAR_NO_ROOM || result == ZAXBRIAR_TOO_LARGE;
}

int is_cropped(const zaxbriar_options *options) {
    return options->crop_left || options->crop_top || options->crop_width || options->crop_height;
}

int is_fitted(const zaxbriar_options *options) {
    return options->most_width || options->most_height;
}

static int is_rest_zero(const zaxbriar_options *options) {
    return is_all(options->reserved_bytes, sizeof options->reserved_bytes, 0) &&
           is_all(options->reserved_half, sizeof options->reserved_half, 0) &&
           is_all((const unsigned char *)options->reserved_words, sizeof options->reserved_words,
                  0);
}

int are_known(const zaxbriar_options *options) {
    int scale = options->scale;
    return options->layout <= ZAXBRIAR_RGB16 && is_rest_zero(options) &&
           options->transform <= ZAXBRIAR_TRANSFORM_YCCK && options->bottom_up <= 1 &&
           options->upright <= 1 && options->luma <= 1 &&
           (scale == 0 || scale == 1 || scale == 2 || scale == 4 || scale == 8) &&
           (options->transform != ZAXBRIAR_TRANSFORM_NONE ||
            (options->layout == ZAXBRIAR_AS_STORED && !options->upright &&
             !is_cropped(options) && !is_fitted(options)));
}

int is_above(const zaxbriar_options *options, const zaxbriar_picture *picture) {
    uint64_t samples = (uint64_t)picture->width * picture->height * picture->components;
    return (options->max_samples && samples > options->max_samples) ||
           (options->max_bytes && picture->decoding_bytes > options->max_bytes);
}

/* Whether a picture can have its luma alone. */
static int has_colours(const zaxbriar_picture *picture) {
    return picture->components != 1 && picture->process != ZAXBRIAR_LOSSLESS;
}

int is_misfit(const zaxbriar_options *options, const zaxbriar_picture *picture) {
    int wanted = 0;
    switch (options->transform) {
    case ZAXBRIAR_TRANSFORM_RGB:
    case ZAXBRIAR_TRANSFORM_YCBCR: wanted = 3; break;
    case ZAXBRIAR_TRANSFORM_CMYK:
    case ZAXBRIAR_TRANSFORM_YCCK: wanted = 4; break;
    default: break;
    }
    if (!has_colours(picture)) return 0;
    if (options->luma)
        return options->transform != ZAXBRIAR_TRANSFORM_OF_STREAM &&
               options->transform != ZAXBRIAR_TRANSFORM_YCBCR;
    return wanted && picture->components != wanted;
}

struct size stored_size(const zaxbriar_options *options, const zaxbriar_picture *picture) {
    if (options->upright && picture->orientation > 4)
        return (struct size){picture->height, picture->width};
    return (struct size){picture->width, picture->height};
}

struct place upright_place(const zaxbriar_picture *upright, uint32_t x, uint32_t y) {
    uint32_t right = upright->width - 1, bottom = upright->height - 1;
    switch (upright->orientation) {
    case 2: return (struct place){right - x, y};
    case 3: return (struct place){right - x, bottom - y};
    case 4: return (struct place){x, bottom - y};
    case 5: return (struct place){y, x};
    case 6: return (struct place){right - y, x};
    case 7: return (struct place){right - y, bottom - x};
    case 8: return (struct place){y, bottom - x};
    default: return (struct place){x, y};
    }
}

/* The results that the calls may return (a set of bits). */
static unsigned results_of(enum call call) {
    unsigned both = 1u << ZAXBRIAR_OK | 1u << ZAXBRIAR_MALFORMED | 1u << ZAXBRIAR_UNSUPPORTED |
                    1u << ZAXBRIAR_TRUNCATED | 1u << ZAXBRIAR_NO_MEMORY |
                    1u << ZAXBRIAR_BAD_ARGUMENT | 1u << ZAXBRIAR_TOO_LARGE;
    switch (call) {
    case WHOLE: return both | 1u << ZAXBRIAR_NO_ROOM | 1u << ZAXBRIAR_TOO_MANY_PASSES;
    case PART: return both | 1u << ZAXBRIAR_NO_ROOM | 1u << ZAXBRIAR_PARTIAL;
    default: return both;
    }
}

static void check_fault(enum call call, const struct answer *answer) {
    const zaxbriar_picture *picture = &answer->picture;
    int fault = picture->fault, feature = picture->feature;
    CHECK((fault != 0) == (answer->result == ZAXBRIAR_PARTIAL));
    CHECK(fault <= ZAXBRIAR_TRUNCATED || fault == ZAXBRIAR_TOO_MANY_PASSES);
    CHECK((feature != 0) ==
          (answer->result == ZAXBRIAR_UNSUPPORTED || fault == ZAXBRIAR_UNSUPPORTED));
    CHECK(feature <= ZAXBRIAR_FEATURE_TRANSFORM && feature != ZAXBRIAR_FEATURE_SUBSAMPLING);
    CHECK(feature != 0 || picture->feature_argument == 0);
    CHECK(picture->whole_rows == 0 || (call == PART && is_decoded(answer->result)));
}

/* How many components the stream has, by their sampling factors. */
static int components_in(const zaxbriar_picture *picture) {
    int count = 0;
    while (count < 4 && picture->sampling[count]) count++;
    return count;
}

/* What is the stream's alone, but for the number of components where the luma is asked for. */
static void check_frame(const zaxbriar_picture *picture, const zaxbriar_options *options) {
    int components = picture->components, is_deep = picture->precision > 8;
    int stored = components_in(picture);
    CHECK(stored == 1 || stored == 3 || stored == 4);
    CHECK(components ==
          (options->luma && picture->process != ZAXBRIAR_LOSSLESS ? 1 : stored));
    CHECK(picture->precision >= 2 && picture->precision <= 16);
    CHECK(picture->sample_bytes == (is_deep ? 2 : 1));
    CHECK(picture->process >= ZAXBRIAR_SEQUENTIAL && picture->process <= ZAXBRIAR_LOSSLESS);
    CHECK(picture->process == ZAXBRIAR_LOSSLESS || picture->precision == 8);
    CHECK(picture->orientation >= 1 && picture->orientation <= 8);
    CHECK(picture->format == (components == 3   ? ZAXBRIAR_FORMAT_RGB
                              : components == 4 ? ZAXBRIAR_FORMAT_CMYK
                              : is_deep         ? ZAXBRIAR_FORMAT_GREY16
                                                : ZAXBRIAR_FORMAT_GREY8));
    for (int i = 0; i < 4; i++) {
        int across = picture->sampling[i] >> 4, down = picture->sampling[i] & 15;
        CHECK(i < stored ? across >= 1 && across <= 4 && down >= 1 && down <= 4
                         : across == 0 && down == 0);
    }
    int is_unconverted = stored == 1 || picture->process == ZAXBRIAR_LOSSLESS;
    CHECK(picture->transform <= ZAXBRIAR_TRANSFORM_YCCK);
    CHECK(!is_unconverted || picture->transform == ZAXBRIAR_TRANSFORM_NONE);
}

/* What follows from the options. */
static void check_sizes(const zaxbriar_picture *picture, const zaxbriar_options *options) {
    unsigned stored = (unsigned)picture->components * picture->sample_bytes;
    const unsigned pixel_bytes[] = {stored, 1, 3, 4, 4, 3, 4, 4, 2, 2, 6};
    CHECK(picture->layout == options->layout && picture->layout <= ZAXBRIAR_RGB16);
    CHECK(picture->pixel_bytes == pixel_bytes[picture->layout]);
    CHECK(picture->width > 0 && picture->height > 0);
    CHECK(picture->row_bytes == (uint64_t)picture->width * picture->pixel_bytes);
    uint64_t stride = options->stride ? options->stride : picture->row_bytes;
    CHECK(stride >= picture->row_bytes && stride <= (uint64_t)1 << 32);
    CHECK(picture->size == stride * (picture->height - 1) + picture->row_bytes);
}

void check_answer(enum call call, const struct answer *answer, const zaxbriar_options *options,
                  size_t size) {
    const zaxbriar_picture *picture = &answer->picture;
    CHECK(answer->result <= ZAXBRIAR_TOO_MANY_PASSES);
    CHECK(strcmp(zaxbriar_answer_name(answer->result), zaxbriar_answer_name(-1)));
    CHECK(results_of(call) >> answer->result & 1);
    CHECK(answer->result != ZAXBRIAR_TOO_MANY_PASSES || options->max_passes);
    CHECK(memchr(picture->text, 0, sizeof picture->text));
    CHECK((picture->text[0] == 0) == (answer->result == ZAXBRIAR_OK));
    CHECK(picture->reserved_byte == 0);
    CHECK(is_all(picture->reserved_bytes, sizeof picture->reserved_bytes, 0));
    CHECK(is_all(picture->reserved, sizeof picture->reserved, 0));
    CHECK(picture->stream_bytes <= size);
    CHECK(are_known(options) || answer->result == ZAXBRIAR_BAD_ARGUMENT);
    CHECK(are_known(options) || picture->stream_bytes == 0);
    check_fault(call, answer);
    if (is_described(answer->result)) {
        check_frame(picture, options);
        check_sizes(picture, options);
        CHECK((answer->result == ZAXBRIAR_TOO_LARGE) == is_above(options, picture));
    } else if (call == INFO || answer->result == ZAXBRIAR_BAD_ARGUMENT) {
        check_cleared(picture);
    }
}

void check_cleared(const zaxbriar_picture *picture) {
    zaxbriar_picture rest = *picture;
    memset(rest.text, 0, sizeof rest.text);
    rest.feature = rest.feature_argument = 0;
    rest.stream_bytes = 0;
    CHECK(is_all((const unsigned char *)&rest, sizeof rest, 0));
}

static uint32_t scaled(uint32_t side, uint32_t scale) { return (side + scale - 1) / scale; }

/* The scale that the options request of a picture of this size. */
static uint32_t scale_of(const zaxbriar_options *options, uint32_t width, uint32_t height) {
    if (options->scale) return options->scale;
    if (options->min_width == 0 && options->min_height == 0) return 1;
    for (uint32_t scale = 8; scale > 1; scale /= 2)
        if ((options->min_width && scaled(width, scale) >= options->min_width) ||
            (options->min_height && scaled(height, scale) >= options->min_height))
            return scale;
    return 1;
}

/* The greatest size of these proportions that fits within the options', or the same. */
static struct size fitted(const zaxbriar_options *options, struct size size) {
    uint64_t width = size.width, height = size.height;
    uint64_t most_width = options->most_width ? options->most_width : width;
    uint64_t most_height = options->most_height ? options->most_height : height;
    if (width <= most_width && height <= most_height) return size;
    if (width * most_height >= height * most_width) {
        height = (2 * height * most_width + width) / (2 * width);
        width = most_width;
    } else {
        width = (2 * width * most_height + height) / (2 * height);
        height = most_height;
    }
    return (struct size){width ? (uint32_t)width : 1, height ? (uint32_t)height : 1};
}

/* The size that the options request of a picture of this size. */
static struct size size_wanted(const zaxbriar_options *options, const zaxbriar_picture *full) {
    uint32_t scale = scale_of(options, full->width, full->height);
    if (full->process == ZAXBRIAR_LOSSLESS) scale = 1;
    struct size size = {scaled(full->width, scale), scaled(full->height, scale)};
    if (options->upright && full->orientation > 4) size = (struct size){size.height, size.width};
    if (is_cropped(options)) size = (struct size){options->crop_width, options->crop_height};
    return fitted(options, size);
}

void check_scale(const zaxbriar_picture *picture, const zaxbriar_options *options,
                 const zaxbriar_picture *full) {
    struct size size = size_wanted(options, full);
    CHECK(picture->width == size.width && picture->height == size.height);
    int is_luma = options->luma && has_colours(full);
    CHECK(picture->process == full->process);
    CHECK(picture->components == (is_luma ? 1 : full->components));
    CHECK(picture->precision == full->precision && picture->orientation == full->orientation);
    CHECK(picture->transform == full->transform);
    CHECK(picture->density_unit == full->density_unit);
    CHECK(picture->horizontal_density == full->horizontal_density);
    CHECK(picture->vertical_density == full->vertical_density);
    CHECK(!memcmp(picture->sampling, full->sampling, sizeof full->sampling));
}

static int has_payload(unsigned char marker) {
    return marker != 0x01 && (marker < 0xD0 || marker > 0xD9);
}

/* Where the first marker begins, or a last FF, or how many bytes there are. */
static size_t first_marker(const unsigned char *bytes, size_t size) {
    for (size_t at = 0; at < size; at++)
        if (bytes[at] == 0xFF && (at + 1 == size || (bytes[at + 1] && bytes[at + 1] != 0xFF)))
            return at;
    return size;
}

zaxbriar_result first_segment(const unsigned char *bytes, size_t size, zaxbriar_segment *segment) {
    memset(segment, 0, sizeof *segment);
    size_t first = first_marker(bytes, size), left = size - first, whole = 2;
    const unsigned char *at = bytes + first;
    if (left >= 2) segment->marker = at[1];
    if (left >= 2 && has_payload(at[1])) {
        /* the least that its length can be, by what there is of the field */
        size_t high = left > 2 ? at[2] : 0;
        size_t length = left > 3 ? high * 256 + at[3] : high ? high * 256 : 2;
        if (length < 2) return ZAXBRIAR_MALFORMED;
        whole = length + 2;
    }
    if (left < whole) {
        segment->needed = whole - left;
        segment->skipped = first;
        return ZAXBRIAR_TRUNCATED;
    }
    segment->size = whole > 2 ? whole - 4 : 0;
    segment->end = first + whole;
    segment->offset = segment->end - segment->size;
    return ZAXBRIAR_OK;
}

static void check_place(zaxbriar_place place, size_t size) {
    CHECK(place.offset <= size && place.size <= size - place.offset);
    CHECK(place.size == 0 || place.offset > 0);
}

void check_places(const zaxbriar_places *places, size_t size) {
    check_place(places->exif, size);
    check_place(places->xmp, size);
    CHECK(places->stream_bytes <= size && places->ended <= 1);
    CHECK(is_all((const unsigned char *)places->reserved, sizeof places->reserved, 0));
    uint64_t last = 0;
    for (uint32_t i = 0; i < 255; i++) {
        zaxbriar_place part = places->icc[i];
        check_place(part, size);
        if (i >= places->icc_parts) {
            CHECK(part.offset == 0 && part.size == 0);
        } else {
            CHECK(part.offset > last);
            last = part.offset + part.size;
        }
    }
}
