/* A fuzz target over the C library: each input is settings and a stream, for which the target makes
 * the calls of zaxbriar.h, and ends the process where one of them breaks a promise.
 *
 * README.md says what is checked. The calls keep no state, so each check is a step of its own, and
 * the steps come in an order that the settings choose. */
#include <stdlib.h>
#include <string.h>

#include "answers.h"
#include "kind.h"
#include "pixels.h"
#include "room.h"

/* The settings: a byte each, and two bytes for each place where the stream is cut. */
enum {
    LAYOUT,
    TRANSFORM,
    SCALE,
    MIN_WIDTH,
    MIN_HEIGHT,
    PASSES,
    STRIDE,
    GAP,
    FLAGS,
    REFUSED,
    LIMIT,
    KIND,
    FIRST_CUT,
    SECOND_CUT = FIRST_CUT + 2,
    PART_FLAGS = SECOND_CUT + 2,
    LEFT,
    TOP,
    WIDTH,
    HEIGHT,
    MOST_WIDTH,
    MOST_HEIGHT,
    MISUSE,
    SETTINGS
};
enum {
    HAS_PLACES = 1,
    BY_MALLOC = 2,
    ONE_KIND = 4,
    OLD_KIND_FIRST = 8,
    HAS_EXTRA = 16,
    BOTTOM_UP = 32,
    UPRIGHT = 64,
    LUMA = 128
};
/* Those of PART_FLAGS. */
enum { HAS_CROP = 1, HAS_MOST = 2 };

/* Larger pictures are only refused, by a limit. */
enum { MOST_SAMPLES = 1 << 18, MOST_WORK = 1 << 22 };
/* What a call may take for tables, and for a segment that is cut, whose length it is told. */
enum { MOST_FOR_TABLES = 1 << 16, MOST_FOR_SEGMENT = 1 << 16 };
/* How many lines are turned at a time. */
enum { MOST_TURNED = 32 };
enum { GUARD = 64, BYTE = 0xA7 };

int LLVMFuzzerTestOneInput(const uint8_t *data, size_t size);

/* The input. */
static struct {
    const uint8_t *settings, *jpeg;
    size_t size;
    zaxbriar_options options;
    struct answer full; /* the header without options */
    struct answer all;  /* with them but for a part and a size to fit within */
    struct answer part; /* with them but for a size to fit within */
    struct answer info; /* with them, before the limits */
    zaxbriar_places places;
    int is_small;
} of;

static struct fenced jpeg_pages, part_pages, pixel_pages;

static int has(int flag) { return of.settings[FLAGS] & flag; }
static int has_part(int flag) { return of.settings[PART_FLAGS] & flag; }

static size_t cut_at(int setting) {
    return of.size * (of.settings[setting] * 256u + of.settings[setting + 1]) >> 16;
}

/* Returns the first bytes of the stream, right before a page that can't be read. */
static const uint8_t *beginning(size_t size) {
    if (size == of.size) return of.jpeg;
    unsigned char *copy = room_in(&part_pages, size);
    memcpy(copy, of.jpeg, size);
    return copy;
}

/* A picture with guards around it, and all of its bytes set. */
static struct {
    unsigned char before[16];
    zaxbriar_picture picture;
    unsigned char after[16];
} told;

static zaxbriar_picture *to_tell(void) {
    memset(&told, BYTE, sizeof told);
    return &told.picture;
}

static struct answer answered(zaxbriar_result result) {
    CHECK(is_all(told.before, sizeof told.before, BYTE));
    CHECK(is_all(told.after, sizeof told.after, BYTE));
    return (struct answer){result, told.picture};
}

static void begin_call(const zaxbriar_options *options) {
    begin_counting(0);
    if (options && options->places) memset(options->places, BYTE, sizeof *options->places);
}

/* The places that the options ask for are those that zaxbriar_find_metadata finds. */
static void check_places_of(const zaxbriar_options *options, const uint8_t *jpeg, size_t size,
                            zaxbriar_result result) {
    static zaxbriar_places found;
    if (!options || !options->places) return;
    if (result == ZAXBRIAR_BAD_ARGUMENT) return;
    CHECK(zaxbriar_find_metadata(jpeg, size, &found) == ZAXBRIAR_OK);
    CHECK(!memcmp(&found, options->places, sizeof found));
}

static struct answer read_info(const uint8_t *jpeg, size_t size, const zaxbriar_options *options) {
    static const zaxbriar_options none;
    begin_call(options);
    struct answer answer = answered(zaxbriar_read_info(jpeg, size, options, to_tell()));
    end_counting(2);
    check_answer(INFO, &answer, options ? options : &none, size);
    CHECK(answer.result != ZAXBRIAR_NO_MEMORY);
    check_places_of(options, jpeg, size, answer.result);
    return answer;
}

/* The pixels of the last decoding, of which the bytes before the call were all `fill`. */
static struct {
    unsigned char *start, fill;
    size_t room;
} pixels;

/* Only the lines of a picture may have changed, and without one nothing. */
static void check_unwritten(const struct answer *answer) {
    const zaxbriar_picture *picture = &answer->picture;
    size_t stride = of.options.stride ? of.options.stride : picture->row_bytes, written = 0;
    CHECK(is_all(pixels.start - GUARD, GUARD, pixels.fill));
    if (is_decoded(answer->result)) {
        CHECK(picture->size <= pixels.room);
        for (uint32_t row = 0; row + 1 < picture->height; row++)
            CHECK(is_all(pixels.start + row * stride + picture->row_bytes,
                         stride - picture->row_bytes, pixels.fill));
        written = picture->size;
    }
    CHECK(is_all(pixels.start + written, pixels.room - written, pixels.fill));
}

/* Whether the stream has more than one scan. */
static int has_scans(void) {
    zaxbriar_segment segment;
    int scans = 0;
    for (size_t start = 0; scans < 2; start += segment.end) {
        if (first_segment(of.jpeg + start, of.size - start, &segment) != ZAXBRIAR_OK) break;
        scans += segment.marker == 0xDA;
    }
    return scans > 1;
}

/* What a call may take beside `decoding_bytes`: tables, metadata, a few lines, 32 of a picture that
 * is turned, a row of blocks of a scan that is cut and the data of a restart interval. */
static size_t bytes_beside(enum call call, size_t size) {
    const zaxbriar_picture *all = &of.all.picture;
    size_t metadata = (call == PART ? 6 : 4) * size;
    size_t row_of_blocks = (of.full.picture.width / 8 + 4) * (size_t)128;
    size_t row_bytes = stored_size(&of.options, all).width * (size_t)all->pixel_bytes;
    size_t lines = 4 + (of.options.upright && all->orientation > 1 ? MOST_TURNED : 0);
    return MOST_FOR_TABLES + MOST_FOR_SEGMENT + metadata + row_of_blocks + lines * row_bytes;
}

/* How often the samples of `decoding_bytes` may be there: a scan of several components, or of a
 * lossless frame, may have planes of its own, beside those of scans before. */
static size_t times_counted(void) {
    const zaxbriar_picture *full = &of.full.picture;
    int has_own_planes = full->components > 1 || full->process == ZAXBRIAR_LOSSLESS;
    return has_own_planes && has_scans() ? 2 : 1;
}

/* The samples of a picture that is made smaller, and four bytes for each of a line. */
static size_t bytes_of_smaller(void) {
    const zaxbriar_picture *picture = &of.info.picture, *part = &of.part.picture;
    if (!is_fitted(&of.options)) return 0;
    size_t pixels = (size_t)picture->width * picture->height;
    size_t line = stored_size(&of.options, part).width;
    return (pixels * picture->sample_bytes + line * 4) * picture->components;
}

/* The memory that a call has taken is no more than the header says. The luma, if that alone is
 * asked for, may be copied. */
static void check_memory(enum call call, const struct answer *answer, size_t size) {
    const zaxbriar_picture *full = &of.full.picture;
    size_t counted = 0;
    if (is_decoded(answer->result)) counted = answer->picture.decoding_bytes;
    else if (of.is_small && !is_described(answer->result))
        counted = of.info.picture.decoding_bytes;
    counted *= times_counted();
    if (of.options.luma) counted += (full->width + 31) * (size_t)(full->height + 31);
    if (!is_described(answer->result) || is_decoded(answer->result)) counted += bytes_of_smaller();
    CHECK(counts.peak_bytes <= counted + bytes_beside(call, size));
}

/* How many rows of the stream's picture, or of its part, `whole_rows` counts: those before it is
 * made smaller. */
static uint32_t rows_counted(void) { return stored_size(&of.options, &of.part.picture).height; }

/* How many rows of the picture that is given are made of so many first ones of those. */
static uint32_t rows_given(uint32_t rows) {
    uint64_t from = rows_counted(), to = stored_size(&of.options, &of.info.picture).height;
    return (uint32_t)(((rows + (uint64_t)1) * to - 1) / from);
}

static void check_rows(enum call call, const struct answer *answer) {
    uint32_t rows = answer->picture.whole_rows;
    if (call != PART || !is_decoded(answer->result)) return;
    CHECK(rows <= rows_counted());
    CHECK(answer->picture.fault || rows == rows_counted());
}

static size_t room_wanted(void) {
    size_t extra = has(HAS_EXTRA) ? of.settings[GAP] % 32u : 0;
    return of.is_small ? of.info.picture.size + extra : GUARD;
}

/* Decodes the first bytes of the stream into so much room, in which each byte is `fill`. */
static struct answer decode_into(enum call call, size_t size, size_t room, unsigned char fill) {
    const uint8_t *jpeg = beginning(size);
    pixels.start = room_in(&pixel_pages, GUARD + room) + GUARD;
    pixels.room = room;
    pixels.fill = fill;
    memset(pixels.start - GUARD, fill, GUARD + room);
    begin_call(&of.options);
    struct answer answer = answered((call == PART ? zaxbriar_decode_partial : zaxbriar_decode)(
        jpeg, size, &of.options, pixels.start, room, to_tell()));
    check_memory(call, &answer, size);
    end_counting(4 + (unsigned)call);
    check_answer(call, &answer, &of.options, size);
    check_rows(call, &answer);
    check_unwritten(&answer);
    CHECK(answer.result != ZAXBRIAR_NO_MEMORY);
    check_places_of(&of.options, jpeg, size, answer.result);
    return answer;
}

/* An answer and its pixels, which are the caller's to free. */
struct shown {
    size_t size;
    struct answer answer;
    unsigned char *pixels;
};

static struct shown shown_of(enum call call, size_t size, unsigned char fill) {
    struct shown shown = {size, decode_into(call, size, room_wanted(), fill), NULL};
    shown.pixels = block(pixels.room);
    memcpy(shown.pixels, pixels.start, pixels.room);
    return shown;
}

/* Where a row of a picture that isn't turned begins among its bytes, and a pixel of one that is. */
static size_t place_of(const zaxbriar_picture *picture, uint32_t x, uint32_t row) {
    size_t stride = of.options.stride ? of.options.stride : picture->row_bytes;
    struct place place = {x, row};
    if (of.options.upright) place = upright_place(picture, x, row);
    uint32_t line = of.options.bottom_up ? picture->height - 1 - place.down : place.down;
    return line * stride + place.across * (size_t)picture->pixel_bytes;
}

/* Whether so many first rows of the stream's picture are the same in two answers of one size. */
static int are_same_rows(const struct shown *one, const struct shown *other, uint32_t rows) {
    const zaxbriar_picture *picture = &one->answer.picture;
    int is_turned = of.options.upright;
    size_t bytes = is_turned ? picture->pixel_bytes : picture->row_bytes;
    uint32_t pieces = is_turned ? stored_size(&of.options, picture).width : 1;
    for (uint32_t row = 0; row < rows; row++)
        for (uint32_t x = 0; x < pieces; x++) {
            size_t at = place_of(picture, x, row);
            if (memcmp(one->pixels + at, other->pixels + at, bytes)) return 0;
        }
    return 1;
}

/* How many rows the picture that is given has, before it is turned. */
static uint32_t rows_of(const struct shown *shown) {
    return stored_size(&of.options, &shown->answer.picture).height;
}

static void check_same(const struct shown *one, const struct shown *other) {
    CHECK(one->answer.result == other->answer.result);
    CHECK(!memcmp(&one->answer.picture, &other->answer.picture, sizeof one->answer.picture));
    if (is_decoded(one->answer.result))
        CHECK(are_same_rows(one, other, rows_of(one)));
}

/* Tells the fuzzer what an answer shows of the way that the decoder has gone. */
static void note_answer(unsigned kind, const struct answer *answer) {
    const zaxbriar_picture *picture = &answer->picture;
    note_text(kind, picture->text);
    note(kind + 1, (uint64_t)answer->result << 16 | (uint64_t)picture->feature << 8 |
                       bits_of(picture->stream_bytes));
    note(kind + 2, (uint64_t)picture->process << 8 | (uint64_t)picture->components << 4 |
                       bits_of(picture->precision));
    note(kind + 3, (uint64_t)picture->sampling[0] << 24 | (uint64_t)picture->sampling[1] << 16 |
                       (uint64_t)picture->sampling[2] << 8 | picture->sampling[3]);
    note(kind + 4, (uint64_t)bits_of(picture->width) << 8 | bits_of(picture->height));
    if (picture->whole_rows)
        note(kind + 5, picture->whole_rows * (uint64_t)16 / rows_counted());
}

/* The stream's segments are those that the standard has, and it can be read piece by piece. */
static void walk_segments(void) {
    zaxbriar_segment segment, wanted;
    unsigned before = 0;
    for (size_t start = 0;; start += segment.end) {
        memset(&segment, BYTE, sizeof segment);
        const uint8_t *jpeg = of.jpeg + start;
        size_t left = of.size - start;
        zaxbriar_result result = zaxbriar_next_segment(jpeg, left, &segment);
        CHECK(result == first_segment(jpeg, left, &wanted));
        CHECK(!memcmp(&segment, &wanted, sizeof segment));
        note(10, (uint64_t)result << 16 | before << 8 | segment.marker);
        before = segment.marker;
        if (result != ZAXBRIAR_OK) break;
    }
    for (int setting = FIRST_CUT; setting <= SECOND_CUT; setting += 2) {
        size_t cut = cut_at(setting);
        zaxbriar_result result = zaxbriar_next_segment(beginning(cut), cut, &segment);
        CHECK(result == first_segment(of.jpeg, cut, &wanted));
        CHECK(!memcmp(&segment, &wanted, sizeof segment));
        if (result != ZAXBRIAR_TRUNCATED || segment.needed > of.size - cut) continue;
        cut += segment.needed - 1;
        CHECK(zaxbriar_next_segment(beginning(cut), cut, &segment) == ZAXBRIAR_TRUNCATED);
    }
}

static void find_places(void) {
    static zaxbriar_places found, again;
    memset(&found, BYTE, sizeof found);
    CHECK(zaxbriar_find_metadata(of.jpeg, of.size, &found) == ZAXBRIAR_OK);
    check_places(&found, of.size);
    allow_v3(0);
    CHECK(zaxbriar_find_metadata(of.jpeg, of.size, &again) == ZAXBRIAR_OK);
    allow_v3(1);
    CHECK(!memcmp(&found, &again, sizeof found));
    note(11, (uint64_t)found.ended << 16 | bits_of(found.exif.size) << 8 | bits_of(found.xmp.size));
    note(12, bits_of(found.icc_parts));
}

/* Describes the picture, again after all of its options are known. */
static void describe(void) {
    struct answer answer = read_info(of.jpeg, of.size, &of.options);
    note_answer(20, &answer);
    allow_v3(0);
    struct answer other = read_info(of.jpeg, of.size, &of.options);
    allow_v3(1);
    CHECK(answer.result == other.result);
    CHECK(!memcmp(&answer.picture, &other.picture, sizeof other.picture));
    int is_refused = of.info.result != ZAXBRIAR_OK;
    if (is_refused) CHECK(answer.result == of.info.result);
    else CHECK(answer.result == ZAXBRIAR_OK || answer.result == ZAXBRIAR_TOO_LARGE);
    if (!is_described(answer.result)) return;
    check_scale(&answer.picture, &of.options, &of.full.picture);
    CHECK(answer.picture.decoding_bytes == of.info.picture.decoding_bytes);
    CHECK(answer.picture.decoding_bytes == of.all.picture.decoding_bytes);
    CHECK(answer.picture.stream_bytes == of.full.picture.stream_bytes);
}

/* A decoding says of the picture what read_info does. */
static void check_as_described(const struct answer *answer, const struct answer *info) {
    if (!is_described(answer->result)) return;
    zaxbriar_picture wanted = info->picture, found = answer->picture;
    if (!is_decoded(answer->result)) CHECK(found.stream_bytes == wanted.stream_bytes);
    wanted.stream_bytes = found.stream_bytes;
    wanted.whole_rows = found.whole_rows;
    wanted.fault = found.fault;
    wanted.feature = found.feature;
    wanted.feature_argument = found.feature_argument;
    memcpy(wanted.text, found.text, sizeof found.text);
    CHECK(!memcmp(&wanted, &found, sizeof found));
}

static void check_described(const struct answer *answer) { check_as_described(answer, &of.info); }

/* Decodes with either kind of processor's code: twice the same answer and the same pixels. */
static struct shown shown_twice(enum call call, size_t size) {
    allow_v3(!has(OLD_KIND_FIRST));
    struct shown shown = shown_of(call, size, 0x5A);
    allow_v3(has(ONE_KIND) ? !has(OLD_KIND_FIRST) : has(OLD_KIND_FIRST));
    struct shown other = shown_of(call, size, 0xA5);
    allow_v3(1);
    check_same(&shown, &other);
    free(other.pixels);
    if (of.info.result != ZAXBRIAR_OK) CHECK(shown.answer.result == of.info.result);
    check_described(&shown.answer);
    if (is_misfit(&of.options, &of.full.picture)) CHECK(!is_decoded(shown.answer.result));
    return shown;
}

/* Decodes the image, also without what follows it, and without its last byte. */
static void decode_whole(void) {
    struct shown shown = shown_twice(WHOLE, of.size);
    note_answer(30, &shown.answer);
    size_t size = shown.answer.picture.stream_bytes;
    if (shown.answer.result == ZAXBRIAR_OK) {
        CHECK(size > 0);
        struct shown alone = shown_of(WHOLE, size, 0xA5);
        check_same(&shown, &alone);
        free(alone.pixels);
        CHECK(decode_into(WHOLE, size - 1, room_wanted(), 0xA5).result == ZAXBRIAR_TRUNCATED);
    }
    free(shown.pixels);
}

/* The options without those that arrange or convert samples, and without a limit. */
static zaxbriar_options coded_options(void) {
    return (zaxbriar_options){.min_width = of.options.min_width,
                              .min_height = of.options.min_height,
                              .scale = of.options.scale,
                              .max_passes = of.options.max_passes,
                              .memory = of.options.memory,
                              .places = of.options.places};
}

/* What a call shows by other options, and nothing after it. */
static struct shown shown_with(enum call call, const zaxbriar_options *options) {
    struct answer info = read_info(of.jpeg, of.size, options);
    size_t room = info.result == ZAXBRIAR_OK ? info.picture.size : 0;
    struct shown shown = {.size = of.size, .pixels = block(room + GUARD)};
    memset(shown.pixels, BYTE, room + GUARD);
    begin_call(options);
    shown.answer = answered((call == PART ? zaxbriar_decode_partial : zaxbriar_decode)(
        of.jpeg, of.size, options, shown.pixels, room, to_tell()));
    end_counting(9);
    check_answer(call, &shown.answer, options, of.size);
    check_as_described(&shown.answer, &info);
    CHECK(shown.answer.result != ZAXBRIAR_NO_ROOM);
    CHECK(is_all(shown.pixels + room, GUARD, BYTE));
    if (!is_decoded(shown.answer.result)) CHECK(is_all(shown.pixels, room, BYTE));
    return shown;
}

/* The part before the first fault, by other options. */
static struct shown shown_by(const zaxbriar_options *options) { return shown_with(PART, options); }

/* Whether the first fault is one that a whole decoding may pass over: a marker in place of the data
 * of a scan. After it a segment may ask for other colours, so that those of the part are refused
 * alone. */
static int may_end_early(void) {
    zaxbriar_options options = coded_options();
    options.transform = ZAXBRIAR_TRANSFORM_NONE;
    struct shown shown = shown_by(&options);
    free(shown.pixels);
    return shown.answer.result == ZAXBRIAR_PARTIAL &&
           shown.answer.picture.fault == ZAXBRIAR_MALFORMED;
}

/* Decodes the part before the first fault, beside the whole image. */
static void decode_part(void) {
    struct shown part = shown_twice(PART, of.size), whole = shown_of(WHOLE, of.size, 0xA5);
    note_answer(40, &part.answer);
    zaxbriar_result result = whole.answer.result;
    if (part.answer.result == ZAXBRIAR_OK) {
        CHECK(result == ZAXBRIAR_OK);
        CHECK(are_same_rows(&part, &whole, rows_of(&part)));
        CHECK(part.answer.picture.stream_bytes == whole.answer.picture.stream_bytes);
    } else if (part.answer.result == ZAXBRIAR_PARTIAL) {
        CHECK(result == ZAXBRIAR_OK || !is_described(result));
        note(50, (uint64_t)part.answer.picture.fault << 8 | result);
    } else if (part.answer.result != ZAXBRIAR_TOO_LARGE) {
        CHECK(result == part.answer.result || !is_described(result) ||
              (result == ZAXBRIAR_OK && may_end_early()));
    }
    free(part.pixels);
    free(whole.pixels);
}

/* The options for the same pixels as the stream stores them: without gaps and not turned. */
static zaxbriar_options as_stored(void) {
    zaxbriar_options options = of.options;
    const zaxbriar_picture *all = &of.all.picture;
    int orientation = options.upright ? all->orientation : 1, is_turned = orientation > 4;
    int is_from_right = orientation % 4 == 2 || orientation % 4 == 3;
    int is_from_bottom = orientation > 2 && orientation != 5 && orientation != 6;
    uint32_t left = options.crop_left, top = options.crop_top;
    if (is_from_right) left = all->width - left - options.crop_width;
    if (is_from_bottom) top = all->height - top - options.crop_height;
    options.stride = options.bottom_up = options.upright = 0;
    if (is_cropped(&of.options)) {
        options.crop_left = (uint16_t)(is_turned ? top : left);
        options.crop_top = (uint16_t)(is_turned ? left : top);
        options.crop_width = is_turned ? of.options.crop_height : of.options.crop_width;
        options.crop_height = is_turned ? of.options.crop_width : of.options.crop_height;
    }
    options.most_width = is_turned ? of.options.most_height : of.options.most_width;
    options.most_height = is_turned ? of.options.most_width : of.options.most_height;
    return options;
}

/* Each pixel of the picture is the stored one, in its place. */
static void arrange(void) {
    if (!of.is_small) return;
    zaxbriar_options options = as_stored();
    struct shown shown = shown_of(PART, of.size, 0x5A), stored = shown_by(&options);
    CHECK(stored.answer.result == shown.answer.result);
    if (is_decoded(shown.answer.result)) {
        const zaxbriar_picture *picture = &shown.answer.picture, *other = &stored.answer.picture;
        struct size size = stored_size(&of.options, picture);
        size_t pixel_bytes = picture->pixel_bytes;
        CHECK(other->width == size.width && other->height == size.height);
        CHECK(other->whole_rows == picture->whole_rows);
        for (uint32_t y = 0; y < size.height; y++)
            for (uint32_t x = 0; x < size.width; x++)
                CHECK(!memcmp(shown.pixels + place_of(picture, x, y),
                              stored.pixels + y * other->row_bytes + x * pixel_bytes,
                              pixel_bytes));
        note(52, picture->orientation);
    }
    free(shown.pixels);
    free(stored.pixels);
}

/* The picture in a layout is what this makes of the samples as they are stored. */
static void convert(void) {
    if (!of.is_small || of.options.layout == ZAXBRIAR_AS_STORED) return;
    zaxbriar_options options = as_stored();
    struct shown shown = shown_by(&options);
    options.layout = ZAXBRIAR_AS_STORED;
    struct shown stored = shown_by(&options);
    CHECK(stored.answer.result == shown.answer.result);
    if (is_decoded(shown.answer.result))
        check_layout(&shown.answer.picture, shown.pixels, &stored.answer.picture, stored.pixels);
    free(shown.pixels);
    free(stored.pixels);
}

/* A picture that is made smaller has the means of the samples of the larger one. */
static void make_smaller(void) {
    if (!of.is_small || !is_fitted(&of.options)) return;
    zaxbriar_options options = as_stored();
    options.layout = ZAXBRIAR_AS_STORED;
    options.max_samples = 0;
    struct shown smaller = shown_by(&options);
    options.most_width = options.most_height = 0;
    struct shown larger = shown_by(&options);
    CHECK(smaller.answer.result == larger.answer.result);
    if (is_decoded(smaller.answer.result)) {
        const zaxbriar_picture *picture = &smaller.answer.picture;
        CHECK(picture->whole_rows == larger.answer.picture.whole_rows);
        check_means(picture, smaller.pixels, &larger.answer.picture, larger.pixels);
        note(56, (uint64_t)bits_of(picture->width) << 8 | bits_of(picture->height));
    }
    free(smaller.pixels);
    free(larger.pixels);
}

/* How many first rows of a part are among so many of the picture, both before they are turned. */
static uint32_t rows_of_part(uint32_t rows) {
    zaxbriar_options stored = as_stored();
    if (rows <= stored.crop_top) return 0;
    rows -= stored.crop_top;
    return rows < stored.crop_height ? rows : stored.crop_height;
}

/* A part of a picture has the pixels that the picture has there, as it is shown. */
static void take_crop(void) {
    if (!of.is_small || !is_cropped(&of.options)) return;
    zaxbriar_options options = of.options;
    size_t left = options.crop_left, top = options.crop_top;
    options.stride = options.bottom_up = options.most_width = options.most_height = 0;
    options.max_samples = 0;
    struct shown shown = shown_by(&options);
    options.crop_left = options.crop_top = options.crop_width = options.crop_height = 0;
    struct shown whole = shown_by(&options);
    CHECK(shown.answer.result == whole.answer.result);
    if (is_decoded(shown.answer.result)) {
        const zaxbriar_picture *part = &shown.answer.picture, *picture = &whole.answer.picture;
        CHECK(part->whole_rows == rows_of_part(picture->whole_rows));
        for (size_t y = 0; y < part->height; y++)
            CHECK(!memcmp(shown.pixels + y * part->row_bytes,
                          whole.pixels + (top + y) * picture->row_bytes + left * part->pixel_bytes,
                          part->row_bytes));
        note(54, (uint64_t)bits_of(part->width) << 8 | bits_of(part->height));
    }
    free(shown.pixels);
    free(whole.pixels);
}

/* The luma of a picture is what stands first in each line of its components, which are those of the
 * stream without a conversion. */
static void take_luma(void) {
    if (!of.options.luma || !of.is_small || of.full.picture.process == ZAXBRIAR_LOSSLESS) return;
    zaxbriar_options options = coded_options();
    options.luma = 1;
    options.transform = of.options.transform;
    if (options.transform == ZAXBRIAR_TRANSFORM_NONE) return;
    struct shown luma = shown_by(&options);
    if (is_decoded(luma.answer.result)) {
        options.luma = 0;
        options.transform = ZAXBRIAR_TRANSFORM_NONE;
        struct shown all = shown_by(&options);
        const zaxbriar_picture *picture = &all.answer.picture;
        CHECK(all.answer.result == luma.answer.result);
        for (size_t y = 0; y < picture->height; y++)
            CHECK(!memcmp(luma.pixels + y * picture->width, all.pixels + y * picture->row_bytes,
                          picture->width));
        note(53, picture->components);
        free(all.pixels);
    }
    free(luma.pixels);
}

/* Where a sample of a component begins in a picture whose components weren't converted. */
static size_t sample_place(const zaxbriar_picture *picture, int component, uint32_t x, uint32_t y) {
    size_t width = picture->width, count = picture->components;
    if (picture->process == ZAXBRIAR_LOSSLESS)
        return ((y * width + x) * count + (size_t)component) * picture->sample_bytes;
    return (y * count + (size_t)component) * width + x;
}

/* Each plane of the picture's size has the samples that a picture which isn't converted has of its
 * component. */
static void check_planes(const zaxbriar_picture *picture, const unsigned char *samples,
                         const unsigned char *pixels) {
    const unsigned char *plane = samples;
    size_t bytes = picture->sample_bytes;
    for (int component = 0; component < 4; component++) {
        uint32_t width = picture->plane_width[component], height = picture->plane_height[component];
        int is_whole = width == picture->width && height == picture->height;
        for (uint32_t y = 0; y < height && is_whole; y++)
            for (uint32_t x = 0; x < width; x++)
                CHECK(!memcmp(plane + (y * (size_t)width + x) * bytes,
                              pixels + sample_place(picture, component, x, y), bytes));
        plane += (size_t)width * height * bytes;
    }
    CHECK(plane == samples + picture->planes_size);
}

/* A call for planes into so much room, which stands in `pixels`. */
static struct answer planes_into(const zaxbriar_options *options, size_t room, unsigned char fill) {
    pixels.start = room_in(&pixel_pages, GUARD + room) + GUARD;
    pixels.room = room;
    pixels.fill = fill;
    memset(pixels.start - GUARD, fill, GUARD + room);
    begin_call(options);
    struct answer answer = answered(
        zaxbriar_decode_planes(of.jpeg, of.size, options, pixels.start, room, to_tell()));
    size_t counted = of.info.picture.decoding_bytes * (1 + times_counted());
    CHECK(counts.peak_bytes <= counted + bytes_beside(WHOLE, of.size));
    end_counting(9);
    check_answer(WHOLE, &answer, options, of.size);
    CHECK(answer.result != ZAXBRIAR_NO_MEMORY);
    check_places_of(options, of.jpeg, of.size, answer.result);
    size_t written = answer.result == ZAXBRIAR_OK ? answer.picture.planes_size : 0;
    CHECK(written <= room && is_all(pixels.start - GUARD, GUARD, fill));
    CHECK(is_all(pixels.start + written, room - written, fill));
    return answer;
}

/* Takes planes by either kind of processor's code: twice the same answer and the same samples. */
static struct answer planes_twice(const zaxbriar_options *options, size_t room) {
    unsigned char *samples = block(room);
    allow_v3(0);
    struct answer one = planes_into(options, room + of.settings[GAP] % 2, 0xA5);
    memcpy(samples, pixels.start, room);
    allow_v3(1);
    struct answer other = planes_into(options, room, 0x5A);
    CHECK(one.result == other.result);
    CHECK(!memcmp(&one.picture, &other.picture, sizeof one.picture));
    if (one.result == ZAXBRIAR_OK) CHECK(!memcmp(samples, pixels.start, room));
    free(samples);
    return other;
}

/* The sizes of planes are the same whatever arranges or converts samples. */
static void check_plane_sizes(const zaxbriar_picture *picture) {
    const zaxbriar_picture *other = &of.info.picture;
    uint64_t size = 0;
    for (int i = 0; i < 4; i++) {
        CHECK(picture->plane_width[i] == other->plane_width[i]);
        CHECK(picture->plane_height[i] == other->plane_height[i]);
        CHECK((picture->plane_width[i] == 0) == (picture->sampling[i] == 0));
        size += (uint64_t)picture->plane_width[i] * picture->plane_height[i];
    }
    CHECK(size * picture->sample_bytes == picture->planes_size);
    CHECK(picture->planes_size == other->planes_size);
}

/* Planes are given of the same streams as a picture that isn't converted, and have the sizes that
 * read_info says whatever is above it in the options. */
static void take_planes(void) {
    if (!of.is_small) return;
    zaxbriar_options options = coded_options();
    options.max_samples = of.options.max_samples;
    struct answer info = read_info(of.jpeg, of.size, &options);
    size_t room = info.picture.planes_size;
    check_plane_sizes(&info.picture);
    struct answer answer = planes_into(&options, room - 1, 0x5A);
    CHECK(answer.result == (info.result == ZAXBRIAR_OK ? ZAXBRIAR_NO_ROOM : info.result));
    answer = planes_twice(&options, room);
    check_as_described(&answer, &info);
    note(55, (uint64_t)answer.result << 4 | answer.picture.components);
    options.transform = ZAXBRIAR_TRANSFORM_NONE;
    unsigned char *all = block(info.picture.size);
    CHECK(zaxbriar_decode(of.jpeg, of.size, &options, all, info.picture.size, NULL) ==
          answer.result);
    if (answer.result == ZAXBRIAR_OK) check_planes(&answer.picture, pixels.start, all);
    free(all);
}

/* Planes are refused with each option that arranges or converts samples. */
static void misuse_planes(void) {
    zaxbriar_options options = coded_options();
    switch (of.settings[KIND] % 9) {
    case 0: options.stride = of.info.picture.row_bytes; break;
    case 1: options.layout = ZAXBRIAR_RGB; break;
    case 2: options.bottom_up = 1; break;
    case 3: options.transform = ZAXBRIAR_TRANSFORM_NONE; break;
    case 4: options.upright = 1; break;
    case 5: options.luma = 1; break;
    case 6: options.crop_width = options.crop_height = 1; break;
    case 7: options.most_width = 1; break;
    default: options.transform = ZAXBRIAR_TRANSFORM_YCBCR; break;
    }
    if (!of.is_small) return;
    struct answer answer = planes_into(&options, of.info.picture.planes_size, 0x5A);
    CHECK(answer.result == ZAXBRIAR_BAD_ARGUMENT);
}

/* The options that lines have. */
static zaxbriar_options options_of_rows(void) {
    zaxbriar_options options = coded_options();
    options.transform = of.options.transform;
    options.max_samples = of.options.max_samples;
    options.max_bytes = of.options.max_bytes;
    return options;
}

/* Takes the next line into so much room, which stands in `pixels`. */
static zaxbriar_result next_row(zaxbriar_rows *rows, size_t row_bytes, size_t room) {
    unsigned char fill = room % 2 ? 0xA5 : 0x5A;
    pixels.start = room_in(&pixel_pages, GUARD + room) + GUARD;
    memset(pixels.start - GUARD, fill, GUARD + room);
    zaxbriar_result result = zaxbriar_rows_next(rows, pixels.start, room);
    size_t written = result == ZAXBRIAR_OK ? row_bytes : 0;
    CHECK(written <= room && is_all(pixels.start - GUARD, GUARD, fill));
    CHECK(is_all(pixels.start + written, room - written, fill));
    return result;
}

/* The first lines of a picture, which are the caller's to free, and the answer after them: OK where
 * there may be more. */
struct lines {
    struct answer begun;
    zaxbriar_result result;
    uint32_t count;
    unsigned char *bytes;
};

static struct lines lines_of(const zaxbriar_options *options, uint32_t most) {
    struct lines lines = {0};
    zaxbriar_rows *rows = (zaxbriar_rows *)&lines;
    lines.begun = answered(zaxbriar_rows_new(of.jpeg, of.size, options, &rows, to_tell()));
    lines.result = lines.begun.result;
    CHECK((rows != NULL) == (lines.result == ZAXBRIAR_OK));
    size_t row_bytes = lines.begun.picture.row_bytes, height = lines.begun.picture.height;
    lines.bytes = block(rows ? row_bytes * height : 0);
    while (lines.result == ZAXBRIAR_OK && lines.count < most) {
        if (lines.count % 4 == 0) {
            zaxbriar_result early = next_row(rows, row_bytes, row_bytes - 1);
            CHECK(early == ZAXBRIAR_NO_ROOM);
        }
        lines.result = next_row(rows, row_bytes, row_bytes + lines.count % 3);
        if (lines.result != ZAXBRIAR_OK) break;
        CHECK(lines.count < height);
        memcpy(lines.bytes + lines.count++ * row_bytes, pixels.start, row_bytes);
    }
    if (rows && lines.result != ZAXBRIAR_OK)
        for (size_t room = row_bytes - 1; room <= row_bytes; room++)
            CHECK(next_row(rows, row_bytes, room) == lines.result);
    zaxbriar_rows_free(rows);
    return lines;
}

/* Whether the first scan has all components of a sequential frame, so that lines come as it is
 * read. */
static int has_all_in_scan(void) {
    zaxbriar_segment segment;
    const zaxbriar_picture *full = &of.full.picture;
    size_t start = 0;
    do {
        if (first_segment(of.jpeg + start, of.size - start, &segment) != ZAXBRIAR_OK) return 0;
        start += segment.end;
    } while (segment.marker != 0xDA);
    return full->process == ZAXBRIAR_SEQUENTIAL && segment.size > 0 &&
           of.jpeg[start - segment.size] == full->components;
}

/* What lines may take: some rows of MCUs if they come as the scan is read, or as much as the whole
 * picture takes. */
static size_t bytes_of_rows(const zaxbriar_picture *picture) {
    const zaxbriar_picture *full = &of.full.picture;
    enum { MOST_MCU = 32, TIMES = 8 };
    size_t row_of_mcus = (size_t)full->components * (full->width + MOST_MCU) * MOST_MCU;
    size_t whole = picture->decoding_bytes * times_counted();
    return has_all_in_scan() && TIMES * row_of_mcus < whole ? TIMES * row_of_mcus : whole;
}

/* Whether a segment after the first scan may ask for other colours: JFIF's or Adobe's. */
static int has_late_colours(void) {
    zaxbriar_segment segment;
    int is_late = 0;
    for (size_t start = 0;; start += segment.end) {
        if (first_segment(of.jpeg + start, of.size - start, &segment) != ZAXBRIAR_OK) return 0;
        is_late |= segment.marker == 0xDA;
        if (is_late && (segment.marker == 0xE0 || segment.marker == 0xEE)) return 1;
    }
}

/* All lines are the whole picture, and those before a fault the rows that its part has complete.
 * The answer after them is that of the whole picture, unless colours are said too late. */
static void check_lines(const struct lines *lines, const struct shown *whole,
                        const zaxbriar_options *options) {
    const zaxbriar_picture *picture = &lines->begun.picture;
    zaxbriar_result result = whole->answer.result;
    if (lines->result == ZAXBRIAR_END) {
        CHECK(result == ZAXBRIAR_OK && lines->count == picture->height);
        CHECK(!memcmp(lines->bytes, whole->pixels, picture->size));
    } else if (lines->result != result) {
        CHECK(lines->result == ZAXBRIAR_MALFORMED && has_late_colours());
    }
    note(57, (uint64_t)lines->result << 8 | bits_of(lines->count));
    if (lines->count == 0 || lines->result != result || has_late_colours()) return;
    struct shown part = shown_by(options);
    uint32_t rows = part.answer.picture.whole_rows;
    if (is_decoded(part.answer.result))
        CHECK(!memcmp(lines->bytes, part.pixels,
                      (rows < lines->count ? rows : lines->count) * (size_t)picture->row_bytes));
    free(part.pixels);
}

/* Takes the picture line by line, by either kind of processor's code. */
static void take_rows(void) {
    zaxbriar_options options = options_of_rows();
    struct answer info = read_info(of.jpeg, of.size, &options);
    struct shown whole = shown_with(WHOLE, &options);
    struct lines kinds[2];
    for (int i = 0; i < 2; i++) {
        allow_v3(i);
        begin_call(&options);
        kinds[i] = lines_of(&options, UINT32_MAX);
        if (info.result == ZAXBRIAR_OK)
            CHECK(counts.peak_bytes <= bytes_of_rows(&info.picture) + bytes_beside(WHOLE, of.size));
        end_counting(16);
        check_answer(INFO, &kinds[i].begun, &options, of.size);
        check_places_of(&options, of.jpeg, of.size, kinds[i].begun.result);
        CHECK(kinds[i].begun.result == info.result);
        /* (an option that doesn't exist has a text of its own) */
        if (info.result != ZAXBRIAR_BAD_ARGUMENT)
            CHECK(!memcmp(&kinds[i].begun.picture, &info.picture, sizeof info.picture));
    }
    CHECK(kinds[0].result == kinds[1].result && kinds[0].count == kinds[1].count);
    CHECK(!memcmp(kinds[0].bytes, kinds[1].bytes, kinds[0].count * (size_t)info.picture.row_bytes));
    check_lines(&kinds[1], &whole, &options);
    free(kinds[0].bytes);
    free(kinds[1].bytes);
    free(whole.pixels);
}

/* Lines are let go at any time. */
static void leave_rows(void) {
    zaxbriar_options options = options_of_rows();
    uint32_t most = of.settings[GAP] % 33u;
    begin_call(&options);
    struct lines lines = lines_of(&options, most);
    end_counting(17);
    CHECK(lines.count <= most);
    free(lines.bytes);
}

/* Lines are refused with each option that arranges samples, and so are null pointers. */
static void misuse_rows(void) {
    zaxbriar_options options = coded_options();
    zaxbriar_rows *rows = (zaxbriar_rows *)&options;
    switch (of.settings[KIND] % 8) {
    case 0: options.stride = 1 << 20; break;
    case 1: options.layout = ZAXBRIAR_RGB; break;
    case 2: options.bottom_up = 1; break;
    case 3: options.upright = 1; break;
    case 4: options.luma = 1; break;
    case 5: options.crop_width = options.crop_height = 1; break;
    case 6: options.most_width = 1; break;
    default: options.layout = ZAXBRIAR_RGB16 + 1; break;
    }
    begin_call(&options);
    struct answer answer =
        answered(zaxbriar_rows_new(of.jpeg, of.size, &options, &rows, to_tell()));
    end_counting(18);
    check_answer(INFO, &answer, &options, of.size);
    CHECK(answer.result == ZAXBRIAR_BAD_ARGUMENT && rows == NULL);
    CHECK(zaxbriar_rows_new(of.jpeg, of.size, NULL, NULL, NULL) == ZAXBRIAR_BAD_ARGUMENT);
    CHECK(zaxbriar_rows_next(NULL, &options, sizeof options) == ZAXBRIAR_BAD_ARGUMENT);
    zaxbriar_rows_free(NULL);
}

/* Whether the bytes from one cut to another go on with one scan alone: the first is in its data,
 * and no marker comes between them but RST. */
static int is_in_scan(size_t from, size_t to) {
    zaxbriar_segment segment;
    int is_scan = 0;
    for (size_t start = 0;; start += segment.end) {
        if (first_segment(of.jpeg + start, from - start, &segment) != ZAXBRIAR_OK) break;
        if (segment.marker < 0xD0 || segment.marker > 0xD7) is_scan = segment.marker == 0xDA;
    }
    if (!is_scan || segment.marker) return 0;
    for (size_t at = from; at < to; at++) {
        unsigned char byte = of.jpeg[at];
        if (of.jpeg[at - 1] == 0xFF && byte != 0 && byte != 0xFF && (byte < 0xD0 || byte > 0xD7))
            return 0;
    }
    return 1;
}

/* Whether more bytes can't change the answer. (The colours of a part that is cut may be refused,
 * and a segment after the cut ask for others.) */
static int is_settled(enum call call, const struct answer *answer) {
    if (answer->result == ZAXBRIAR_PARTIAL) return answer->picture.fault != ZAXBRIAR_TRUNCATED;
    if (call == PART && of.info.result == ZAXBRIAR_OK) return is_described(answer->result);
    return answer->result != ZAXBRIAR_TRUNCATED;
}

/* What a longer beginning of the stream shows goes on from what a shorter one shows. */
static void check_growth(enum call call, struct shown *shorter, struct shown *longer) {
    uint32_t rows = shorter->answer.picture.whole_rows;
    if (is_settled(call, &shorter->answer)) {
        /* (of a fault they may have read more bytes) */
        if (shorter->answer.result == ZAXBRIAR_PARTIAL || !is_described(shorter->answer.result))
            shorter->answer.picture.stream_bytes = longer->answer.picture.stream_bytes;
        check_same(shorter, longer);
    } else if (is_decoded(shorter->answer.result) && is_in_scan(shorter->size, longer->size)) {
        CHECK(is_decoded(longer->answer.result));
        CHECK(longer->answer.picture.whole_rows >= rows);
        CHECK(are_same_rows(shorter, longer, rows_given(rows)));
        note(51, bits_of(rows));
    }
}

/* A stream that was fed in pieces is shown as it is in one piece. */
static void check_fed(zaxbriar_fed *fed, const struct shown *whole, const struct answer *info) {
    size_t room = room_wanted();
    struct answer answer = answered(zaxbriar_fed_info(fed, to_tell()));
    CHECK(answer.result == info->result);
    CHECK(!memcmp(&answer.picture, &info->picture, sizeof info->picture));
    unsigned char *start = room_in(&pixel_pages, GUARD + room) + GUARD;
    memset(start - GUARD, 0x5A, GUARD + room);
    answer = answered(zaxbriar_fed_show(fed, start, room, to_tell()));
    CHECK(answer.result == whole->answer.result);
    CHECK(!memcmp(&answer.picture, &whole->answer.picture, sizeof answer.picture));
    CHECK(is_all(start - GUARD, GUARD, 0x5A));
    CHECK(!memcmp(start, whole->pixels, room));
    check_places_of(&of.options, of.jpeg, whole->size, answer.result);
}

/* Feeds the stream in pieces, and shows it after each, and once more after some. */
static void feed_pieces(const size_t sizes[3]) {
    struct answer infos[3];
    struct shown wholes[3];
    zaxbriar_fed *fed = (zaxbriar_fed *)&wholes;
    for (int i = 0; i < 3; i++) {
        infos[i] = read_info(beginning(sizes[i]), sizes[i], &of.options);
        wholes[i] = shown_of(PART, sizes[i], 0x5A);
    }
    begin_call(&of.options);
    zaxbriar_result begun = zaxbriar_fed_new(&of.options, &fed);
    CHECK(begun == (are_known(&of.options) ? ZAXBRIAR_OK : ZAXBRIAR_BAD_ARGUMENT));
    CHECK((fed != NULL) == (begun == ZAXBRIAR_OK));
    for (size_t i = 0, at = 0; fed && i < 3; at = sizes[i++]) {
        CHECK(zaxbriar_fed_feed(fed, of.jpeg + at, sizes[i] - at) == ZAXBRIAR_OK);
        for (size_t times = of.settings[GAP] % 3u; times <= 1 + i % 2; times++)
            check_fed(fed, &wholes[i], &infos[i]);
    }
    zaxbriar_fed_free(fed);
    end_counting(19);
    for (int i = 0; i < 3; i++) free(wholes[i].pixels);
}

/* Feeds the stream in pieces: what is there is decoded again as it grows, and by a zaxbriar_fed. */
static void feed(void) {
    size_t one = cut_at(FIRST_CUT), other = cut_at(SECOND_CUT);
    size_t sizes[] = {one < other ? one : other, one < other ? other : one, of.size};
    feed_pieces(sizes);
    for (enum call call = WHOLE; call <= PART; call++) {
        struct shown before = shown_of(call, sizes[0], 0x5A);
        for (int i = 1; i < 3; i++) {
            allow_v3(i == 2);
            struct shown after = shown_of(call, sizes[i], 0xA5);
            check_growth(call, &before, &after);
            free(before.pixels);
            before = after;
        }
        free(before.pixels);
    }
}

/* A buffer that is a byte too short is refused, also where nobody wants to know of the picture. */
static void decode_short(void) {
    if (!of.is_small || of.info.result != ZAXBRIAR_OK) return;
    enum call call = of.settings[GAP] & 1 ? PART : WHOLE;
    struct answer answer = decode_into(call, of.size, of.info.picture.size - 1, 0x5A);
    CHECK(answer.result == ZAXBRIAR_NO_ROOM || answer.result == ZAXBRIAR_TOO_LARGE);
    check_described(&answer);
    CHECK((call == PART ? zaxbriar_decode_partial : zaxbriar_decode)(
              of.jpeg, of.size, &of.options, pixels.start, pixels.room, NULL) == answer.result);
    check_unwritten(&answer);
}

/* A call that copies metadata of a kind, into so much room; by which code depends on what fills
 * that. */
typedef zaxbriar_result copying(const void *jpeg, size_t jpeg_size, const zaxbriar_options *options,
                                int kind, void *data, size_t data_size, size_t *length);

static zaxbriar_result copy(copying *call, int kind, size_t room, unsigned char fill,
                            size_t *length) {
    pixels.start = room_in(&pixel_pages, GUARD + room) + GUARD;
    memset(pixels.start - GUARD, fill, GUARD + room);
    begin_counting(0);
    *length = SIZE_MAX;
    allow_v3(fill == 0x5A);
    zaxbriar_result result =
        call(of.jpeg, of.size, &of.options, kind, pixels.start, room, length);
    allow_v3(1);
    if (call == zaxbriar_joined_metadata)
        CHECK(counts.peak_bytes <= MOST_FOR_TABLES + 4 * of.size);
    end_counting(7);
    size_t written = result == ZAXBRIAR_OK ? *length : 0;
    CHECK(written <= room && is_all(pixels.start - GUARD, GUARD, fill));
    CHECK(is_all(pixels.start + written, room - written, fill));
    return result;
}

/* The same of a call that has said how many bytes there are, into room for them, after it was
 * refused with a byte less. */
static zaxbriar_result copy_all(copying *call, int kind, size_t length) {
    size_t again;
    if (length > 0) {
        CHECK(copy(call, kind, length - 1, 0xA5, &again) == ZAXBRIAR_NO_ROOM);
        CHECK(again == length);
    }
    zaxbriar_result result = copy(call, kind, length + of.settings[GAP] % 2, 0xA5, &again);
    CHECK(again == length);
    return result;
}

enum {
    WHOLE_EXIF = ZAXBRIAR_EXIF | ZAXBRIAR_WHOLE_IMAGE,
    WHOLE_XMP = ZAXBRIAR_XMP | ZAXBRIAR_WHOLE_IMAGE,
    WHOLE_ICC = ZAXBRIAR_ICC | ZAXBRIAR_WHOLE_IMAGE
};

/* The metadata of an image without a fault are where zaxbriar_find_metadata finds them. (The limits
 * are those of the picture at its scale, and metadata are limited by its full size.) */
static void check_found(int kind, zaxbriar_result result, size_t length) {
    static zaxbriar_places places;
    if (kind != WHOLE_EXIF && kind != WHOLE_XMP) return;
    if (result == ZAXBRIAR_TOO_LARGE || !of.is_small) return;
    if (of.options.transform || of.options.luma) return;
    if (decode_into(PART, of.size, room_wanted(), 0x5A).result != ZAXBRIAR_OK) return;
    CHECK(zaxbriar_find_metadata(of.jpeg, of.size, &places) == ZAXBRIAR_OK);
    zaxbriar_place place = kind == WHOLE_EXIF ? places.exif : places.xmp;
    CHECK(places.ended && place.size == length);
    CHECK(result == (place.offset ? ZAXBRIAR_OK : ZAXBRIAR_NO_DATA));
    if (length == 0) return;
    CHECK(copy(zaxbriar_metadata_within, kind, length, 0xA5, &length) == ZAXBRIAR_OK);
    CHECK(!memcmp(pixels.start, of.jpeg + place.offset, length));
}

static void copy_metadata(void) {
    static const int kinds[] = {ZAXBRIAR_EXIF, ZAXBRIAR_XMP, ZAXBRIAR_ICC, WHOLE_EXIF,
                                WHOLE_XMP,     WHOLE_ICC,    0,            WHOLE_ICC * 2};
    int kind = kinds[of.settings[KIND] % 8], is_whole = kind & ZAXBRIAR_WHOLE_IMAGE;
    int is_kind = kind >= ZAXBRIAR_EXIF && kind <= WHOLE_ICC;
    size_t length, again;
    zaxbriar_result result = copy(zaxbriar_metadata_within, kind, 0, 0x5A, &length);
    CHECK((result == ZAXBRIAR_BAD_ARGUMENT) == !is_kind);
    CHECK(result != ZAXBRIAR_TOO_LARGE || is_whole);
    CHECK(result < ZAXBRIAR_PARTIAL && result != ZAXBRIAR_NO_MEMORY);
    CHECK(length <= of.size && (length != 0) == (result == ZAXBRIAR_NO_ROOM));
    note(13, (uint64_t)kind << 16 | (uint64_t)result << 8 | bits_of(length));
    if (is_kind && !is_whole) {
        CHECK(zaxbriar_metadata(of.jpeg, of.size, kind, NULL, 0, &again) == result);
        CHECK(again == length);
    }
    if (result == ZAXBRIAR_NO_ROOM) {
        result = copy_all(zaxbriar_metadata_within, kind, length);
        CHECK(result == ZAXBRIAR_OK);
    }
    check_found(kind, result, length);
}

/* The data that were joined last agree with those that zaxbriar_find_metadata finds: the main XMP
 * packet is one segment, and Exif data end with their last one. */
static void check_joined(int kind, zaxbriar_result result, size_t length) {
    static zaxbriar_places places;
    if (kind != ZAXBRIAR_EXIF && kind != ZAXBRIAR_XMP) return;
    CHECK(zaxbriar_find_metadata(of.jpeg, of.size, &places) == ZAXBRIAR_OK);
    zaxbriar_place place = kind == ZAXBRIAR_EXIF ? places.exif : places.xmp;
    CHECK(result == (place.offset ? ZAXBRIAR_OK : ZAXBRIAR_NO_DATA));
    CHECK(kind == ZAXBRIAR_EXIF ? length >= place.size : length == place.size);
    if (place.size == 0) return;
    CHECK(!memcmp(pixels.start + length - place.size, of.jpeg + place.offset, place.size));
}

/* A thumbnail is among the joined Exif data, and an extension of XMP data has a main packet. */
static void check_source(int kind, size_t length) {
    size_t size, at = 0;
    if (kind != ZAXBRIAR_THUMBNAIL && kind != ZAXBRIAR_EXTENDED_XMP) return;
    unsigned char *data = block(length);
    memcpy(data, pixels.start, length);
    int source = kind == ZAXBRIAR_THUMBNAIL ? ZAXBRIAR_EXIF : ZAXBRIAR_XMP;
    CHECK(copy(zaxbriar_joined_metadata, source, of.size, 0x5A, &size) == ZAXBRIAR_OK);
    if (kind == ZAXBRIAR_THUMBNAIL) {
        CHECK(size >= length);
        while (at < size - length && memcmp(pixels.start + at, data, length)) at++;
        CHECK(!memcmp(pixels.start + at, data, length));
    }
    free(data);
}

/* Joins metadata of a kind, if it is one of those that are joined. Only `memory` counts of the
 * options. */
static void join(int kind, int is_kind) {
    size_t length, again;
    zaxbriar_result result = copy(zaxbriar_joined_metadata, kind, 0, 0x5A, &length);
    CHECK((result == ZAXBRIAR_BAD_ARGUMENT) == !is_kind);
    CHECK(result == ZAXBRIAR_OK || result == ZAXBRIAR_NO_ROOM || result == ZAXBRIAR_NO_DATA ||
          result == ZAXBRIAR_BAD_ARGUMENT);
    CHECK(length <= of.size && (length != 0) == (result == ZAXBRIAR_NO_ROOM));
    CHECK(zaxbriar_joined_metadata(of.jpeg, of.size, NULL, kind, NULL, 0, &again) == result);
    CHECK(again == length);
    note(14, (uint64_t)kind << 16 | (uint64_t)result << 8 | bits_of(length));
    if (result == ZAXBRIAR_NO_ROOM) {
        result = copy_all(zaxbriar_joined_metadata, kind, length);
        CHECK(result == ZAXBRIAR_OK);
    }
    check_joined(kind, result, length);
    if (result == ZAXBRIAR_OK) check_source(kind, length);
}

/* Joins metadata of each kind, and of one that isn't joined. */
static void join_metadata(void) {
    static const int others[] = {0, ZAXBRIAR_ICC, WHOLE_EXIF, 7};
    for (int kind = ZAXBRIAR_EXIF; kind <= ZAXBRIAR_THUMBNAIL; kind++)
        if (kind != ZAXBRIAR_ICC) join(kind, 1);
    join(others[of.settings[KIND] % 4], 0);
}

/* With an allocation refused a call gives up, or gives the answer that needs no more memory. */
static void refuse_memory(void) {
    long refused = of.settings[REFUSED];
    if (!of.options.memory || !refused) return;
    for (enum call call = INFO; call <= PART; call++) {
        struct answer answer = call == INFO ? read_info(of.jpeg, of.size, &of.options)
                                            : decode_into(call, of.size, room_wanted(), 0x5A);
        begin_counting(refused);
        if (call != INFO) memset(pixels.start - GUARD, pixels.fill, GUARD + pixels.room);
        zaxbriar_result result =
            call == INFO ? zaxbriar_read_info(of.jpeg, of.size, &of.options, to_tell())
                         : (call == PART ? zaxbriar_decode_partial : zaxbriar_decode)(
                               of.jpeg, of.size, &of.options, pixels.start, pixels.room, to_tell());
        int is_refused = counts.allocations >= refused;
        end_counting(8);
        struct answer other = answered(result);
        check_answer(call, &other, &of.options, of.size);
        check_rows(call, &other);
        if (call != INFO) check_unwritten(&other);
        CHECK(result == answer.result || (is_refused && result == ZAXBRIAR_NO_MEMORY));
    }
}

/* The same of the calls that copy metadata. (From the whole image those before a fault are copied,
 * and memory that is refused counts as one.) */
static void refuse_copying(void) {
    static copying *const calls[] = {zaxbriar_metadata_within, zaxbriar_joined_metadata};
    static const int kinds[][2] = {{WHOLE_EXIF, WHOLE_ICC}, {ZAXBRIAR_EXIF, ZAXBRIAR_EXTENDED_XMP}};
    long refused = of.settings[REFUSED];
    size_t length, again;
    if (!of.options.memory || !refused) return;
    for (int i = 0; i < 2; i++) {
        int kind = kinds[i][of.settings[KIND] % 2];
        zaxbriar_result result = copy(calls[i], kind, of.size, 0x5A, &length);
        memset(pixels.start, 0x5A, of.size);
        begin_counting(refused);
        zaxbriar_result other =
            calls[i](of.jpeg, of.size, &of.options, kind, pixels.start, of.size, &again);
        int is_refused = counts.allocations >= refused;
        end_counting(8);
        int may_be_less = is_refused && calls[i] == zaxbriar_metadata_within;
        CHECK((other == result && again == length) || (is_refused && other == ZAXBRIAR_NO_MEMORY) ||
              (may_be_less && (other == result || other == ZAXBRIAR_OK)));
        size_t written = other == ZAXBRIAR_OK ? again : 0;
        CHECK(written <= of.size && is_all(pixels.start + written, of.size - written, 0x5A));
    }
}

/* The same of planes. */
static void refuse_planes(void) {
    long refused = of.settings[REFUSED];
    if (!of.options.memory || !refused || !of.is_small) return;
    zaxbriar_options options = coded_options();
    size_t room = of.info.picture.planes_size;
    zaxbriar_result result = planes_into(&options, room, 0x5A).result;
    memset(pixels.start, 0x5A, room);
    begin_counting(refused);
    zaxbriar_result other =
        zaxbriar_decode_planes(of.jpeg, of.size, &options, pixels.start, room, NULL);
    int is_refused = counts.allocations >= refused;
    end_counting(8);
    CHECK(other == result || (is_refused && other == ZAXBRIAR_NO_MEMORY));
    if (other != ZAXBRIAR_OK) CHECK(is_all(pixels.start, room, 0x5A));
}

/* The same of lines: those before are the picture's all the same. */
static void refuse_rows(void) {
    long refused = of.settings[REFUSED];
    if (!of.options.memory || !refused || !of.is_small) return;
    zaxbriar_options options = options_of_rows();
    begin_call(&options);
    struct lines all = lines_of(&options, UINT32_MAX);
    end_counting(16);
    begin_counting(refused);
    struct lines lines = lines_of(&options, UINT32_MAX);
    int is_refused = counts.allocations >= refused;
    end_counting(8);
    CHECK(lines.result == all.result || (is_refused && lines.result == ZAXBRIAR_NO_MEMORY));
    CHECK(lines.count <= all.count && (is_refused || lines.count == all.count));
    CHECK(!memcmp(lines.bytes, all.bytes, lines.count * (size_t)all.begun.picture.row_bytes));
    free(lines.bytes);
    free(all.bytes);
}

/* The options of the settings, before a part and the limits. */
static void choose_options(void) {
    static const uint8_t scales[] = {0, 1, 2, 4, 8, 0, 8, 3};
    const uint8_t *settings = of.settings;
    of.options = (zaxbriar_options){.layout = settings[LAYOUT] % 12,
                                    .transform = settings[TRANSFORM] % 7,
                                    .scale = scales[settings[SCALE] % 8],
                                    .bottom_up = has(BOTTOM_UP) != 0,
                                    .upright = has(UPRIGHT) != 0,
                                    .luma = has(LUMA) != 0,
                                    .min_width = settings[MIN_WIDTH],
                                    .min_height = settings[MIN_HEIGHT],
                                    .max_passes = 1 + settings[PASSES] % 8,
                                    .memory = has(BY_MALLOC) ? NULL : &counted_memory,
                                    .places = has(HAS_PLACES) ? &of.places : NULL};
}

/* Asks for a part of the picture, and for a size within which it is to fit. */
static void choose_part(void) {
    const zaxbriar_picture *all = &of.all.picture;
    const uint8_t *settings = of.settings;
    if (of.all.result == ZAXBRIAR_OK && has_part(HAS_CROP)) {
        uint32_t left = settings[LEFT] * all->width >> 8, top = settings[TOP] * all->height >> 8;
        uint32_t width = settings[WIDTH] * (all->width - left) >> 8;
        uint32_t height = settings[HEIGHT] * (all->height - top) >> 8;
        of.options.crop_left = (uint16_t)left;
        of.options.crop_top = (uint16_t)top;
        of.options.crop_width = (uint16_t)(width + 1);
        of.options.crop_height = (uint16_t)(height + 1);
    }
    of.part = read_info(of.jpeg, of.size, &of.options);
    if (!has_part(HAS_MOST)) return;
    of.options.most_width = settings[MOST_WIDTH];
    of.options.most_height = settings[MOST_HEIGHT];
}

/* Asks for what doesn't exist, or for a part that isn't inside the picture. */
static void choose_misuse(void) {
    zaxbriar_options *options = &of.options;
    const zaxbriar_picture *all = &of.all.picture;
    int misuse = of.settings[MISUSE] % 64;
    if (misuse >= 7 && misuse <= 10 && !is_cropped(options))
        options->crop_width = options->crop_height = 1;
    switch (misuse) {
    case 1: options->reserved_bytes[of.settings[GAP] % 6] = 1; break;
    case 2: options->reserved_half[of.settings[GAP] % 4] = 1; break;
    case 3: options->reserved_words[of.settings[GAP] % 6] = 1; break;
    case 4: options->upright = 2; break;
    case 5: options->luma = 2; break;
    case 6: options->bottom_up = 2; break;
    case 7: options->crop_left = (uint16_t)(all->width - options->crop_width + 1); break;
    case 8: options->crop_top = (uint16_t)(all->height - options->crop_height + 1); break;
    case 9: options->crop_width = 0; break;
    case 10: options->crop_height = 0; break;
    default: return;
    }
    struct answer answer = read_info(of.jpeg, of.size, options);
    CHECK(answer.result == (of.all.result == ZAXBRIAR_OK || !are_known(options)
                                ? ZAXBRIAR_BAD_ARGUMENT
                                : of.all.result));
}

/* Limits the picture, so that an input takes well under a second, or by the settings. */
static void choose_limits(void) {
    const zaxbriar_picture *full = &of.full.picture, *picture = &of.info.picture;
    uint64_t most = (uint64_t)full->width * full->height * full->components;
    uint64_t samples = (uint64_t)picture->width * picture->height * picture->components;
    if (most > MOST_SAMPLES) {
        of.options.max_samples = of.options.max_bytes = 1;
        return;
    }
    of.is_small = of.info.result == ZAXBRIAR_OK;
    if (most * of.size <= MOST_WORK && of.settings[PASSES] >= 128) of.options.max_passes = 0;
    switch (of.settings[LIMIT] % 8) {
    case 1: of.options.max_samples = samples; break;
    case 2: of.options.max_samples = samples - 1; break;
    case 3: of.options.max_bytes = picture->decoding_bytes; break;
    case 4: of.options.max_bytes = picture->decoding_bytes - 1; break;
    default: break;
    }
}

/* The stride: none, one with gaps, or one that is too short or too long. */
static void choose_stride(void) {
    uint64_t row_bytes = of.info.picture.row_bytes;
    if (of.info.result != ZAXBRIAR_OK) return;
    switch (of.settings[STRIDE] % 8) {
    case 5: of.options.stride = row_bytes + of.settings[GAP] % 16; break;
    case 6: of.options.stride = row_bytes - 1; break;
    case 7: of.options.stride = ((uint64_t)1 << 32) + 1; break;
    default: return;
    }
    int is_wrong = of.settings[STRIDE] % 8 > 5 && of.options.stride;
    of.info = read_info(of.jpeg, of.size, &of.options);
    CHECK(of.info.result == (is_wrong ? ZAXBRIAR_BAD_ARGUMENT : ZAXBRIAR_OK));
}

int LLVMFuzzerTestOneInput(const uint8_t *data, size_t size) {
    typedef void step(void);
    static step *const steps[] = {
        walk_segments, find_places,   describe,      decode_whole,   decode_part,
        feed,          decode_short,  arrange,       convert,        make_smaller,
        take_crop,     take_luma,     take_planes,   misuse_planes,  take_rows,
        leave_rows,    misuse_rows,   copy_metadata, join_metadata,  refuse_memory,
        refuse_planes, refuse_rows,   refuse_copying};
    enum { STEPS = sizeof steps / sizeof *steps };
    _Static_assert(STEPS == 23, "a prime number, so that each distance comes to all steps");
    if (size < SETTINGS) return 0;
    of.settings = data;
    of.size = size - SETTINGS;
    unsigned char *jpeg = room_in(&jpeg_pages, of.size);
    allow_writing(&jpeg_pages, 1);
    memcpy(jpeg, data + SETTINGS, of.size);
    allow_writing(&jpeg_pages, 0);
    of.jpeg = jpeg;
    of.is_small = 0;
    choose_options();
    of.full = read_info(of.jpeg, of.size, NULL);
    of.all = read_info(of.jpeg, of.size, &of.options);
    choose_part();
    choose_misuse();
    of.info = read_info(of.jpeg, of.size, &of.options);
    choose_stride();
    choose_limits();
    size_t at = data[FLAGS] >> 5, distance = 1 + data[GAP] % (STEPS - 1u);
    for (int i = 0; i < STEPS; i++, at += distance) steps[at % STEPS]();
    return 0;
}
