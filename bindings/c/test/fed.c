/* fed LIST: feeds each file that LIST names, a name in each line, in pieces of many sizes, and
 * compares what is told and shown of it on the way with zaxbriar_read_info and
 * zaxbriar_decode_partial of the same bytes in one piece, and the lines that are taken on the way
 * with those of zaxbriar_rows_next: by many options, damaged too. Each allocation is refused once,
 * and threads hand a stream on. */
#include <pthread.h>

#include "common.h"

static struct bytes jpeg;
static long files, streams, pieces, shows, allocations, by_lines, lines_read, early_lines;

/* ---- memory of a caller */

static long live, calls, refused = -1;
static int has_refused;

static int is_refused(void) {
    if (calls++ != refused) return 0;
    has_refused = 1;
    return 1;
}

static void *allocate(void *context, size_t size) {
    CHECK(context == &live && size > 0);
    if (is_refused()) return NULL;
    live++;
    return block(size);
}

static void *resize(void *context, void *old, size_t size) {
    CHECK(context == &live && old && size > 0);
    if (is_refused()) return NULL;
    void *new = realloc(old, size);
    if (!new) exit(2);
    return new;
}

static void release(void *context, void *old) {
    CHECK(context == &live && old);
    live--;
    free(old);
}

static const zaxbriar_memory own = {allocate, resize, release, &live};

/* ---- a stream and its pieces */

/* Repeats a call of which an allocation was refused: it is then as it would have been. */
static zaxbriar_result info_of(zaxbriar_fed *fed, zaxbriar_picture *picture) {
    has_refused = 0;
    zaxbriar_result answer = zaxbriar_fed_info(fed, picture);
    return has_refused ? zaxbriar_fed_info(fed, picture) : answer;
}

static zaxbriar_result shown_by(zaxbriar_fed *fed, unsigned char *pixels, size_t size,
                                zaxbriar_picture *picture) {
    has_refused = 0;
    zaxbriar_result answer = zaxbriar_fed_show(fed, pixels, size, picture);
    if (!has_refused) return answer;
    if (answer == ZAXBRIAR_NO_MEMORY) CHECK(is_all(pixels, size, 0xa5));
    memset(pixels, 0xa5, size);
    return zaxbriar_fed_show(fed, pixels, size, picture);
}

/* What a stream shows of this many bytes is what zaxbriar_decode_partial shows of them. */
static void same_now(zaxbriar_fed *fed, const zaxbriar_options *options, size_t size,
                     const zaxbriar_places *places) {
    zaxbriar_picture picture, info;
    zaxbriar_places wanted_places;
    zaxbriar_options wanted = *options;
    wanted.memory = NULL;
    if (places) wanted.places = &wanted_places;
    memset(&picture, 0xa5, sizeof picture);
    zaxbriar_result answer = zaxbriar_read_info(jpeg.start, size, &wanted, &info);
    CHECK(info_of(fed, &picture) == answer);
    CHECK(!memcmp(&picture, &info, sizeof info));
    if (places && answer != ZAXBRIAR_BAD_ARGUMENT)
        CHECK(!memcmp(places, &wanted_places, sizeof wanted_places));
    /* with a byte of room too few, with just enough, and with one that isn't touched */
    for (size_t room = info.size ? info.size - 1 : 0; room <= info.size + 1; room++) {
        unsigned char *pixels = block(room), *wanted_pixels = block(room);
        memset(pixels, 0xa5, room);
        memset(wanted_pixels, 0xa5, room);
        answer = zaxbriar_decode_partial(jpeg.start, size, &wanted, wanted_pixels, room, &info);
        CHECK(shown_by(fed, pixels, room, &picture) == answer);
        CHECK(!memcmp(&picture, &info, sizeof info));
        CHECK(!memcmp(pixels, wanted_pixels, room));
        if (places && answer != ZAXBRIAR_BAD_ARGUMENT)
            CHECK(!memcmp(places, &wanted_places, sizeof wanted_places));
        free(pixels);
        free(wanted_pixels);
        shows++;
    }
}

static uint32_t seed = 1;

static size_t next_number(size_t below) {
    seed = seed * 1664525 + 1013904223;
    return (seed >> 8) % below;
}

/* Feeds the next bytes of the stream, of which so many were fed, and returns how many. */
static size_t fed_piece(zaxbriar_fed *fed, size_t count, size_t piece, int is_random) {
    size_t size = is_random ? next_number(piece) : piece;
    if (size > jpeg.size - count) size = jpeg.size - count;
    unsigned char *bytes = block(size);
    memcpy(bytes, jpeg.start + count, size);
    has_refused = 0;
    zaxbriar_result answer = zaxbriar_fed_feed(fed, bytes, size);
    if (has_refused) {
        CHECK(answer == ZAXBRIAR_NO_MEMORY);
        answer = zaxbriar_fed_feed(fed, bytes, size);
    }
    CHECK(answer == ZAXBRIAR_OK);
    memset(bytes, 0, size); /* they were copied */
    free(bytes);
    pieces++;
    return size;
}

/* Begins to take a stream, whose `memory` is let go. */
static zaxbriar_fed *begun(const zaxbriar_options *options, zaxbriar_places *places) {
    zaxbriar_options others = *options;
    zaxbriar_memory memory;
    others.places = places;
    if (options->memory) {
        memory = *options->memory;
        others.memory = &memory;
    }
    zaxbriar_fed *fed = (zaxbriar_fed *)&memory;
    has_refused = 0;
    zaxbriar_result answer = zaxbriar_fed_new(&others, &fed);
    if (has_refused) {
        CHECK(answer == ZAXBRIAR_NO_MEMORY && fed == NULL);
        answer = zaxbriar_fed_new(&others, &fed);
    }
    CHECK(answer == ZAXBRIAR_OK);
    memset(&memory, 0, sizeof memory); /* they were copied */
    return fed;
}

/* Feeds the stream in pieces of this size, or of any up to it, and looks at it before the first,
 * after the last, and often enough on the way. */
static void same_in_pieces(const zaxbriar_options *options, size_t piece, int is_random) {
    zaxbriar_places found, *places = streams % 2 ? &found : NULL;
    zaxbriar_fed *fed = begun(options, places);
    streams++;
    for (size_t count = 0, next = 0;;) {
        if (count >= next || count == jpeg.size) {
            same_now(fed, options, count, places);
            next = count + count / 3 + (jpeg.size < 600 ? 1 : jpeg.size / 16);
        }
        if (count == jpeg.size) break;
        count += fed_piece(fed, count, piece, is_random);
    }
    zaxbriar_fed_free(fed);
}

/* ---- lines while the bytes arrive */

/* What zaxbriar_rows_next gives of the whole stream: its last answer, of which `picture` tells, and
 * the lines before that. */
struct lines {
    zaxbriar_result answer;
    zaxbriar_picture picture;
    unsigned char *bytes;
    size_t count;
};

static struct lines lines_of(const zaxbriar_options *options) {
    struct lines lines = {ZAXBRIAR_OK, {0}, NULL, 0};
    zaxbriar_options wanted = *options;
    zaxbriar_rows *rows;
    wanted.memory = NULL;
    lines.answer = zaxbriar_rows_new(jpeg.start, jpeg.size, &wanted, &rows, &lines.picture);
    if (lines.answer != ZAXBRIAR_OK) return lines;
    size_t size = lines.picture.row_bytes, room = 0;
    for (;; lines.count++) {
        if (lines.count == room) {
            room = 2 * room + 16;
            lines.bytes = realloc(lines.bytes, room * size);
            if (!lines.bytes) exit(2);
        }
        lines.answer = zaxbriar_rows_next(rows, lines.bytes + lines.count * size, size);
        if (lines.answer != ZAXBRIAR_OK) break;
    }
    zaxbriar_rows_refusal(rows, &lines.picture);
    zaxbriar_rows_free(rows);
    return lines;
}

/* Before lines are given they can't be taken, nor can the end be said. */
static void gives_none(zaxbriar_fed *fed) {
    zaxbriar_picture picture;
    unsigned char line[4];
    CHECK(zaxbriar_fed_next(fed, line, sizeof line) == ZAXBRIAR_BAD_ARGUMENT);
    CHECK(zaxbriar_fed_end(fed) == ZAXBRIAR_BAD_ARGUMENT);
    CHECK(zaxbriar_fed_refusal(fed, &picture) == ZAXBRIAR_BAD_ARGUMENT);
    CHECK(picture.text[0] && picture.size == 0);
}

/* While lines are given the picture isn't described, shown or begun once more. */
static void gives_lines(zaxbriar_fed *fed) {
    zaxbriar_picture picture;
    unsigned char pixels[4] = {0};
    CHECK(zaxbriar_fed_info(fed, &picture) == ZAXBRIAR_BAD_ARGUMENT);
    CHECK(picture.text[0] && picture.size == 0);
    CHECK(zaxbriar_fed_show(fed, pixels, sizeof pixels, &picture) == ZAXBRIAR_BAD_ARGUMENT);
    CHECK(picture.text[0] && picture.size == 0);
    CHECK(zaxbriar_fed_rows(fed, &picture) == ZAXBRIAR_BAD_ARGUMENT);
    CHECK(picture.text[0] && picture.size == 0);
}

/* Tries to begin with the lines, of so many bytes that were fed. */
static zaxbriar_result begin_lines(zaxbriar_fed *fed, const zaxbriar_options *options, size_t size,
                                   const zaxbriar_places *places) {
    zaxbriar_picture picture, info;
    zaxbriar_places wanted_places;
    zaxbriar_options wanted = *options;
    wanted.memory = NULL;
    if (places) wanted.places = &wanted_places;
    gives_none(fed);
    zaxbriar_result answer = zaxbriar_read_info(jpeg.start, size, &wanted, &info);
    has_refused = 0;
    zaxbriar_result begun = zaxbriar_fed_rows(fed, &picture);
    if (has_refused) {
        CHECK(begun == ZAXBRIAR_NO_MEMORY || begun == answer);
        if (begun == ZAXBRIAR_NO_MEMORY) {
            gives_none(fed);
            begun = zaxbriar_fed_rows(fed, &picture);
        }
    }
    CHECK(begun == answer);
    if (!has_refused) CHECK(!memcmp(&picture, &info, sizeof info));
    if (places) CHECK(!memcmp(places, &wanted_places, sizeof wanted_places));
    return begun;
}

/* What is told of the lines is their last answer, and of a refusal its text and its feature. */
static void is_told(zaxbriar_fed *fed, zaxbriar_result answer, const zaxbriar_picture *refused) {
    static const char none[sizeof refused->text];
    zaxbriar_picture picture, before;
    memset(&picture, 0xa5, sizeof picture);
    before = picture;
    CHECK(zaxbriar_fed_refusal(fed, &picture) == answer);
    if (refused) {
        CHECK(picture.feature == refused->feature);
        CHECK(picture.feature_argument == refused->feature_argument);
        CHECK(!strcmp(picture.text, refused->text));
    } else {
        CHECK(picture.feature == 0 && picture.feature_argument == 0);
        CHECK(!memcmp(picture.text, none, sizeof none));
    }
    before.feature = picture.feature;
    before.feature_argument = picture.feature_argument;
    memcpy(before.text, picture.text, sizeof before.text);
    CHECK(!memcmp(&picture, &before, sizeof picture));
}

/* Takes all lines that there are, of which *count were taken, and returns the answer after them.
 * For one byte too few none is given, nor taken away. */
static zaxbriar_result taken(zaxbriar_fed *fed, const struct lines *lines, size_t *count) {
    size_t size = lines->picture.row_bytes;
    unsigned char *line = block(size + 1);
    zaxbriar_result answer;
    for (;; ++*count) {
        zaxbriar_result less = ZAXBRIAR_OK;
        memset(line, 0xa5, size + 1);
        if (*count % 2) less = zaxbriar_fed_next(fed, line, size - 1);
        if (*count % 2) CHECK(less != ZAXBRIAR_OK && is_all(line, size + 1, 0xa5));
        answer = zaxbriar_fed_next(fed, line, size + (*count % 3 == 0));
        CHECK(line[size] == 0xa5);
        if (less != ZAXBRIAR_OK)
            CHECK(less == (answer == ZAXBRIAR_OK ? ZAXBRIAR_NO_ROOM : answer));
        if (answer != ZAXBRIAR_OK) break;
        CHECK(*count < lines->count);
        if (*count >= lines->count) break;
        CHECK(!memcmp(line, lines->bytes + *count * size, size));
        lines_read++;
    }
    if (answer != ZAXBRIAR_OK) CHECK(is_all(line, size + 1, 0xa5));
    free(line);
    return answer;
}

/* Says the end of the bytes, takes what is left, and looks at the verdict. */
static void end_lines(zaxbriar_fed *fed, const struct lines *lines, size_t *count) {
    early_lines += (long)*count;
    CHECK(zaxbriar_fed_end(fed) == ZAXBRIAR_OK);
    CHECK(zaxbriar_fed_feed(fed, jpeg.start, 1) == ZAXBRIAR_BAD_ARGUMENT);
    CHECK(zaxbriar_fed_feed(fed, NULL, 0) == ZAXBRIAR_BAD_ARGUMENT);
    has_refused = 0;
    zaxbriar_result answer = taken(fed, lines, count);
    if (has_refused && answer == ZAXBRIAR_NO_MEMORY) {
        CHECK(zaxbriar_fed_refusal(fed, &(zaxbriar_picture){0}) == ZAXBRIAR_NO_MEMORY);
    } else {
        CHECK(answer == lines->answer && *count == lines->count);
        /* (a text for which there is no memory is left out) */
        if (!has_refused) is_told(fed, answer, answer == ZAXBRIAR_END ? NULL : &lines->picture);
    }
    CHECK(taken(fed, lines, count) == answer);
    CHECK(zaxbriar_fed_end(fed) == ZAXBRIAR_OK);
    gives_lines(fed);
}

/* Takes the lines that a piece has brought: more may come, unless memory was refused. */
static zaxbriar_result taken_early(zaxbriar_fed *fed, const struct lines *lines, size_t *count) {
    has_refused = 0;
    zaxbriar_result answer = taken(fed, lines, count);
    CHECK(answer == ZAXBRIAR_WAITING || (has_refused && answer == ZAXBRIAR_NO_MEMORY));
    if (answer == ZAXBRIAR_WAITING) is_told(fed, ZAXBRIAR_OK, NULL);
    return answer;
}

/* Feeds the stream in pieces of this size, or of any up to it, and takes each line as soon as it is
 * there. */
static void same_lines(const zaxbriar_options *options, size_t piece, int is_random) {
    struct lines lines = lines_of(options);
    zaxbriar_places found, *places = by_lines % 2 ? &found : NULL;
    zaxbriar_fed *fed = begun(options, places);
    zaxbriar_result answer = ZAXBRIAR_TRUNCATED;
    size_t count = 0, next = 0, taken_count = 0;
    by_lines++;
    for (int is_begun = 0;;) {
        if (!is_begun && (count >= next || count == jpeg.size)) {
            answer = begin_lines(fed, options, count, places);
            next = count + count / 8 + 1;
            is_begun = answer == ZAXBRIAR_OK;
            if (is_begun) gives_lines(fed);
        }
        if (is_begun) answer = taken_early(fed, &lines, &taken_count);
        if (count == jpeg.size || answer == ZAXBRIAR_NO_MEMORY) break;
        count += fed_piece(fed, count, piece, is_random);
    }
    if (answer == ZAXBRIAR_WAITING)
        end_lines(fed, &lines, &taken_count);
    else if (answer == ZAXBRIAR_NO_MEMORY)
        CHECK(taken(fed, &lines, &taken_count) == answer);
    else
        CHECK(answer == lines.answer);
    zaxbriar_fed_free(fed);
    free(lines.bytes);
}

/* Each allocation is refused once, and the call that it was for is then repeated. */
static void refuse_each(void same(const zaxbriar_options *, size_t, int)) {
    for (refused = 0;; refused++) {
        calls = 0;
        same(&(zaxbriar_options){.memory = &own}, jpeg.size / 3 + 1, 0);
        CHECK(live == 0);
        if (calls <= refused) break;
        allocations++;
    }
    refused = -1;
}

/* ---- threads */

static struct handed {
    zaxbriar_fed *fed;
    zaxbriar_result answer;
    size_t size;
} handed;

static void *begin_one(void *unused) {
    (void)unused;
    handed.answer = zaxbriar_fed_new(NULL, &handed.fed);
    return NULL;
}

static void *feed_one(void *unused) {
    (void)unused;
    handed.answer = zaxbriar_fed_feed(handed.fed, jpeg.start, jpeg.size / 2);
    return NULL;
}

static void *take_one(void *line) {
    handed.answer = zaxbriar_fed_next(handed.fed, line, handed.size);
    return NULL;
}

static void in_thread(void *work(void *), void *with) {
    pthread_t thread;
    if (pthread_create(&thread, NULL, work, with)) exit(2);
    pthread_join(thread, NULL);
}

/* A stream that one thread begins, another feeds, and this one shows, feeds and frees. */
static void handed_on(void) {
    zaxbriar_options options = {0};
    size_t half = jpeg.size / 2;
    in_thread(begin_one, NULL);
    CHECK(handed.answer == ZAXBRIAR_OK);
    in_thread(feed_one, NULL);
    CHECK(handed.answer == ZAXBRIAR_OK);
    same_now(handed.fed, &options, half, NULL);
    CHECK(zaxbriar_fed_feed(handed.fed, jpeg.start + half, jpeg.size - half) == ZAXBRIAR_OK);
    same_now(handed.fed, &options, jpeg.size, NULL);
    struct lines lines = lines_of(&options);
    zaxbriar_result begun = zaxbriar_fed_rows(handed.fed, NULL);
    handed.size = lines.picture.row_bytes;
    unsigned char *line = block(handed.size);
    size_t count = 0;
    if (begun == ZAXBRIAR_OK) {
        in_thread(take_one, line);
        if (handed.answer == ZAXBRIAR_OK) CHECK(!memcmp(line, lines.bytes, handed.size));
        count = handed.answer == ZAXBRIAR_OK;
        end_lines(handed.fed, &lines, &count);
    } else {
        CHECK(begun == lines.answer);
    }
    zaxbriar_fed_free(handed.fed);
    free(line);
    free(lines.bytes);
}

/* Options that don't exist for lines, and null pointers, are refused, and change nothing. */
static void arguments_of_lines(void) {
    static const zaxbriar_options wrong[] = {
        {.stride = 1 << 20}, {.layout = ZAXBRIAR_RGB}, {.bottom_up = 1},  {.upright = 1},
        {.luma = 1},         {.crop_width = 1},        {.most_width = 1}, {.most_height = 1},
        {.scale = 1},        {.scale = 2},             {.min_width = 1},  {.min_height = 1},
    };
    zaxbriar_picture picture, info;
    zaxbriar_fed *fed;
    unsigned char line[4] = {0};
    for (size_t i = 0; i < sizeof wrong / sizeof *wrong; i++) {
        zaxbriar_places places;
        zaxbriar_options with_places = wrong[i];
        with_places.places = &places;
        CHECK(zaxbriar_fed_new(&with_places, &fed) == ZAXBRIAR_OK);
        CHECK(zaxbriar_fed_feed(fed, jpeg.start, jpeg.size) == ZAXBRIAR_OK);
        memset(&places, 0xa5, sizeof places);
        CHECK(zaxbriar_fed_rows(fed, &picture) == ZAXBRIAR_BAD_ARGUMENT);
        CHECK(picture.text[0] && picture.size == 0);
        CHECK(is_all((const unsigned char *)&places, sizeof places, 0xa5));
        gives_none(fed);
        CHECK(zaxbriar_fed_info(fed, &picture) ==
              zaxbriar_read_info(jpeg.start, jpeg.size, &wrong[i], &info));
        CHECK(!memcmp(&picture, &info, sizeof info));
        zaxbriar_fed_free(fed);
    }
    CHECK(zaxbriar_fed_rows(NULL, &picture) == ZAXBRIAR_BAD_ARGUMENT && picture.text[0]);
    CHECK(zaxbriar_fed_rows(NULL, NULL) == ZAXBRIAR_BAD_ARGUMENT);
    CHECK(zaxbriar_fed_next(NULL, line, 4) == ZAXBRIAR_BAD_ARGUMENT);
    CHECK(zaxbriar_fed_end(NULL) == ZAXBRIAR_BAD_ARGUMENT);
    CHECK(zaxbriar_fed_refusal(NULL, &picture) == ZAXBRIAR_BAD_ARGUMENT && picture.text[0]);
    CHECK(zaxbriar_fed_new(NULL, &fed) == ZAXBRIAR_OK);
    CHECK(zaxbriar_fed_refusal(fed, NULL) == ZAXBRIAR_BAD_ARGUMENT);
    CHECK(zaxbriar_fed_feed(fed, jpeg.start, jpeg.size) == ZAXBRIAR_OK);
    if (zaxbriar_fed_rows(fed, NULL) == ZAXBRIAR_OK) {
        zaxbriar_result empty = zaxbriar_fed_next(fed, NULL, 0);
        CHECK(zaxbriar_fed_next(fed, NULL, 4) == ZAXBRIAR_BAD_ARGUMENT);
        CHECK(zaxbriar_fed_next(fed, line, SIZE_MAX) == ZAXBRIAR_BAD_ARGUMENT);
        CHECK(empty == ZAXBRIAR_NO_ROOM || empty == ZAXBRIAR_WAITING);
        CHECK(zaxbriar_fed_refusal(fed, NULL) == ZAXBRIAR_BAD_ARGUMENT);
        gives_lines(fed);
    }
    zaxbriar_fed_free(fed);
}

/* Options that don't exist and null pointers are refused, and streams freed early. */
static void arguments(void) {
    static const zaxbriar_options wrong[] = {
        {.scale = 3},   {.transform = 6}, {.layout = 11},
        {.bottom_up = 2}, {.upright = 2},   {.luma = 2},
        {.transform = 1, .layout = 1},      {.reserved_bytes = {1}},
    };
    zaxbriar_picture picture;
    zaxbriar_fed *fed;
    unsigned char pixels[4] = {0};
    for (size_t i = 0; i < sizeof wrong / sizeof *wrong; i++) {
        fed = (zaxbriar_fed *)pixels;
        CHECK(zaxbriar_fed_new(&wrong[i], &fed) == ZAXBRIAR_BAD_ARGUMENT);
        CHECK(fed == NULL);
    }
    zaxbriar_memory memory = {allocate, resize, NULL, &live};
    CHECK(zaxbriar_fed_new(&(zaxbriar_options){.memory = &memory}, &fed) == ZAXBRIAR_BAD_ARGUMENT);
    CHECK(zaxbriar_fed_new(NULL, NULL) == ZAXBRIAR_BAD_ARGUMENT);
    CHECK(zaxbriar_fed_feed(NULL, pixels, 1) == ZAXBRIAR_BAD_ARGUMENT);
    CHECK(zaxbriar_fed_info(NULL, &picture) == ZAXBRIAR_BAD_ARGUMENT);
    CHECK(picture.text[0] && picture.size == 0);
    CHECK(zaxbriar_fed_show(NULL, pixels, 4, &picture) == ZAXBRIAR_BAD_ARGUMENT);
    CHECK(picture.text[0] && picture.size == 0);
    zaxbriar_fed_free(NULL);
    CHECK(zaxbriar_fed_new(NULL, &fed) == ZAXBRIAR_OK);
    zaxbriar_fed_free(fed);
    CHECK(zaxbriar_fed_new(NULL, &fed) == ZAXBRIAR_OK);
    CHECK(zaxbriar_fed_info(fed, NULL) == ZAXBRIAR_BAD_ARGUMENT);
    CHECK(zaxbriar_fed_info(fed, &picture) == ZAXBRIAR_TRUNCATED);
    CHECK(zaxbriar_fed_show(fed, NULL, 0, NULL) == ZAXBRIAR_TRUNCATED);
    CHECK(zaxbriar_fed_show(fed, NULL, 4, &picture) == ZAXBRIAR_BAD_ARGUMENT);
    CHECK(zaxbriar_fed_feed(fed, NULL, 1) == ZAXBRIAR_BAD_ARGUMENT);
    CHECK(zaxbriar_fed_feed(fed, jpeg.start, SIZE_MAX) == ZAXBRIAR_BAD_ARGUMENT);
    CHECK(zaxbriar_fed_feed(fed, NULL, 0) == ZAXBRIAR_OK);
    CHECK(zaxbriar_fed_feed(fed, jpeg.start, jpeg.size / 2) == ZAXBRIAR_OK);
    zaxbriar_fed_free(fed);
}

/* All options, of which some don't fit the picture. */
static void by_options(void) {
    static const zaxbriar_options some[] = {
        {.scale = 1},
        {.scale = 2},
        {.scale = 4},
        {.scale = 8},
        {.min_width = 9},
        {.min_height = 9},
        {.transform = ZAXBRIAR_TRANSFORM_NONE},
        {.transform = ZAXBRIAR_TRANSFORM_RGB},
        {.transform = ZAXBRIAR_TRANSFORM_YCBCR},
        {.transform = ZAXBRIAR_TRANSFORM_CMYK},
        {.transform = ZAXBRIAR_TRANSFORM_YCCK},
        {.layout = ZAXBRIAR_GREY},
        {.layout = ZAXBRIAR_RGB, .upright = 1},
        {.layout = ZAXBRIAR_BGRA, .bottom_up = 1},
        {.layout = ZAXBRIAR_RGB16, .stride = 5000},
        {.stride = 3},
        {.luma = 1},
        {.crop_left = 3, .crop_top = 2, .crop_width = 7, .crop_height = 5},
        {.crop_left = 60000, .crop_width = 1, .crop_height = 1},
        {.most_width = 20},
        {.most_height = 20, .upright = 1},
        {.max_samples = 1},
        {.max_samples = 1000000000},
        {.max_bytes = 1},
        {.max_bytes = 1000000000},
        {.max_passes = 1},
        {.max_passes = 3},
        {.max_passes = 1000},
    };
    for (size_t i = 0; i < sizeof some / sizeof *some; i++)
        same_in_pieces(&some[i], jpeg.size / 4 + 2, 1);
}

/* Lines by the options that they have. */
static void lines_by_options(void) {
    static const zaxbriar_options some[] = {
        {.transform = ZAXBRIAR_TRANSFORM_NONE},  {.transform = ZAXBRIAR_TRANSFORM_RGB},
        {.transform = ZAXBRIAR_TRANSFORM_YCBCR}, {.transform = ZAXBRIAR_TRANSFORM_CMYK},
        {.transform = ZAXBRIAR_TRANSFORM_YCCK},  {.max_samples = 1},
        {.max_samples = 1000000000},             {.max_bytes = 1},
        {.max_bytes = 1000000000},               {.max_passes = 1},
        {.max_passes = 3},                       {.max_passes = 1000},
    };
    for (size_t i = 0; i < sizeof some / sizeof *some; i++)
        same_lines(&some[i], jpeg.size / 16 + 2, 1);
}

/* The stream, whole and damaged, in some pieces. */
static void all_ways(void) {
    static const size_t sizes[] = {1, 7, 4096, 20000};
    for (size_t i = 0; i < sizeof sizes / sizeof *sizes; i++) {
        same_in_pieces(&(zaxbriar_options){0}, sizes[i], 0);
        same_in_pieces(&(zaxbriar_options){0}, sizes[i] + 1, 1);
        same_lines(&(zaxbriar_options){0}, sizes[i], 0);
        same_lines(&(zaxbriar_options){0}, sizes[i] + 1, 1);
    }
    by_options();
    lines_by_options();
    for (size_t part = 1; part < 8; part++) {
        unsigned char *byte = &jpeg.start[jpeg.size * part / 8];
        *byte ^= 0x55;
        same_in_pieces(&(zaxbriar_options){.max_passes = part % 2}, jpeg.size / 5 + 2, 1);
        same_lines(&(zaxbriar_options){.max_passes = part % 2}, jpeg.size / 20 + 2, 1);
        *byte ^= 0x55;
    }
    size_t size = jpeg.size;
    for (size_t part = 0; part < 8; part++) {
        jpeg.size = size * part / 8;
        same_lines(&(zaxbriar_options){0}, size / 20 + 2, 1);
    }
    jpeg.size = size;
}

int main(int argc, char **argv) {
    char name[4096];
    FILE *list = argc == 2 ? fopen(argv[1], "r") : NULL;
    if (!list) {
        fprintf(stderr, "usage: fed LIST\n");
        return 2;
    }
    while (fgets(name, sizeof name, list)) {
        name[strcspn(name, "\n")] = 0;
        subject = name;
        jpeg = read_file(name);
        if (files % 8 == 0) arguments();
        if (files % 8 == 0) arguments_of_lines();
        all_ways();
        if (files % 16 == 0) handed_on();
        if (files % 16 == 0 && jpeg.size < 40000) refuse_each(same_in_pieces);
        if (files % 16 == 0 && jpeg.size < 40000) refuse_each(same_lines);
        files++;
        free(jpeg.start);
    }
    fclose(list);
    printf("fed: %ld files, %ld streams shown %ld times, %ld taken by %ld lines, %ld of them "
           "before the end, all in %ld pieces; %ld allocations refused; %d faults\n",
           files, streams, shows, by_lines, lines_read, early_lines, pieces, allocations, faults);
    return faults != 0;
}
