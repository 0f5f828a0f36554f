/* rows LIST: decodes each file that LIST names, a name in each line, by its lines, and compares
 * them with the picture of zaxbriar_decode: at each scale and by each transform, cut and damaged.
 * Lines are let go early, each allocation is refused once, and threads hand a reader on. */
#include <pthread.h>

#include "common.h"

static struct bytes jpeg;
static long files, pictures, lines_read, refusals, allocations;

/* ---- memory of a caller */

static long live, calls, refused = -1;

static void *allocate(void *context, size_t size) {
    CHECK(context == &live && size > 0);
    if (calls++ == refused) return NULL;
    live++;
    return block(size);
}

static void *resize(void *context, void *old, size_t size) {
    CHECK(context == &live && old && size > 0);
    if (calls++ == refused) return NULL;
    void *new = realloc(old, size);
    if (!new) exit(2);
    return new;
}

static void release(void *context, void *old) {
    CHECK(context == &live && old);
    live--;
    free(old);
}

static const zaxbriar_memory own = {allocate, resize, release, &live};

/* ---- lines */

/* How a picture ends: as zaxbriar_decode says, by this answer. */
struct whole {
    zaxbriar_result answer;
    zaxbriar_picture picture;
    unsigned char *pixels;
};

static struct whole decoded(const zaxbriar_options *options) {
    struct whole whole = {ZAXBRIAR_OK, {0}, NULL};
    whole.answer = zaxbriar_read_info(jpeg.start, jpeg.size, options, &whole.picture);
    if (whole.answer != ZAXBRIAR_OK) return whole;
    size_t size = whole.picture.size;
    whole.pixels = block(size);
    whole.answer =
        zaxbriar_decode(jpeg.start, jpeg.size, options, whole.pixels, size, &whole.picture);
    return whole;
}

/* Takes up to this many lines, and returns the last answer; *count is how many were given. */
static zaxbriar_result taken(zaxbriar_rows *rows, const struct whole *whole, long most,
                             long *count) {
    size_t size = whole->picture.row_bytes;
    unsigned char *line = block(size + 1);
    zaxbriar_result answer = ZAXBRIAR_OK;
    for (*count = 0; *count < most; ++*count) {
        memset(line, 0xa5, size + 1);
        if (size > 0) {
            CHECK(zaxbriar_rows_next(rows, line, size - 1) != ZAXBRIAR_OK);
            CHECK(is_all(line, size + 1, 0xa5));
        }
        answer = zaxbriar_rows_next(rows, line, size + (*count % 2));
        CHECK(line[size] == 0xa5);
        if (answer != ZAXBRIAR_OK) {
            CHECK(is_all(line, size, 0xa5));
            break;
        }
        CHECK(*count < (long)whole->picture.height);
        if (*count >= (long)whole->picture.height) break;
        if (whole->answer == ZAXBRIAR_OK)
            CHECK(!memcmp(line, whole->pixels + (size_t)*count * size, size));
        lines_read++;
    }
    free(line);
    return answer;
}

/* What is told of the lines is their last answer; of a refusal its text and its feature, and of any
 * other nothing. All else of a picture stays. */
static void is_told(zaxbriar_rows *rows, zaxbriar_result answer, const zaxbriar_picture *refused) {
    static const char none[sizeof refused->text];
    zaxbriar_picture picture, before;
    memset(&picture, 0xa5, sizeof picture);
    before = picture;
    CHECK(zaxbriar_rows_refusal(rows, &picture) == answer);
    CHECK(picture.feature == (refused ? refused->feature : 0));
    CHECK(picture.feature_argument == (refused ? refused->feature_argument : 0));
    CHECK(!memcmp(picture.text, refused ? refused->text : none, sizeof picture.text));
    before.feature = picture.feature;
    before.feature_argument = picture.feature_argument;
    memcpy(before.text, picture.text, sizeof before.text);
    CHECK(!memcmp(&picture, &before, sizeof picture));
}

/* The lines by some options are those of zaxbriar_decode, and so is the answer. */
static void same(const zaxbriar_options *options) {
    struct whole whole = decoded(options);
    zaxbriar_picture picture, info;
    zaxbriar_rows *rows = (zaxbriar_rows *)&picture;
    zaxbriar_result answer = zaxbriar_rows_new(jpeg.start, jpeg.size, options, &rows, &picture);
    CHECK(answer == zaxbriar_read_info(jpeg.start, jpeg.size, options, &info));
    CHECK(!memcmp(&picture, &info, sizeof info));
    CHECK((answer == ZAXBRIAR_OK) == (rows != NULL));
    pictures++;
    if (answer != ZAXBRIAR_OK) {
        CHECK(answer == whole.answer);
        refusals++;
        free(whole.pixels);
        return;
    }
    long count;
    is_told(rows, ZAXBRIAR_OK, NULL);
    answer = taken(rows, &whole, 65536, &count);
    is_told(rows, answer, answer == ZAXBRIAR_END ? NULL : &whole.picture);
    if (whole.answer == ZAXBRIAR_OK) {
        CHECK(answer == ZAXBRIAR_END && count == (long)whole.picture.height);
    } else {
        CHECK(answer == whole.answer);
        refusals++;
    }
    long more;
    CHECK(taken(rows, &whole, 1, &more) == answer && more == 0);
    is_told(rows, answer, answer == ZAXBRIAR_END ? NULL : &whole.picture);
    zaxbriar_rows_free(rows);
    /* early */
    static const long counts[] = {0, 1, 2, 9};
    for (size_t i = 0; i < sizeof counts / sizeof *counts; i++) {
        CHECK(zaxbriar_rows_new(jpeg.start, jpeg.size, options, &rows, NULL) == ZAXBRIAR_OK);
        answer = taken(rows, &whole, counts[i], &count);
        is_told(rows, answer,
                answer == ZAXBRIAR_OK || answer == ZAXBRIAR_END ? NULL : &whole.picture);
        zaxbriar_rows_free(rows);
    }
    free(whole.pixels);
}

/* Each allocation is refused once: memory runs out, and all is freed. */
static void refuse_each(void) {
    zaxbriar_options options = {0};
    struct whole whole = decoded(&options);
    zaxbriar_picture picture;
    if (whole.picture.row_bytes == 0) return;
    for (refused = 0;; refused++) {
        zaxbriar_memory memory = own;
        zaxbriar_rows *rows;
        long count = 0;
        calls = 0;
        options.memory = &memory;
        zaxbriar_result answer =
            zaxbriar_rows_new(jpeg.start, jpeg.size, &options, &rows, &picture);
        memset(&memory, 0, sizeof memory); /* they were copied */
        if (answer == ZAXBRIAR_OK) {
            answer = taken(rows, &whole, 65536, &count);
            long more;
            CHECK(taken(rows, &whole, 1, &more) == answer && more == 0);
            zaxbriar_rows_free(rows);
        } else {
            CHECK(rows == NULL);
        }
        CHECK(live == 0);
        if (calls <= refused) {
            CHECK(answer == (whole.answer == ZAXBRIAR_OK ? ZAXBRIAR_END : whole.answer));
            break;
        }
        /* (a text of a refusal, for which there is no memory, is left out) */
        CHECK(answer == ZAXBRIAR_NO_MEMORY || answer == whole.answer);
        allocations++;
    }
    refused = -1;
    free(whole.pixels);
}

/* Two streams at a time, and lines that are let go and begun again. */
static void beside_each_other(void) {
    zaxbriar_options half = {.scale = 2};
    struct whole first = decoded(NULL), second = decoded(&half);
    zaxbriar_rows *one, *two;
    long a = 0, b = 0;
    if (first.answer == ZAXBRIAR_OK && second.answer == ZAXBRIAR_OK) {
        CHECK(zaxbriar_rows_new(jpeg.start, jpeg.size, NULL, &one, NULL) == ZAXBRIAR_OK);
        CHECK(zaxbriar_rows_new(jpeg.start, jpeg.size, &half, &two, NULL) == ZAXBRIAR_OK);
        size_t wide = first.picture.row_bytes, narrow = second.picture.row_bytes;
        unsigned char *line = block(wide + narrow);
        for (;;) {
            zaxbriar_result x = zaxbriar_rows_next(one, line, wide);
            zaxbriar_result y = zaxbriar_rows_next(two, line + wide, narrow);
            if (x == ZAXBRIAR_OK)
                CHECK(!memcmp(line, first.pixels + (size_t)a++ * wide, wide));
            if (y == ZAXBRIAR_OK)
                CHECK(!memcmp(line + wide, second.pixels + (size_t)b++ * narrow, narrow));
            if (x != ZAXBRIAR_OK && y != ZAXBRIAR_OK) {
                CHECK(x == ZAXBRIAR_END && y == ZAXBRIAR_END);
                break;
            }
        }
        CHECK(a == (long)first.picture.height && b == (long)second.picture.height);
        zaxbriar_rows_free(two);
        zaxbriar_rows_free(one);
        free(line);
    }
    free(first.pixels);
    free(second.pixels);
}

/* ---- threads */

static struct handed {
    zaxbriar_rows *rows;
    zaxbriar_result answer;
    unsigned char *line;
    size_t size;
} handed;

static void *begin_one(void *unused) {
    (void)unused;
    handed.answer = zaxbriar_rows_new(jpeg.start, jpeg.size, NULL, &handed.rows, NULL);
    return NULL;
}

static void *take_one(void *unused) {
    (void)unused;
    handed.answer = zaxbriar_rows_next(handed.rows, handed.line, handed.size);
    return NULL;
}

static void in_thread(void *work(void *)) {
    pthread_t thread;
    if (pthread_create(&thread, NULL, work, NULL)) exit(2);
    pthread_join(thread, NULL);
}

/* Lines that one thread begins, others take, each a few, and this one frees. */
static void handed_on(void) {
    struct whole whole = decoded(NULL);
    if (whole.answer == ZAXBRIAR_OK) {
        in_thread(begin_one);
        handed.size = whole.picture.row_bytes;
        handed.line = block(handed.size);
        for (long count = 0; handed.answer == ZAXBRIAR_OK; count++) {
            if (count % 8 == 0)
                in_thread(take_one);
            else
                take_one(NULL);
            CHECK((handed.answer == ZAXBRIAR_OK) == (count < (long)whole.picture.height));
            if (handed.answer == ZAXBRIAR_OK)
                CHECK(!memcmp(handed.line, whole.pixels + (size_t)count * handed.size,
                              handed.size));
        }
        CHECK(handed.answer == ZAXBRIAR_END);
        zaxbriar_rows_free(handed.rows);
        free(handed.line);
    }
    free(whole.pixels);
}

/* Options that arrange samples don't exist for lines, and null pointers are refused. */
static void arguments(void) {
    static const zaxbriar_options wrong[] = {
        {.stride = 1 << 20}, {.layout = ZAXBRIAR_RGB}, {.bottom_up = 1},  {.upright = 1},
        {.luma = 1},         {.crop_width = 1},        {.most_width = 1}, {.most_height = 1},
        {.scale = 3},        {.transform = 6},         {.layout = 11},    {.reserved_bytes = {1}},
    };
    zaxbriar_picture picture;
    zaxbriar_rows *rows;
    unsigned char line[4] = {0};
    for (size_t i = 0; i < sizeof wrong / sizeof *wrong; i++) {
        rows = (zaxbriar_rows *)line;
        CHECK(zaxbriar_rows_new(jpeg.start, jpeg.size, &wrong[i], &rows, &picture) ==
              ZAXBRIAR_BAD_ARGUMENT);
        CHECK(rows == NULL && picture.text[0] && picture.size == 0);
    }
    zaxbriar_memory memory = {allocate, resize, NULL, &live};
    zaxbriar_options lacking = {.memory = &memory};
    CHECK(zaxbriar_rows_new(jpeg.start, jpeg.size, &lacking, &rows, &picture) ==
          ZAXBRIAR_BAD_ARGUMENT);
    CHECK(zaxbriar_rows_new(NULL, 1, NULL, &rows, &picture) == ZAXBRIAR_BAD_ARGUMENT);
    CHECK(zaxbriar_rows_new(jpeg.start, jpeg.size, NULL, NULL, &picture) == ZAXBRIAR_BAD_ARGUMENT);
    CHECK(zaxbriar_rows_new(NULL, 0, NULL, &rows, &picture) == ZAXBRIAR_TRUNCATED);
    CHECK(rows == NULL);
    CHECK(zaxbriar_rows_next(NULL, line, 4) == ZAXBRIAR_BAD_ARGUMENT);
    CHECK(zaxbriar_rows_refusal(NULL, &picture) == ZAXBRIAR_BAD_ARGUMENT && picture.text[0]);
    zaxbriar_rows_free(NULL);
    if (zaxbriar_rows_new(jpeg.start, jpeg.size, NULL, &rows, &picture) == ZAXBRIAR_OK) {
        CHECK(zaxbriar_rows_next(rows, NULL, 4) == ZAXBRIAR_BAD_ARGUMENT);
        CHECK(zaxbriar_rows_next(rows, NULL, 0) == ZAXBRIAR_NO_ROOM);
        CHECK(zaxbriar_rows_refusal(rows, NULL) == ZAXBRIAR_BAD_ARGUMENT);
        is_told(rows, ZAXBRIAR_OK, NULL);
        zaxbriar_rows_free(rows);
    }
}

/* The stream, and the stream cut and damaged, in some ways. */
static void all_ways(void) {
    for (uint8_t scale = 1; scale <= 8; scale *= 2) same(&(zaxbriar_options){.scale = scale});
    for (uint8_t transform = 1; transform <= 5; transform++)
        same(&(zaxbriar_options){.transform = transform});
    same(&(zaxbriar_options){.min_width = 9, .min_height = 9});
    same(&(zaxbriar_options){.max_samples = 1});
    same(&(zaxbriar_options){.max_bytes = 1});
    same(&(zaxbriar_options){.max_passes = 1});
    size_t size = jpeg.size;
    for (int part = 0; part < 16; part++) {
        jpeg.size = size * (size_t)part / 16;
        same(NULL);
    }
    jpeg.size = size;
    for (int part = 1; part < 16; part++) {
        unsigned char *byte = &jpeg.start[size * (size_t)part / 16];
        *byte ^= 0x55;
        same(NULL);
        *byte ^= 0x55;
    }
}

int main(int argc, char **argv) {
    char name[4096];
    FILE *list = argc == 2 ? fopen(argv[1], "r") : NULL;
    if (!list) {
        fprintf(stderr, "usage: rows LIST\n");
        return 2;
    }
    while (fgets(name, sizeof name, list)) {
        name[strcspn(name, "\n")] = 0;
        subject = name;
        jpeg = read_file(name);
        all_ways();
        refuse_each();
        beside_each_other();
        handed_on();
        arguments();
        free(jpeg.start);
        files++;
    }
    fclose(list);
    printf("rows: %ld pictures of %ld files, %ld of them refused, by %ld lines; "
           "%ld allocations refused; %d faults\n",
           pictures, files, refusals, lines_read, allocations, faults);
    return faults != 0;
}
