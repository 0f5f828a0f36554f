/* hostile LIST DAMAGED: decodes each file that LIST names, and so many damaged copies of each, from
 * memory that ends right before a page that can't be read, into memory that ends right before a
 * page that can't be written; and files of less than 3,000 bytes with each allocation refused in
 * turn; and what there is of the others, which is what decoding gives where no fault is named. A
 * call must free what it has allocated, and change no byte of the pixels unless it succeeds or
 * returns a part. Decoding, also of a part, must take no more memory at a time than
 * `decoding_bytes` says, beside tables, metadata, a few lines and a row of blocks; of a picture
 * above a limit it takes that alone. Linked with
 * --wrap=malloc, --wrap=realloc and --wrap=free. */
#define _GNU_SOURCE
#include <malloc.h>
#include <sys/mman.h>

#include "common.h"

enum { PAGE = 4096, MOST_PIXELS = 4000000, SMALL_FILE = 3000, MOST_BESIDE = 1 << 18 };

static int is_counting;
static size_t live_bytes, peak_bytes, most_beside;
static long allocations, refused_one, live, most_allocations;
static long files, refusals, parts, answers[ZAXBRIAR_TOO_LARGE + 1];

void *__real_malloc(size_t size);
void *__real_realloc(void *start, size_t size);
void __real_free(void *start);
void *__wrap_malloc(size_t size);
void *__wrap_realloc(void *start, size_t size);
void __wrap_free(void *start);

static void count(const void *start) {
    live_bytes += malloc_usable_size((void *)start);
    if (live_bytes > peak_bytes) peak_bytes = live_bytes;
}

void *__wrap_malloc(size_t size) {
    if (!is_counting) return __real_malloc(size);
    if (++allocations == refused_one) return NULL;
    void *start = __real_malloc(size);
    live += start != NULL;
    count(start);
    return start;
}

void *__wrap_realloc(void *start, size_t size) {
    if (!is_counting) return __real_realloc(start, size);
    if (++allocations == refused_one) return NULL;
    size_t before = malloc_usable_size(start);
    void *moved = __real_realloc(start, size);
    live += !start && moved;
    if (moved) {
        live_bytes -= before;
        count(moved);
    }
    return moved;
}

void __wrap_free(void *start) {
    if (is_counting) {
        live -= start != NULL;
        live_bytes -= malloc_usable_size(start);
    }
    __real_free(start);
}

/* Bytes between two pages that can't be touched, right before the second. */
struct fenced {
    unsigned char *base, *start;
    size_t whole;
};

static struct fenced fence(size_t size) {
    struct fenced fenced;
    size_t pages = (size + PAGE - 1) / PAGE * PAGE;
    fenced.whole = pages + 2 * PAGE;
    fenced.base =
        mmap(NULL, fenced.whole, PROT_READ | PROT_WRITE, MAP_PRIVATE | MAP_ANONYMOUS, -1, 0);
    if (fenced.base == MAP_FAILED) {
        perror("mmap");
        exit(2);
    }
    mprotect(fenced.base, PAGE, PROT_NONE);
    mprotect(fenced.base + PAGE + pages, PAGE, PROT_NONE);
    fenced.start = fenced.base + PAGE + pages - size;
    return fenced;
}

static void begin(long refused) {
    allocations = live = 0;
    live_bytes = peak_bytes = 0;
    refused_one = refused;
    is_counting = 1;
}

static void end(void) {
    is_counting = 0;
    CHECK(live == 0);
}

static int decode(const unsigned char *jpeg, size_t size, const zaxbriar_options *options,
                  struct fenced pixels, size_t room, long refused) {
    zaxbriar_picture picture;
    memset(pixels.start, 0x5A, room);
    begin(refused);
    int answer = zaxbriar_decode(jpeg, size, options, pixels.start, room, &picture);
    end();
    if (answer) CHECK(is_all(pixels.start, room, 0x5A));
    return answer;
}

/* What a call took beside the samples that it counts: no more than so much, the metadata, where a
 * scan was cut a row of a component's blocks, the lines that are turned at a time, and a copy of
 * the luma, if that alone is asked for. */
static void take_beside(size_t samples, size_t size, const zaxbriar_picture *picture) {
    size_t beside = peak_bytes > samples ? peak_bytes - samples : 0;
    size_t width = picture->width > picture->height ? picture->width : picture->height;
    size_t row = (width / 8 + 4) * (size_t)128;
    if (picture->orientation > 1) row += 32 * width * picture->pixel_bytes;
    if (picture->components == 1 && picture->sampling[1])
        row += (picture->width + 31) * (size_t)(picture->height + 31);
    if (beside > most_beside) most_beside = beside;
    CHECK(beside <= MOST_BESIDE + 2 * size + row);
}

/* What there is of a stream, whose decoding gave this answer and what `pixels` has. */
static void in_part(const unsigned char *jpeg, size_t size, const zaxbriar_options *options,
                    struct fenced pixels, size_t room, int answer) {
    zaxbriar_picture picture;
    unsigned char *whole = block(room);
    memcpy(whole, pixels.start, room);
    memset(pixels.start, 0x5A, room);
    begin(0);
    int part = zaxbriar_decode_partial(jpeg, size, options, pixels.start, room, &picture);
    end();
    if (part == ZAXBRIAR_OK)
        CHECK(answer == ZAXBRIAR_OK && !memcmp(pixels.start, whole, room));
    else if (part == ZAXBRIAR_PARTIAL)
        CHECK(picture.fault >= ZAXBRIAR_MALFORMED && picture.fault <= ZAXBRIAR_TRUNCATED);
    else
        CHECK(is_all(pixels.start, room, 0x5A));
    CHECK((picture.fault != 0) == (part == ZAXBRIAR_PARTIAL));
    int is_on_side = options->upright && picture.orientation > 4;
    uint32_t rows = is_on_side ? picture.width : picture.height;
    CHECK(picture.whole_rows <= (part == ZAXBRIAR_OK || part == ZAXBRIAR_PARTIAL ? rows : 0));
    if (part == ZAXBRIAR_OK) CHECK(picture.whole_rows == rows);
    /* and the data of a restart interval */
    if (part == ZAXBRIAR_OK || part == ZAXBRIAR_PARTIAL)
        take_beside(picture.decoding_bytes, 2 * size, &picture);
    parts += part == ZAXBRIAR_PARTIAL;
    free(whole);
}

/* A picture above a limit. */
static void above_limit(const unsigned char *jpeg, size_t size, zaxbriar_options options,
                        const zaxbriar_picture *picture) {
    static const zaxbriar_picture nothing;
    zaxbriar_picture told;
    unsigned char none;
    options.max_bytes = picture->decoding_bytes - 1;
    begin(0);
    CHECK(zaxbriar_read_info(jpeg, size, &options, &told) == ZAXBRIAR_TOO_LARGE);
    CHECK(zaxbriar_decode(jpeg, size, &options, &none, 0, &told) == ZAXBRIAR_TOO_LARGE);
    end();
    take_beside(0, size, &nothing);
    CHECK(told.decoding_bytes == picture->decoding_bytes && told.size == picture->size);
}

static void each_allocation(const unsigned char *jpeg, size_t size, const zaxbriar_options *options,
                            struct fenced pixels, size_t room, int answer) {
    long all = allocations;
    for (long refused = 1; refused <= all; refused++) {
        int other = decode(jpeg, size, options, pixels, room, refused);
        /* the text of a refusal may be what was refused */
        CHECK(other == ZAXBRIAR_NO_MEMORY || (other == answer && answer));
        refusals++;
    }
}

static const int kinds[] = {ZAXBRIAR_EXIF, ZAXBRIAR_XMP, ZAXBRIAR_ICC,
                            ZAXBRIAR_ICC | ZAXBRIAR_WHOLE_IMAGE};
enum { KINDS_OF_HEADER = 3, KINDS = 4 };

/* Calls read_info for the kind 0, and else metadata. */
static int read_said(const unsigned char *jpeg, size_t size, int kind, long refused) {
    zaxbriar_picture picture;
    begin(refused);
    int answer = kind ? zaxbriar_metadata(jpeg, size, kind, NULL, 0, NULL)
                      : zaxbriar_read_info(jpeg, size, NULL, &picture);
    end();
    return answer;
}

static void each_allocation_of(const unsigned char *jpeg, size_t size, int kind) {
    int answer = read_said(jpeg, size, kind, 0);
    long all = allocations;
    for (long refused = 1; refused <= all; refused++) {
        int other = read_said(jpeg, size, kind, refused);
        CHECK(other == ZAXBRIAR_NO_MEMORY || (other == answer && answer));
        refusals++;
    }
}

/* Segments and places are found within the stream, without memory. */
static void found(const unsigned char *jpeg, size_t size) {
    static zaxbriar_places places;
    zaxbriar_segment segment;
    begin(0);
    CHECK(zaxbriar_find_metadata(jpeg, size, &places) == ZAXBRIAR_OK);
    int answer = zaxbriar_next_segment(jpeg, size, &segment);
    end();
    CHECK(allocations == 0 && answer != ZAXBRIAR_BAD_ARGUMENT);
    CHECK(segment.end <= size && segment.skipped <= size && places.stream_bytes <= size);
    CHECK(places.exif.offset + places.exif.size <= size);
    CHECK(places.xmp.offset + places.xmp.size <= size);
    for (int i = 0; i < 255; i++) CHECK(places.icc[i].offset + places.icc[i].size <= size);
}

/* Metadata are joined in memory of at most six times the stream, beside a block of a small
 * list, and written within their own. */
static void joined(const unsigned char *jpeg, size_t size) {
    for (int kind = ZAXBRIAR_EXIF; kind <= ZAXBRIAR_THUMBNAIL; kind++) {
        size_t length = 1;
        if (kind == ZAXBRIAR_ICC) continue;
        begin(0);
        int answer = zaxbriar_joined_metadata(jpeg, size, NULL, kind, NULL, 0, &length);
        end();
        CHECK(answer == ZAXBRIAR_OK || answer == ZAXBRIAR_NO_ROOM || answer == ZAXBRIAR_NO_DATA);
        CHECK(length <= size && (length > 0) == (answer == ZAXBRIAR_NO_ROOM));
        CHECK(peak_bytes <= 6 * size + 4096);
        if (answer != ZAXBRIAR_NO_ROOM) continue;
        struct fenced data = fence(length);
        begin(0);
        CHECK(zaxbriar_joined_metadata(jpeg, size, NULL, kind, data.start, length, &length) ==
              ZAXBRIAR_OK);
        end();
        munmap(data.base, data.whole);
    }
}

static void of_stream(const unsigned char *bytes, size_t size, int is_whole) {
    static const uint8_t layouts[] = {
        ZAXBRIAR_AS_STORED, ZAXBRIAR_RGB565, ZAXBRIAR_BGRA,  ZAXBRIAR_RGB,
        ZAXBRIAR_RGBA,      ZAXBRIAR_GREY,   ZAXBRIAR_RGB16, ZAXBRIAR_XRGB};
    zaxbriar_options options = {.layout = layouts[files % 8],
                                .stride = files / 8 % 4 == 3 ? 70000 * 8 : 0,
                                .bottom_up = files / 32 % 2,
                                .upright = files % 16 < 11,
                                .luma = files % 6 == 5};
    zaxbriar_picture picture;
    struct fenced jpeg = fence(size);
    if (size) memcpy(jpeg.start, bytes, size);
    mprotect(jpeg.base + PAGE, jpeg.whole - 2 * PAGE, PROT_READ);
    files++;
    found(jpeg.start, size);
    joined(jpeg.start, size);
    begin(0);
    int answer = zaxbriar_read_info(jpeg.start, size, &options, &picture);
    end();
    if (answer == ZAXBRIAR_OK) above_limit(jpeg.start, size, options, &picture);
    int is_large = answer == ZAXBRIAR_OK &&
                   ((uint64_t)picture.width * picture.height > MOST_PIXELS ||
                    picture.size >= 100000000);
    if (answer == ZAXBRIAR_OK && !is_large) {
        struct fenced pixels = fence(picture.size);
        answer = decode(jpeg.start, size, &options, pixels, picture.size, 0);
        take_beside(picture.decoding_bytes, size, &picture);
        if (allocations > most_allocations) most_allocations = allocations;
        if (size < SMALL_FILE && is_whole && picture.size < 100000)
            each_allocation(jpeg.start, size, &options, pixels, picture.size, answer);
        else
            in_part(jpeg.start, size, &options, pixels, picture.size, answer);
        munmap(pixels.base, pixels.whole);
    }
    answers[answer]++;
    if (size < SMALL_FILE && is_whole) each_allocation_of(jpeg.start, size, 0);
    for (int i = 0; i < (is_large ? KINDS_OF_HEADER : KINDS); i++) {
        int kind = kinds[i];
        size_t length = 0;
        if (size < SMALL_FILE && is_whole) each_allocation_of(jpeg.start, size, kind);
        begin(0);
        answer = zaxbriar_metadata(jpeg.start, size, kind, NULL, 0, &length);
        end();
        if (answer == ZAXBRIAR_NO_ROOM && length < 100000) {
            struct fenced data = fence(length);
            begin(0);
            CHECK(zaxbriar_metadata(jpeg.start, size, kind, data.start, length, &length) ==
                  ZAXBRIAR_OK);
            end();
            munmap(data.base, data.whole);
        }
    }
    munmap(jpeg.base, jpeg.whole);
}

static uint64_t state = 88172645463325252u;

/* Marsaglia's xorshift: the same numbers in each run. */
static size_t below(size_t most) {
    state ^= state << 13;
    state ^= state >> 7;
    state ^= state << 17;
    return most ? (size_t)(state % most) : 0;
}

/* Changes one to three bytes, cuts the end off, or repeats some bytes elsewhere. */
static size_t damage(unsigned char *bytes, size_t size) {
    static const unsigned char markers[] = {0x00, 0xC0, 0xC2, 0xC3, 0xC4, 0xD0, 0xD8,
                                            0xD9, 0xDA, 0xDB, 0xDD, 0xE1, 0xFF};
    for (size_t changes = 1 + below(3); changes && size > 4; changes--) {
        size_t place = 2 + below(below(2) && size > 700 ? 700 : size - 2);
        switch (below(5)) {
        case 0: bytes[place] = (unsigned char)below(256); break;
        case 1: bytes[place] ^= (unsigned char)(1u << below(8)); break;
        case 2:
            bytes[place - 1] = 0xFF;
            bytes[place] = markers[below(sizeof markers)];
            break;
        case 3: memmove(bytes + place, bytes + below(size), below(size - place) / 8); break;
        default: size = place; break;
        }
    }
    return size;
}

int main(int argc, char **argv) {
    char name[4096];
    FILE *list = argc == 3 ? fopen(argv[1], "r") : NULL;
    if (!list) return 2;
    while (fgets(name, sizeof name, list)) {
        name[strcspn(name, "\n")] = 0;
        subject = name;
        struct bytes whole = read_file(name);
        unsigned char *damaged = block(2 * whole.size);
        of_stream(whole.start, whole.size, 1);
        for (int copy = 0; copy < atoi(argv[2]); copy++) {
            memcpy(damaged, whole.start, whole.size);
            memcpy(damaged + whole.size, whole.start, whole.size);
            of_stream(damaged, damage(damaged, whole.size), 0);
        }
        free(damaged);
        free(whole.start);
    }
    fclose(list);
    printf("hostile: %ld streams between guard pages:", files);
    for (int answer = 0; answer <= ZAXBRIAR_TOO_LARGE; answer++)
        if (answers[answer]) printf(" %s %ld,", zaxbriar_answer_name(answer), answers[answer]);
    printf(" %ld of them in part,", parts);
    printf(" at most %ld allocations a call, of %zu bytes beside the samples; %ld allocations "
           "refused; %d faults\n",
           most_allocations, most_beside, refusals, faults);
    return faults != 0;
}
