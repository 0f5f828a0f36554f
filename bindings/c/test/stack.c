/* stack LIST: makes each call for each file that LIST names on a thread of 128 kB of stack, which
 * is painted before, and says how much of it the calls used: more than 64 kB is a fault. */
#define _GNU_SOURCE
#include <pthread.h>
#include <sys/mman.h>

#include "common.h"

enum { STACK = 128 * 1024, FENCE = 4096, PAINT = 0x77, MOST_USED = 64 * 1024 };
enum call { DECODE, UPRIGHT, READ_INFO, METADATA, JOINED, ROWS, FED, NOTHING, CALLS };

static struct bytes jpeg;
static unsigned char *pixels;
static size_t room;
static enum call call;

/* Takes all lines, into the same memory. */
static int all_rows(zaxbriar_picture *picture) {
    zaxbriar_rows *rows;
    int answer = zaxbriar_rows_new(jpeg.start, jpeg.size, NULL, &rows, picture);
    while (answer == ZAXBRIAR_OK) answer = zaxbriar_rows_next(rows, pixels, picture->row_bytes);
    zaxbriar_rows_free(rows);
    return answer;
}

/* The same of bytes that arrive in two pieces. */
static int all_fed_rows(zaxbriar_picture *picture) {
    static zaxbriar_places places;
    static const zaxbriar_options with_places = {.places = &places};
    zaxbriar_fed *fed;
    size_t half = jpeg.size / 2;
    int answer = zaxbriar_fed_new(&with_places, &fed);
    if (answer == ZAXBRIAR_OK) answer = zaxbriar_fed_feed(fed, jpeg.start, half);
    if (answer == ZAXBRIAR_OK) answer = zaxbriar_fed_rows(fed, picture);
    while (answer == ZAXBRIAR_OK) answer = zaxbriar_fed_next(fed, pixels, picture->row_bytes);
    if (answer == ZAXBRIAR_WAITING)
        answer = zaxbriar_fed_feed(fed, jpeg.start + half, jpeg.size - half);
    zaxbriar_fed_end(fed);
    while (answer == ZAXBRIAR_OK) answer = zaxbriar_fed_next(fed, pixels, picture->row_bytes);
    zaxbriar_fed_free(fed);
    return answer;
}

static void *make_call(void *unused) {
    static const zaxbriar_options upright = {.layout = ZAXBRIAR_GREY, .upright = 1};
    static zaxbriar_picture picture;
    static int answer;
    size_t length;
    (void)unused;
    switch (call) {
    case DECODE:
        answer = zaxbriar_decode(jpeg.start, jpeg.size, NULL, pixels, room, &picture);
        break;
    case UPRIGHT:
        answer = zaxbriar_decode(jpeg.start, jpeg.size, &upright, pixels, room, &picture);
        break;
    case READ_INFO: answer = zaxbriar_read_info(jpeg.start, jpeg.size, NULL, &picture); break;
    case METADATA:
        answer = zaxbriar_metadata(jpeg.start, jpeg.size, ZAXBRIAR_ICC | ZAXBRIAR_WHOLE_IMAGE, NULL,
                                   0, &length);
        break;
    case JOINED:
        answer = zaxbriar_joined_metadata(jpeg.start, jpeg.size, NULL, ZAXBRIAR_THUMBNAIL, NULL, 0,
                                          &length);
        break;
    case ROWS: answer = all_rows(&picture); break;
    case FED: answer = all_fed_rows(&picture); break;
    default: answer = 0;
    }
    return &answer;
}

static size_t used_by_thread(unsigned char *stack) {
    pthread_attr_t attributes;
    pthread_t thread;
    size_t unused = 0;
    memset(stack, PAINT, STACK);
    pthread_attr_init(&attributes);
    if (pthread_attr_setstack(&attributes, stack, STACK) ||
        pthread_create(&thread, &attributes, make_call, NULL))
        exit(2);
    pthread_join(thread, NULL);
    pthread_attr_destroy(&attributes);
    while (unused < STACK && stack[unused] == PAINT) unused++;
    return STACK - unused;
}

int main(int argc, char **argv) {
    char name[4096];
    size_t most[CALLS] = {0};
    long files = 0;
    unsigned char *base =
        mmap(NULL, FENCE + STACK, PROT_READ | PROT_WRITE, MAP_PRIVATE | MAP_ANONYMOUS, -1, 0);
    FILE *list = argc == 2 ? fopen(argv[1], "r") : NULL;
    if (!list || base == MAP_FAILED) return 2;
    mprotect(base, FENCE, PROT_NONE);
    while (fgets(name, sizeof name, list)) {
        zaxbriar_picture picture;
        name[strcspn(name, "\n")] = 0;
        subject = name;
        jpeg = read_file(name);
        room = zaxbriar_read_info(jpeg.start, jpeg.size, NULL, &picture) ? 0 : picture.size;
        pixels = block(room);
        for (call = 0; call < CALLS; call++) {
            size_t used = used_by_thread(base + FENCE);
            if (used > most[call]) most[call] = used;
        }
        free(pixels);
        free(jpeg.start);
        files++;
    }
    fclose(list);
    subject = "stack of a call";
    for (call = 0; call < NOTHING; call++) CHECK(most[call] - most[NOTHING] <= MOST_USED);
    printf("stack: %ld files on a thread of %d bytes, of which a thread that makes no call uses "
           "%zu; with it decode %zu, "
           "upright %zu, read_info %zu, metadata %zu, joined_metadata %zu, rows %zu, lines of "
           "pieces %zu; %d faults\n",
           files, STACK, most[NOTHING], most[DECODE], most[UPRIGHT], most[READ_INFO],
           most[METADATA], most[JOINED], most[ROWS], most[FED], faults);
    return faults != 0;
}
