#define _DEFAULT_SOURCE /* for mmap */
#include "room.h"

#include <stdio.h>
#include <stdlib.h>
#include <string.h>
#include <sys/mman.h>

void fail(const char *file, int line, const char *condition) {
    fprintf(stderr, "%s:%d: not so: %s\n", file, line, condition);
    abort();
}

/* libFuzzer takes what is in this section for counters of the program. */
enum { COUNTERS = 1 << 14 };
#ifdef __linux__
__attribute__((section("__libfuzzer_extra_counters"), used))
#endif
static uint8_t counters[COUNTERS];

static uint64_t mixed(uint64_t hash, uint64_t more) {
    hash = (hash ^ more) * 0x9E3779B97F4A7C15u;
    return hash ^ hash >> 29;
}

void note(unsigned kind, uint64_t shown) {
    uint8_t *counter = &counters[mixed(mixed(kind + 1, shown), 0) % COUNTERS];
    if (*counter < UINT8_MAX) ++*counter;
}

void note_text(unsigned kind, const char *text) {
    uint64_t hash = 0;
    for (; *text; text++)
        if (*text < '0' || *text > '9') hash = mixed(hash, (unsigned char)*text);
    note(kind, hash);
}

unsigned bits_of(uint64_t number) {
    unsigned bits = 0;
    for (; number; number >>= 1) bits++;
    return bits;
}

enum { PAGE = 4096, LEAST = 1 << 20 };

unsigned char *room_in(struct fenced *fenced, size_t size) {
    if (size > fenced->size || !fenced->base) {
        size_t pages = size > LEAST ? (size + PAGE - 1) / PAGE * PAGE : LEAST;
        if (fenced->base) munmap(fenced->base, fenced->size + PAGE);
        fenced->base = mmap(NULL, pages + PAGE, PROT_READ | PROT_WRITE, MAP_PRIVATE | MAP_ANONYMOUS,
                            -1, 0);
        CHECK(fenced->base != MAP_FAILED);
        CHECK(mprotect(fenced->base + pages, PAGE, PROT_NONE) == 0);
        fenced->size = pages;
    }
    return fenced->base + fenced->size - size;
}

void allow_writing(struct fenced *fenced, int is_allowed) {
    CHECK(mprotect(fenced->base, fenced->size, is_allowed ? PROT_READ | PROT_WRITE : PROT_READ) ==
          0);
}

/* Each block is between a head and a tail. */
struct head {
    size_t size;
    unsigned char guard[8 + 16];
};
enum { TAIL = 16, GUARD = 0xA7 };
_Static_assert(sizeof(struct head) % 16 == 0, "blocks are aligned to 16 bytes");

struct counts counts;
static long refused_one;

static void count(size_t before, size_t after) {
    counts.live_bytes += after - before;
    if (counts.live_bytes > counts.peak_bytes) counts.peak_bytes = counts.live_bytes;
}

static int is_refused(size_t size) {
    if (counts.allocations < 32) note(1, (uint64_t)counts.allocations << 8 | bits_of(size));
    return ++counts.allocations == refused_one;
}

static void *guarded(struct head *head, size_t size) {
    unsigned char *start = (unsigned char *)(head + 1);
    head->size = size;
    memset(head->guard, GUARD, sizeof head->guard);
    memset(start + size, GUARD, TAIL);
    return start;
}

/* Returns the head of a block, around which nothing may have been written. */
static struct head *head_of(void *start) {
    struct head *head = (struct head *)start - 1;
    CHECK(is_all(head->guard, sizeof head->guard, GUARD));
    CHECK(is_all((unsigned char *)start + head->size, TAIL, GUARD));
    return head;
}

static void *allocate(void *context, size_t size) {
    CHECK(context == &counts && size > 0);
    if (is_refused(size)) return NULL;
    struct head *head = malloc(sizeof *head + size + TAIL);
    if (!head) return NULL;
    counts.live_blocks++;
    count(0, size);
    return guarded(head, size);
}

static void *resize(void *context, void *start, size_t size) {
    CHECK(context == &counts && start && size > 0);
    struct head *head = head_of(start);
    size_t before = head->size;
    if (is_refused(size)) return NULL;
    head = realloc(head, sizeof *head + size + TAIL);
    if (!head) return NULL;
    count(before, size);
    return guarded(head, size);
}

static void release(void *context, void *start) {
    CHECK(context == &counts && start);
    struct head *head = head_of(start);
    CHECK(counts.live_blocks > 0);
    counts.live_blocks--;
    count(head->size, 0);
    /* (a second release then fails) */
    memset(head->guard, 0, sizeof head->guard);
    free(head);
}

const zaxbriar_memory counted_memory = {allocate, resize, release, &counts};

void begin_counting(long refused) {
    memset(&counts, 0, sizeof counts);
    refused_one = refused;
}

void end_counting(unsigned kind) {
    CHECK(counts.live_blocks == 0 && counts.live_bytes == 0);
    note(kind, bits_of((uint64_t)counts.allocations) << 8 | bits_of(counts.peak_bytes));
}

int is_all(const unsigned char *start, size_t size, unsigned char byte) {
    return size == 0 || (start[0] == byte && !memcmp(start, start + 1, size - 1));
}

void *block(size_t size) {
    void *start = malloc(size ? size : 1);
    CHECK(start);
    return start;
}
