/* levels: whether each call of levels.c gives its arguments to the one of the processor's kind, and
 * what that returns to its caller. The calls for both kinds are this file's. */
#include "common.h"
#include "processor.h"
#include "proved.h"

static int kind, calls;
static unsigned char bytes[4];
static zaxbriar_options options;
static zaxbriar_picture picture;
static zaxbriar_places places;
static zaxbriar_segment segment;
static uint64_t length;
static zaxbriar_kept kept;

int zaxbriar_is_v3(void) { return kind == 3; }

/* A call of the kind N returns 10 * N + NUMBER where its arguments are those of `main`. */
static uint32_t called(int of, uint32_t number, int right) {
    CHECK(of == kind);
    CHECK(right);
    calls++;
    return (uint32_t)of * 10 + number;
}

#define CALLS_OF(N)                                                                                \
    uint32_t zaxbriar_v##N##_read_info(const uint8_t *j, size_t n, const zaxbriar_options *o,      \
                                       zaxbriar_picture *p) {                                      \
        return called(N, 1, j == bytes && n == 3 && o == &options && p == &picture);               \
    }                                                                                              \
    uint32_t zaxbriar_v##N##_decode(const uint8_t *j, size_t n, const zaxbriar_options *o,         \
                                    uint8_t *x, size_t m, zaxbriar_picture *p) {                   \
        return called(N, 2, j == bytes && n == 3 && o == &options && x == bytes + 1 && m == 2 &&   \
                                p == &picture);                                                    \
    }                                                                                              \
    uint32_t zaxbriar_v##N##_decode_partial(const uint8_t *j, size_t n, const zaxbriar_options *o, \
                                            uint8_t *x, size_t m, zaxbriar_picture *p) {           \
        return called(N, 3, j == bytes && n == 3 && o == &options && x == bytes + 1 && m == 2 &&   \
                                p == &picture);                                                    \
    }                                                                                              \
    uint32_t zaxbriar_v##N##_decode_planes(const uint8_t *j, size_t n, const zaxbriar_options *o,  \
                                           uint8_t *x, size_t m, zaxbriar_picture *p) {            \
        return called(N, 8, j == bytes && n == 3 && o == &options && x == bytes + 1 && m == 2 &&   \
                                p == &picture);                                                    \
    }                                                                                              \
    uint32_t zaxbriar_v##N##_metadata(const uint8_t *j, size_t n, uint32_t k, uint64_t x,          \
                                      uint8_t *d, size_t m, uint64_t *l) {                         \
        return called(N, 4, j == bytes && n == 3 && k == 257 && x == UINT64_MAX &&                 \
                                d == bytes + 1 && m == 2 && l == &length);                         \
    }                                                                                              \
    uint32_t zaxbriar_v##N##_joined_metadata(const uint8_t *j, size_t n, uint32_t k, uint8_t *d,   \
                                             size_t m, uint64_t *l) {                              \
        return called(N, 7, j == bytes && n == 3 && k == 257 && d == bytes + 1 && m == 2 &&        \
                                l == &length);                                                     \
    }                                                                                              \
    void zaxbriar_v##N##_find_metadata(const uint8_t *j, size_t n, zaxbriar_places *p) {           \
        called(N, 5, j == bytes && n == 3 && p == &places);                                        \
    }                                                                                              \
    uint32_t zaxbriar_v##N##_next_segment(const uint8_t *j, size_t n, zaxbriar_segment *s) {       \
        return called(N, 6, j == bytes && n == 3 && s == &segment);                                \
    }                                                                                              \
    uint32_t zaxbriar_v##N##_rows_new(const uint8_t *j, size_t n, const zaxbriar_options *o,       \
                                      zaxbriar_kept *k, zaxbriar_picture *p) {                     \
        return called(N, 9, j == bytes && n == 3 && o == &options && k == &kept &&                 \
                                p == &picture);                                                    \
    }                                                                                              \
    uint32_t zaxbriar_v##N##_rows_next(zaxbriar_kept *k, uint8_t *l, size_t m) {                   \
        return called(N, 10, k == &kept && l == bytes + 1 && m == 2);                              \
    }                                                                                              \
    uint32_t zaxbriar_v##N##_rows_refusal(zaxbriar_kept *k, zaxbriar_picture *p) {                 \
        return called(N, 12, k == &kept && p == &picture);                                         \
    }                                                                                              \
    void zaxbriar_v##N##_rows_free(zaxbriar_kept *k) { called(N, 11, k == &kept); }                \
    uint32_t zaxbriar_v##N##_fed_new(const zaxbriar_options *o, zaxbriar_kept *k) {                \
        return called(N, 13, o == &options && k == &kept);                                         \
    }                                                                                              \
    uint32_t zaxbriar_v##N##_fed_feed(zaxbriar_kept *k, const uint8_t *b, size_t n) {              \
        return called(N, 14, k == &kept && b == bytes && n == 3);                                  \
    }                                                                                              \
    uint32_t zaxbriar_v##N##_fed_info(zaxbriar_kept *k, zaxbriar_picture *p) {                     \
        return called(N, 15, k == &kept && p == &picture);                                         \
    }                                                                                              \
    uint32_t zaxbriar_v##N##_fed_show(zaxbriar_kept *k, uint8_t *x, size_t m,                      \
                                      zaxbriar_picture *p) {                                       \
        return called(N, 16, k == &kept && x == bytes + 1 && m == 2 && p == &picture);             \
    }                                                                                              \
    uint32_t zaxbriar_v##N##_fed_rows(zaxbriar_kept *k, zaxbriar_picture *p) {                     \
        return called(N, 19, k == &kept && p == &picture);                                         \
    }                                                                                              \
    uint32_t zaxbriar_v##N##_fed_next(zaxbriar_kept *k, uint8_t *l, size_t m) {                    \
        return called(N, 20, k == &kept && l == bytes + 1 && m == 2);                              \
    }                                                                                              \
    uint32_t zaxbriar_v##N##_fed_end(zaxbriar_kept *k) { return called(N, 21, k == &kept); }       \
    uint32_t zaxbriar_v##N##_fed_refusal(zaxbriar_kept *k, zaxbriar_picture *p) {                  \
        return called(N, 22, k == &kept && p == &picture);                                         \
    }                                                                                              \
    void zaxbriar_v##N##_fed_find_metadata(zaxbriar_kept *k, zaxbriar_places *p) {                 \
        called(N, 17, k == &kept && p == &places);                                                 \
    }                                                                                              \
    void zaxbriar_v##N##_fed_free(zaxbriar_kept *k) { called(N, 18, k == &kept); }

CALLS_OF(2)
CALLS_OF(3)

int main(void) {
    for (kind = 2; kind <= 3; kind++) {
        uint32_t base = (uint32_t)kind * 10;
        CHECK(zaxbriar_checked_read_info(bytes, 3, &options, &picture) == base + 1);
        CHECK(zaxbriar_checked_decode(bytes, 3, &options, bytes + 1, 2, &picture) == base + 2);
        CHECK(zaxbriar_checked_decode_partial(bytes, 3, &options, bytes + 1, 2, &picture) ==
              base + 3);
        CHECK(zaxbriar_checked_metadata(bytes, 3, 257, UINT64_MAX, bytes + 1, 2, &length) ==
              base + 4);
        zaxbriar_checked_find_metadata(bytes, 3, &places);
        CHECK(zaxbriar_checked_next_segment(bytes, 3, &segment) == base + 6);
        CHECK(zaxbriar_checked_joined_metadata(bytes, 3, 257, bytes + 1, 2, &length) == base + 7);
        CHECK(zaxbriar_checked_decode_planes(bytes, 3, &options, bytes + 1, 2, &picture) ==
              base + 8);
        CHECK(zaxbriar_checked_rows_new(bytes, 3, &options, &kept, &picture) == base + 9);
        CHECK(zaxbriar_checked_rows_next(&kept, bytes + 1, 2) == base + 10);
        CHECK(zaxbriar_checked_rows_refusal(&kept, &picture) == base + 12);
        zaxbriar_checked_rows_free(&kept);
        CHECK(zaxbriar_checked_fed_new(&options, &kept) == base + 13);
        CHECK(zaxbriar_checked_fed_feed(&kept, bytes, 3) == base + 14);
        CHECK(zaxbriar_checked_fed_info(&kept, &picture) == base + 15);
        CHECK(zaxbriar_checked_fed_show(&kept, bytes + 1, 2, &picture) == base + 16);
        CHECK(zaxbriar_checked_fed_rows(&kept, &picture) == base + 19);
        CHECK(zaxbriar_checked_fed_next(&kept, bytes + 1, 2) == base + 20);
        CHECK(zaxbriar_checked_fed_end(&kept) == base + 21);
        CHECK(zaxbriar_checked_fed_refusal(&kept, &picture) == base + 22);
        zaxbriar_checked_fed_find_metadata(&kept, &places);
        zaxbriar_checked_fed_free(&kept);
    }
    CHECK(calls == 44);
    printf("levels: %d calls; %d faults\n", calls, faults);
    return faults != 0;
}
