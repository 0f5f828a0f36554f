/* What the tests share. */
#ifndef COMMON_H
#define COMMON_H

#include <stdint.h>
#include <stdio.h>
#include <stdlib.h>
#include <string.h>

#include "zaxbriar.h"

static int faults;
static const char *subject = "";

#define CHECK(condition)                                                                           \
    do {                                                                                           \
        if (!(condition)) {                                                                        \
            printf("%s:%d: %s: not so: %s\n", __FILE__, __LINE__, subject, #condition);            \
            faults++;                                                                              \
        }                                                                                          \
    } while (0)

struct bytes {
    unsigned char *start;
    size_t size;
};

/* The bytes of a file, in a block of just that size, so that a read past it is seen. */
static inline struct bytes read_file(const char *name) {
    struct bytes bytes = {NULL, 0};
    FILE *file = fopen(name, "rb");
    if (!file || fseek(file, 0, SEEK_END) != 0) {
        perror(name);
        exit(2);
    }
    bytes.size = (size_t)ftell(file);
    rewind(file);
    bytes.start = malloc(bytes.size ? bytes.size : 1);
    if (!bytes.start || fread(bytes.start, 1, bytes.size, file) != bytes.size) {
        perror(name);
        exit(2);
    }
    fclose(file);
    return bytes;
}

static inline void *block(size_t size) {
    void *start = malloc(size ? size : 1);
    if (!start) {
        perror("malloc");
        exit(2);
    }
    return start;
}

static inline int is_all(const unsigned char *start, size_t size, unsigned char byte) {
    for (size_t i = 0; i < size; i++)
        if (start[i] != byte) return 0;
    return 1;
}

enum { EXIF_BYTES = 32 };

/* Writes an APP1 segment whose Exif data have an orientation, and returns it. */
static inline const unsigned char *exif_of(unsigned char *segment, unsigned orientation) {
    static const unsigned char start[] = {
        0xff, 0xe1, 0, 30,   'E', 'x', 'i', 'f', 0, 0, 'M', 'M', 0, 42, 0, 0,
        0,    8,    0, 1,    1,   18,  0,   3,   0, 0, 0,   1,   0,
    };
    memset(segment, 0, EXIF_BYTES);
    memcpy(segment, start, sizeof start);
    segment[sizeof start] = (unsigned char)orientation;
    return segment;
}

/* Where a pixel of a stored picture is to be seen, and how large the picture is there. */
struct seen {
    size_t across, down, width, height;
};

static inline void put_from(struct seen *seen, char side, size_t distance) {
    switch (side) {
    case 'T': seen->down = distance; break;
    case 'B': seen->down = seen->height - 1 - distance; break;
    case 'L': seen->across = distance; break;
    default: seen->across = seen->width - 1 - distance; break;
    }
}

/* The same by the orientation, which says on which side (top, bottom, left or right) the first row
 * is to be seen, and the first column (Exif 2.3, 4.6.4). */
static inline struct seen seen_at(unsigned orientation, size_t width, size_t height, size_t x,
                                  size_t y) {
    static const char row_sides[] = "?TTBBLRRL", column_sides[] = "?LRRLTTBB";
    char row_side = row_sides[orientation];
    int is_on_side = row_side == 'L' || row_side == 'R';
    struct seen seen = {0, 0, is_on_side ? height : width, is_on_side ? width : height};
    put_from(&seen, row_side, y);
    put_from(&seen, column_sides[orientation], x);
    return seen;
}

#endif
