/* PROGRAM DECODINGS SCALE [LAYOUT] < FILE: decodes a JPEG file so many times from memory at 1/SCALE
 * of its size, and prints the least and the median processor time of a decoding. */
#include "repeat.h"

#include "times.h"

static unsigned char *read_all(FILE *file, size_t *size) {
    unsigned char *bytes = NULL;
    size_t room = 0;
    *size = 0;
    do {
        if (*size == room) {
            unsigned char *more = realloc(bytes, room = room ? 2 * room : 1 << 16);
            if (!more) break;
            bytes = more;
        }
        *size += fread(bytes + *size, 1, room - *size, file);
    } while (!feof(file) && !ferror(file));
    return bytes;
}

int main(int count, char **words) {
    if (count != 3 && count != 4) {
        fprintf(stderr, "usage: %s DECODINGS SCALE [LAYOUT] < FILE\n", words[0]);
        return 2;
    }
    size_t size;
    unsigned char *jpeg = read_all(stdin, &size);
    for (long left = atol(words[1]); left > 0; left--) {
        double start_ms = process_ms();
        unsigned char *pixels = decode(jpeg, size, (unsigned)atoi(words[2]), words[3]);
        keep_time(process_ms() - start_ms);
        if (!pixels) return 1;
        free(pixels);
    }
    print_times();
    free(jpeg);
    return 0;
}
