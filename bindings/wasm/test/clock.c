/* clock FILE COUNT LAYOUT: the least processor time of COUNT decodings by the native library, in
 * milliseconds, for bench.mjs. Each allocates its pixels anew. */
#define _POSIX_C_SOURCE 199309L
#include <stdio.h>
#include <stdlib.h>
#include <time.h>
#include <zaxbriar.h>

static double now(void) {
    struct timespec time;
    clock_gettime(CLOCK_PROCESS_CPUTIME_ID, &time);
    return 1e3 * (double)time.tv_sec + (double)time.tv_nsec / 1e6;
}

static void decode(const void *jpeg, size_t size, const zaxbriar_options *options) {
    zaxbriar_picture picture;
    if (zaxbriar_read_info(jpeg, size, options, &picture)) exit(1);
    void *pixels = malloc(picture.size);
    if (!pixels || zaxbriar_decode(jpeg, size, options, pixels, picture.size, &picture)) exit(1);
    free(pixels);
}

int main(int count, char **words) {
    static unsigned char jpeg[1 << 26];
    FILE *file = count == 4 ? fopen(words[1], "rb") : NULL;
    if (!file) return 2;
    size_t size = fread(jpeg, 1, sizeof jpeg, file);
    zaxbriar_options options = {.layout = (uint8_t)atoi(words[3])};
    double least = 1e9;
    for (int left = atoi(words[2]); left; left--) {
        double start = now();
        decode(jpeg, size, &options);
        double took = now() - start;
        least = took < least ? took : least;
    }
    printf("%f\n", least);
    return 0;
}
