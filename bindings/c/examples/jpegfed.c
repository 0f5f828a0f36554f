/* jpegfed PICTURE < FILE: shows a file while it arrives, by a pipe say: writes what has arrived of
 * the picture as PPM to the file PICTURE, again and again, upright, and to standard output how many
 * of its rows are complete. What hasn't arrived is mid-grey. The status is 0 only if the file has
 * no fault. */
#include <stdio.h>
#include <stdlib.h>
#include <unistd.h>

#include "zaxbriar.h"

/* Writes a picture in red, green and blue. */
static int write_picture(const char *name, const zaxbriar_picture *picture,
                         const unsigned char *pixels) {
    FILE *file = fopen(name, "wb");
    if (!file) return 0;
    fprintf(file, "P6\n%u %u\n255\n", picture->width, picture->height);
    int is_written = fwrite(pixels, 1, picture->size, file) == picture->size;
    return fclose(file) == 0 && is_written;
}

/* Shows what has arrived, once the header has: *pixels gets a buffer for the picture by then. */
static zaxbriar_result show(zaxbriar_fed *fed, unsigned char **pixels, zaxbriar_picture *picture) {
    zaxbriar_result answer = zaxbriar_fed_info(fed, picture);
    if (answer != ZAXBRIAR_OK) return answer;
    if (!*pixels) *pixels = malloc(picture->size);
    if (!*pixels) return ZAXBRIAR_NO_MEMORY;
    return zaxbriar_fed_show(fed, *pixels, picture->size, picture);
}

/* Feeds what standard input brings, and shows it each time that it has grown by a quarter, and at
 * its end. Returns the last answer, of which `picture` tells. */
static zaxbriar_result show_input(zaxbriar_fed *fed, const char *name, zaxbriar_picture *picture) {
    static unsigned char piece[65536];
    unsigned char *pixels = NULL;
    size_t arrived = 0, shown = 0;
    zaxbriar_result answer = ZAXBRIAR_TRUNCATED;
    for (ssize_t size = 1; size > 0;) {
        size = read(STDIN_FILENO, piece, sizeof piece);
        if (size > 0) {
            answer = zaxbriar_fed_feed(fed, piece, (size_t)size);
            if (answer != ZAXBRIAR_OK) break;
            arrived += (size_t)size;
        }
        if (size > 0 && arrived < shown + shown / 4) continue;
        answer = show(fed, &pixels, picture);
        if (answer != ZAXBRIAR_OK && answer != ZAXBRIAR_PARTIAL) {
            if (answer == ZAXBRIAR_TRUNCATED && size > 0) continue;
            break;
        }
        shown = arrived;
        printf("%zu bytes: %u of %u rows\n", arrived, picture->whole_rows, picture->height);
        if (!write_picture(name, picture, pixels)) perror(name);
    }
    free(pixels);
    return answer;
}

int main(int argc, char **argv) {
    if (argc != 2) {
        fprintf(stderr, "usage: jpegfed PICTURE < FILE\n");
        return 2;
    }
    zaxbriar_options options = {.layout = ZAXBRIAR_RGB, .upright = 1};
    zaxbriar_picture picture = {0};
    zaxbriar_fed *fed;
    zaxbriar_result answer = zaxbriar_fed_new(&options, &fed);
    if (answer == ZAXBRIAR_OK) answer = show_input(fed, argv[1], &picture);
    if (answer != ZAXBRIAR_OK)
        fprintf(stderr, "jpegfed: %s\n",
                picture.text[0] ? picture.text : zaxbriar_answer_name(answer));
    zaxbriar_fed_free(fed);
    return answer != ZAXBRIAR_OK;
}
