/* jpeg2pnm FILE [WIDTH HEIGHT] > PICTURE: writes the picture, upright, as PGM (grey), PPM (red,
 * green and blue) or PAM (cyan, magenta, yellow and black). If a size is given, at the least of 1/8,
 * 1/4, 1/2 and 1 at which the picture in the file is at least that wide or that high. */
#include <stdio.h>
#include <stdlib.h>

#include "zaxbriar.h"

static unsigned char *read_file(const char *name, size_t *size) {
    FILE *file = fopen(name, "rb");
    unsigned char *bytes = NULL;
    size_t room = 0;
    *size = 0;
    if (!file) return NULL;
    do {
        if (*size == room) {
            unsigned char *more = realloc(bytes, room = room ? 2 * room : 65536);
            if (!more) break;
            bytes = more;
        }
        *size += fread(bytes + *size, 1, room - *size, file);
    } while (!feof(file) && !ferror(file));
    if (!feof(file)) {
        free(bytes);
        bytes = NULL;
    }
    fclose(file);
    return bytes;
}

/* Writes the picture. In netpbm's formats the higher byte of a sample is first. */
static int write_picture(const zaxbriar_picture *picture, unsigned char *pixels) {
    unsigned most = (1u << picture->precision) - 1;
    if (picture->components == 4)
        printf("P7\nWIDTH %u\nHEIGHT %u\nDEPTH 4\nMAXVAL %u\nTUPLTYPE CMYK\nENDHDR\n",
               picture->width, picture->height, most);
    else
        printf("P%c\n%u %u\n%u\n", picture->components == 1 ? '5' : '6', picture->width,
               picture->height, most);
    if (picture->sample_bytes == 2)
        for (size_t i = 0; i + 1 < picture->size; i += 2) {
            unsigned char lower = pixels[i];
            pixels[i] = pixels[i + 1];
            pixels[i + 1] = lower;
        }
    return fwrite(pixels, 1, picture->size, stdout) == picture->size && fflush(stdout) == 0;
}

int main(int argc, char **argv) {
    if (argc != 2 && argc != 4) {
        fprintf(stderr, "usage: jpeg2pnm FILE [WIDTH HEIGHT] > PICTURE\n");
        return 2;
    }
    size_t size;
    unsigned char *jpeg = read_file(argv[1], &size);
    if (!jpeg) {
        perror(argv[1]);
        return 1;
    }
    zaxbriar_options options = {.upright = 1};
    if (argc == 4) {
        options.min_width = (uint16_t)atoi(argv[2]);
        options.min_height = (uint16_t)atoi(argv[3]);
    }
    zaxbriar_picture picture;
    unsigned char *pixels = NULL;
    int answer = zaxbriar_read_info(jpeg, size, &options, &picture);
    if (answer == ZAXBRIAR_OK) {
        pixels = malloc(picture.size);
        answer = zaxbriar_decode(jpeg, size, &options, pixels, pixels ? picture.size : 0, &picture);
    }
    int done = answer == ZAXBRIAR_OK && write_picture(&picture, pixels);
    if (answer != ZAXBRIAR_OK)
        fprintf(stderr, "jpeg2pnm: %s: %s\n", argv[1], picture.text);
    else if (!done) perror("jpeg2pnm");
    free(pixels);
    free(jpeg);
    return !done;
}
