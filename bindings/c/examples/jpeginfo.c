/* jpeginfo FILE..: says what the header of each file contains, and how long its metadata are. */
#include <stdio.h>
#include <stdlib.h>

#include "zaxbriar.h"

/* Writes a line about a file. Returns whether its header could be read. */
static int describe(const char *name, const unsigned char *jpeg, size_t size) {
    static const char *const processes[] = {"?", "sequential", "progressive", "lossless"};
    static const char *const units[] = {"", "/inch", "/cm", "?"};
    size_t lengths[4] = {0};
    zaxbriar_picture picture;
    int answer = zaxbriar_read_info(jpeg, size, NULL, &picture);
    if (answer != ZAXBRIAR_OK) {
        fprintf(stderr, "%s: %s\n", name, picture.text);
        return 0;
    }
    for (int kind = ZAXBRIAR_EXIF; kind <= ZAXBRIAR_ICC; kind++)
        if (zaxbriar_metadata(jpeg, size, kind, NULL, 0, &lengths[kind]) == ZAXBRIAR_NO_DATA)
            lengths[kind] = 0;
    printf("%s: %u x %u, %u components of %u bits, sampling", name, picture.width, picture.height,
           picture.components, picture.precision);
    for (int i = 0; i < picture.components; i++)
        printf(" %ux%u", picture.sampling[i] >> 4, picture.sampling[i] & 15);
    printf(", %s, orientation %u, density %ux%u%s, exif %zu, xmp %zu, icc %zu bytes;"
           " decoding takes %llu bytes\n",
           processes[picture.process & 3], picture.orientation, picture.horizontal_density,
           picture.vertical_density, units[picture.density_unit < 3 ? picture.density_unit : 3],
           lengths[ZAXBRIAR_EXIF], lengths[ZAXBRIAR_XMP], lengths[ZAXBRIAR_ICC],
           (unsigned long long)picture.decoding_bytes);
    return 1;
}

int main(int argc, char **argv) {
    int failed = 0;
    for (int i = 1; i < argc; i++) {
        FILE *file = fopen(argv[i], "rb");
        long size = -1;
        if (file && fseek(file, 0, SEEK_END) == 0 && (size = ftell(file)) >= 0) {
            unsigned char *jpeg = malloc((size_t)size + 1);
            rewind(file);
            if (!jpeg || fread(jpeg, 1, (size_t)size, file) != (size_t)size ||
                !describe(argv[i], jpeg, (size_t)size))
                failed = 1;
            free(jpeg);
        } else {
            perror(argv[i]);
            failed = 1;
        }
        if (file) fclose(file);
    }
    return failed;
}
