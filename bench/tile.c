/* tile LEFT TOP WIDTH HEIGHT < FILE > PICTURE: a part of a picture in colour as PPM, by the C
 * library, or with zeros alone the whole picture. */
#include <stdio.h>
#include <stdlib.h>

#include "../bindings/c/zaxbriar.h"

static unsigned char jpeg[1 << 26];

int main(int count, char **words) {
    if (count != 5) return 2;
    zaxbriar_options options = {
        .layout = ZAXBRIAR_RGB,
        .crop_left = (unsigned short)atoi(words[1]),
        .crop_top = (unsigned short)atoi(words[2]),
        .crop_width = (unsigned short)atoi(words[3]),
        .crop_height = (unsigned short)atoi(words[4]),
    };
    zaxbriar_picture picture;
    size_t size = fread(jpeg, 1, sizeof jpeg, stdin);
    if (zaxbriar_read_info(jpeg, size, &options, &picture) != ZAXBRIAR_OK) return 1;
    unsigned char *pixels = malloc(picture.size);
    if (!pixels) return 1;
    if (zaxbriar_decode(jpeg, size, &options, pixels, picture.size, NULL) != ZAXBRIAR_OK) return 1;
    printf("P6\n%u %u\n255\n", picture.width, picture.height);
    return fwrite(pixels, 1, picture.size, stdout) != picture.size;
}
