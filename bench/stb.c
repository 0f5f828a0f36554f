/* Decodes by stb_image, with as many samples a pixel as it finds in the file; CMYK becomes RGB. It
 * knows no scales and no layouts. */
#define STB_IMAGE_IMPLEMENTATION
#define STBI_ONLY_JPEG
#include <stb/stb_image.h>

#include "repeat.h"

unsigned char *decode(const unsigned char *jpeg, size_t size, unsigned scale, const char *layout) {
    int width, height, samples;
    if (scale != 1 || layout) return NULL;
    return stbi_load_from_memory(jpeg, (int)size, &width, &height, &samples, 0);
}
