/* Writes the picture that stb_image makes of a file, as PAM: stb FILE */
#define STB_IMAGE_IMPLEMENTATION
#define STBI_ONLY_JPEG
#include <stb/stb_image.h>
#include <stdio.h>

int main(int count, char **words)
{
    static const char *const types[] = {"", "GRAYSCALE", "GRAYSCALE_ALPHA", "RGB", "RGB_ALPHA"};
    int width, height, depth;
    unsigned char *pixels = count == 2 ? stbi_load(words[1], &width, &height, &depth, 0) : NULL;
    if (pixels == NULL)
        return 1;
    printf("P7\nWIDTH %d\nHEIGHT %d\nDEPTH %d\nMAXVAL 255\nTUPLTYPE %s\nENDHDR\n", width, height,
           depth, types[depth]);
    fwrite(pixels, (size_t)depth, (size_t)width * (size_t)height, stdout);
    stbi_image_free(pixels);
    return 0;
}
