/* Decodes by the C library. What it allows by default is without limits. */
#include <stdlib.h>
#include <string.h>

#include "../bindings/c/zaxbriar.h"
#include "repeat.h"

/* Returns the layout of this name, or one that doesn't exist. */
static unsigned char layout_of(const char *name) {
    static const struct {
        const char *name;
        zaxbriar_layout layout;
    } layouts[] = {{"grey", ZAXBRIAR_GREY},
                   {"RGB", ZAXBRIAR_RGB},
                   {"RGBA", ZAXBRIAR_RGBA},
                   {"BGRA", ZAXBRIAR_BGRA},
                   {"XRGB", ZAXBRIAR_XRGB}};
    for (size_t i = 0; i < sizeof layouts / sizeof *layouts; i++)
        if (strcmp(name, layouts[i].name) == 0) return layouts[i].layout;
    return 0xFF;
}

/* A layout's name may follow this. */
static const char upright[] = "upright ";

/* The layout of the luma alone, which isn't made of the colours. */
static const char luma[] = "luma";

unsigned char *decode(const unsigned char *jpeg, size_t size, unsigned scale, const char *layout) {
    zaxbriar_options options = {.scale = (unsigned char)scale};
    if (layout && strncmp(layout, upright, strlen(upright)) == 0) {
        options.upright = 1;
        layout += strlen(upright);
    }
    options.luma = layout && strcmp(layout, luma) == 0;
    if (layout && !options.luma) options.layout = layout_of(layout);
    zaxbriar_picture picture;
    if (zaxbriar_read_info(jpeg, size, &options, &picture) != ZAXBRIAR_OK) return NULL;
    unsigned char *pixels = malloc(picture.size);
    if (!pixels) return NULL;
    if (zaxbriar_decode(jpeg, size, &options, pixels, picture.size, NULL) == ZAXBRIAR_OK)
        return pixels;
    free(pixels);
    return NULL;
}
