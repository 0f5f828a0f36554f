/* Decodes by libjpeg: grey stays grey, CMYK and YCCK become CMYK, other colours RGB, unless a layout
 * is asked for. The transform is that of whole numbers, and all else as libjpeg presets it. */
#include <stdio.h>
#include <stdlib.h>
#include <string.h>

#include <jpeglib.h>

#include "repeat.h"

enum { LINES = 16 };

/* Reads a picture, which the caller frees. */
static unsigned char *read_picture(struct jpeg_decompress_struct *decoder) {
    jpeg_start_decompress(decoder);
    size_t line = (size_t)decoder->output_width * decoder->output_components;
    unsigned char *pixels = malloc(line * decoder->output_height);
    if (!pixels) return NULL;
    JSAMPROW rows[LINES];
    while (decoder->output_scanline < decoder->output_height) {
        JDIMENSION first = decoder->output_scanline, left = decoder->output_height - first;
        JDIMENSION lines = left < LINES ? left : LINES;
        for (JDIMENSION i = 0; i < lines; i++) rows[i] = pixels + line * (first + i);
        jpeg_read_scanlines(decoder, rows, lines);
    }
    jpeg_finish_decompress(decoder);
    return pixels;
}

/* Asks for a layout by its name, and returns whether there is such a one. */
static int choose(struct jpeg_decompress_struct *decoder, const char *layout) {
    static const struct {
        const char *name;
        J_COLOR_SPACE space;
    } layouts[] = {{"grey", JCS_GRAYSCALE},
                   {"luma", JCS_GRAYSCALE},
                   {"RGBA", JCS_EXT_RGBA},
                   {"BGRA", JCS_EXT_BGRA},
                   {"XRGB", JCS_EXT_XRGB}};
    for (size_t i = 0; i < sizeof layouts / sizeof *layouts; i++) {
        if (strcmp(layout, layouts[i].name) == 0) {
            decoder->out_color_space = layouts[i].space;
            return 1;
        }
    }
    return 0;
}

unsigned char *decode(const unsigned char *jpeg, size_t size, unsigned scale, const char *layout) {
    struct jpeg_decompress_struct decoder;
    struct jpeg_error_mgr errors;
    /* An error ends the program. */
    decoder.err = jpeg_std_error(&errors);
    jpeg_create_decompress(&decoder);
    jpeg_mem_src(&decoder, jpeg, size);
    jpeg_read_header(&decoder, TRUE);
    decoder.scale_num = 1;
    decoder.scale_denom = scale;
    decoder.dct_method = JDCT_ISLOW;
    unsigned char *pixels = !layout || choose(&decoder, layout) ? read_picture(&decoder) : NULL;
    jpeg_destroy_decompress(&decoder);
    return pixels;
}
