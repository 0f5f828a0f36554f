/* The peer of speed.mjs: libjpeg-turbo, as bench/turbo.c calls it, for a JavaScript caller. */
#include <stdio.h>
#include <stdlib.h>

#include <jpeglib.h>

enum { LINES = 16 };

/* Reads all lines into the picture. */
static void read_lines(struct jpeg_decompress_struct *decoder, unsigned char *pixels, size_t line) {
    JSAMPROW rows[LINES];
    while (decoder->output_scanline < decoder->output_height) {
        JDIMENSION first = decoder->output_scanline, left = decoder->output_height - first;
        JDIMENSION lines = left < LINES ? left : LINES;
        for (JDIMENSION i = 0; i < lines; i++) rows[i] = pixels + line * (first + i);
        jpeg_read_scanlines(decoder, rows, lines);
    }
}

/* An error ends the instance. */
static void fail(j_common_ptr decoder) {
    (void)decoder;
    __builtin_trap();
}

/* Decodes as stored or to RGBA, and tells the width, the height and the bytes of a pixel. */
unsigned char *turbo_decode(const unsigned char *jpeg, size_t size, int is_rgba, unsigned *told) {
    struct jpeg_decompress_struct decoder;
    struct jpeg_error_mgr errors;
    decoder.err = jpeg_std_error(&errors);
    errors.error_exit = fail;
    jpeg_create_decompress(&decoder);
    jpeg_mem_src(&decoder, jpeg, size);
    jpeg_read_header(&decoder, TRUE);
    if (is_rgba) decoder.out_color_space = JCS_EXT_RGBA;
    decoder.dct_method = JDCT_ISLOW;
    jpeg_start_decompress(&decoder);
    size_t line = (size_t)decoder.output_width * decoder.output_components;
    unsigned char *pixels = malloc(line * decoder.output_height);
    if (!pixels) __builtin_trap();
    read_lines(&decoder, pixels, line);
    told[0] = decoder.output_width;
    told[1] = decoder.output_height;
    told[2] = decoder.output_components;
    jpeg_finish_decompress(&decoder);
    jpeg_destroy_decompress(&decoder);
    return pixels;
}
