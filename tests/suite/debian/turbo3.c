/* Writes the picture that libjpeg-turbo 3 makes of a file, as PAM: turbo3 FILE. The samples are
 * those of the components, without a transform of colours, which it lacks for lossless files. */
#include <stdio.h>
#include <stdlib.h>

#include <jpeglib.h>

static const char *const types[] = {"", "GRAYSCALE", "GRAYSCALE_ALPHA", "RGB", "CMYK"};

/* Reads the next line, by the call for its precision, into samples of two bytes. */
static void read_line(struct jpeg_decompress_struct *decoder, void *line, unsigned short *samples,
                      size_t count) {
    J12SAMPROW row12 = line;
    J16SAMPROW row16 = line;
    JSAMPROW row = line;
    if (decoder->data_precision <= 8) jpeg_read_scanlines(decoder, &row, 1);
    else if (decoder->data_precision <= 12) jpeg12_read_scanlines(decoder, &row12, 1);
    else jpeg16_read_scanlines(decoder, &row16, 1);
    for (size_t i = 0; i < count; i++) {
        if (decoder->data_precision <= 8) samples[i] = row[i];
        else samples[i] = decoder->data_precision <= 12 ? (unsigned short)row12[i] : row16[i];
    }
}

/* Writes samples in one byte each, or in two with the higher first. */
static void write_samples(const unsigned short *samples, size_t count, int is_deep) {
    for (size_t i = 0; i < count; i++) {
        if (is_deep) putchar(samples[i] >> 8);
        putchar(samples[i] & 255);
    }
}

int main(int count, char **words) {
    struct jpeg_decompress_struct decoder;
    struct jpeg_error_mgr errors;
    FILE *file = count == 2 ? fopen(words[1], "rb") : NULL;
    if (!file) return 2;
    /* An error ends the program. */
    decoder.err = jpeg_std_error(&errors);
    jpeg_create_decompress(&decoder);
    jpeg_stdio_src(&decoder, file);
    jpeg_read_header(&decoder, TRUE);
    decoder.out_color_space = decoder.jpeg_color_space;
    jpeg_start_decompress(&decoder);
    int depth = decoder.output_components;
    size_t each = (size_t)decoder.output_width * depth, height = decoder.output_height;
    void *line = malloc(2 * each);
    unsigned short *samples = malloc(2 * each * height);
    if (!line || !samples || depth < 1 || depth > 4) return 2;
    for (size_t y = 0; y < height; y++) read_line(&decoder, line, samples + each * y, each);
    jpeg_finish_decompress(&decoder);
    printf("P7\nWIDTH %u\nHEIGHT %u\nDEPTH %d\nMAXVAL %d\nTUPLTYPE %s\nENDHDR\n",
           decoder.output_width, decoder.output_height, depth, (1 << decoder.data_precision) - 1,
           types[depth]);
    write_samples(samples, each * height, decoder.data_precision > 8);
    return 0;
}
