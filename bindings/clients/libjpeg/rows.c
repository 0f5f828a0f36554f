/* rows LIST: for each file that LIST names, the rows that jpeg_read_scanlines gives in all colours
 * and at each scale are the library's own; of a damaged file those of its part before the fault,
 * with a warning. Run it with ZAXBRIAR_ONLY=1, so that nothing is handed on. */
#include "common.h"

#include <zaxbriar.h>

static long files, pictures, partial, refused, faults;
static const char *name;

static const struct {
    J_COLOR_SPACE colours;
    int samples, red, green, blue;
} formats[] = {
    {JCS_RGB, 3, 0, 1, 2},      {JCS_EXT_RGB, 3, 0, 1, 2},  {JCS_EXT_RGBX, 4, 0, 1, 2},
    {JCS_EXT_BGR, 3, 2, 1, 0},  {JCS_EXT_BGRX, 4, 2, 1, 0}, {JCS_EXT_XBGR, 4, 3, 2, 1},
    {JCS_EXT_XRGB, 4, 1, 2, 3}, {JCS_EXT_RGBA, 4, 0, 1, 2}, {JCS_EXT_BGRA, 4, 2, 1, 0},
    {JCS_EXT_ABGR, 4, 3, 2, 1}, {JCS_EXT_ARGB, 4, 1, 2, 3},
};

static void fault(const char *what, int colours, int scale) {
    printf("%s: %s (colours %d, scale 1/%d)\n", name, what, colours, scale);
    faults++;
}

/* Reads all rows, some at a time. */
static void read_all(j_decompress_ptr cinfo, unsigned char *pixels) {
    size_t bytes = cinfo->output_width * (size_t)cinfo->output_components;
    while (cinfo->output_scanline < cinfo->output_height) {
        JSAMPROW rows[5];
        JDIMENSION count = 1 + cinfo->output_scanline % 5;
        for (JDIMENSION i = 0; i < count; i++)
            rows[i] = pixels + (cinfo->output_scanline + i) * bytes;
        jpeg_read_scanlines(cinfo, rows, count);
    }
}

/* The rows in some colours, or null where they are refused; whether there was a warning. */
static unsigned char *rows_of(J_COLOR_SPACE colours, int scale, int *samples, long *warnings) {
    struct jpeg_decompress_struct cinfo;
    struct errors errors;
    static unsigned char *pixels;
    pixels = NULL;
    create(&cinfo, &errors);
    if (setjmp(errors.back)) {
        char text[JMSG_LENGTH_MAX];
        cinfo.err->format_message((j_common_ptr)&cinfo, text);
        if (!text[0]) fault("no text", colours, scale);
        free(pixels);
        pixels = NULL;
    } else {
        jpeg_mem_src(&cinfo, file, size);
        jpeg_read_header(&cinfo, TRUE);
        if (colours != JCS_UNKNOWN) cinfo.out_color_space = colours;
        cinfo.scale_denom = (unsigned)scale;
        jpeg_start_decompress(&cinfo);
        size_t room = cinfo.output_width * (size_t)cinfo.output_components *
                      (cinfo.output_height + (size_t)4);
        pixels = malloc(room);
        if (!pixels) exit(2);
        read_all(&cinfo, pixels);
        *samples = cinfo.output_components;
        jpeg_finish_decompress(&cinfo);
        *warnings = errors.manager.num_warnings;
    }
    jpeg_destroy_decompress(&cinfo);
    return pixels;
}

/* Whether there is the header of a scan. Without one libjpeg shows nothing. */
static int has_scan(void) {
    zaxbriar_segment segment = {.end = 0};
    for (size_t at = 0; segment.marker != 0xDA; at += segment.end)
        if (zaxbriar_next_segment(file + at, size - at, &segment) != ZAXBRIAR_OK) return 0;
    return 1;
}

/* Whether the file has as many components as its colours. */
static int fits(const zaxbriar_picture *picture) {
    int has_three = picture->transform == ZAXBRIAR_TRANSFORM_RGB ||
                    picture->transform == ZAXBRIAR_TRANSFORM_YCBCR;
    return picture->transform <= ZAXBRIAR_TRANSFORM_NONE ||
           picture->components == (has_three ? 3 : 4);
}

/* The library's own picture, or null. */
static unsigned char *own(const zaxbriar_options *options, zaxbriar_picture *picture) {
    if (zaxbriar_read_info(file, size, options, picture) != ZAXBRIAR_OK || !has_scan() ||
        !fits(picture))
        return NULL;
    size_t room = picture->size;
    unsigned char *pixels = malloc(room);
    if (!pixels) exit(2);
    zaxbriar_result answer = zaxbriar_decode(file, size, options, pixels, room, picture);
    if (answer != ZAXBRIAR_OK)
        answer = zaxbriar_decode_partial(file, size, options, pixels, room, picture);
    if (answer == ZAXBRIAR_OK || answer == ZAXBRIAR_PARTIAL) return pixels;
    free(pixels);
    return NULL;
}

/* Whether the rows are there just if the library's own are, and the warning if there is a fault. */
static int agree(const unsigned char *rows, const unsigned char *wanted,
                 const zaxbriar_picture *picture, long warnings, int colours, int scale) {
    if (!rows != !wanted) fault(rows ? "not refused" : "refused", colours, scale);
    if (!rows || !wanted) return 0;
    if ((picture->fault != 0) != (warnings != 0)) fault("warnings", colours, scale);
    partial += picture->fault != 0;
    pictures++;
    return 1;
}

static void in_format(int format, int scale) {
    zaxbriar_options options = {.layout = ZAXBRIAR_RGB, .scale = (uint8_t)scale};
    zaxbriar_picture picture;
    int samples = 0;
    long warnings = 0;
    unsigned char *wanted = own(&options, &picture);
    unsigned char *rows = rows_of(formats[format].colours, scale, &samples, &warnings);
    if (picture.components == 4) {
        if (rows) fault("colours of CMYK", formats[format].colours, scale);
    } else if (agree(rows, wanted, &picture, warnings, formats[format].colours, scale)) {
        size_t count = picture.width * (size_t)picture.height;
        for (size_t i = 0; i < count; i++) {
            const unsigned char *pixel = rows + i * (size_t)formats[format].samples;
            if (samples != formats[format].samples ||
                pixel[formats[format].red] != wanted[3 * i] ||
                pixel[formats[format].green] != wanted[3 * i + 1] ||
                pixel[formats[format].blue] != wanted[3 * i + 2]) {
                fault("another pixel", formats[format].colours, scale);
                break;
            }
        }
    }
    free(wanted);
    free(rows);
}

/* In grey, or as the components are, or as the file is. */
static void in_samples(J_COLOR_SPACE colours, int scale, const zaxbriar_options *options,
                       int is_planar, int complement) {
    zaxbriar_picture picture;
    int samples = 0;
    long warnings = 0;
    unsigned char *wanted = own(options, &picture);
    unsigned char *rows = rows_of(colours, scale, &samples, &warnings);
    if (agree(rows, wanted, &picture, warnings, colours, scale))
        for (size_t i = 0; i < picture.width * (size_t)picture.height * (size_t)samples; i++) {
            size_t x = i / (size_t)samples % picture.width;
            size_t line = i / (size_t)samples / picture.width * picture.row_bytes;
            size_t at = is_planar ? line + i % (size_t)samples * picture.width + x : i;
            if (rows[i] != (wanted[at] ^ complement)) {
                fault("another sample", colours, scale);
                break;
            }
        }
    free(wanted);
    free(rows);
}

static void of_file(void) {
    zaxbriar_picture picture;
    int samples;
    long warnings;
    files++;
    if (zaxbriar_read_info(file, size, NULL, &picture) != ZAXBRIAR_OK) {
        if (rows_of(JCS_UNKNOWN, 1, &samples, &warnings)) fault("not refused", 0, 1);
        refused++;
        return;
    }
    int is_lossless = picture.process == ZAXBRIAR_LOSSLESS;
    for (int scale = 1; scale <= (is_lossless ? 1 : 8); scale *= 2) {
        zaxbriar_options options = {.layout = ZAXBRIAR_GREY, .scale = (uint8_t)scale};
        for (unsigned i = 0; i < sizeof formats / sizeof *formats; i++) in_format((int)i, scale);
        if (is_lossless && picture.components == 4) continue;
        if (picture.components == 1 || is_lossless ||
            picture.transform == ZAXBRIAR_TRANSFORM_RGB)
            in_samples(JCS_GRAYSCALE, scale, &options, 0, 0);
        options.layout = ZAXBRIAR_AS_STORED;
        if (picture.transform == ZAXBRIAR_TRANSFORM_YCCK)
            in_samples(JCS_CMYK, scale, &options, 0, 255);
        options.transform = ZAXBRIAR_TRANSFORM_NONE;
        if (picture.transform == ZAXBRIAR_TRANSFORM_YCBCR)
            in_samples(JCS_GRAYSCALE, scale, &options, 1, 0);
        if (picture.transform == ZAXBRIAR_TRANSFORM_YCBCR)
            in_samples(JCS_YCbCr, scale, &options, 1, 0);
        if (picture.transform == ZAXBRIAR_TRANSFORM_YCCK)
            in_samples(JCS_YCCK, scale, &options, 1, 0);
        if (picture.transform == ZAXBRIAR_TRANSFORM_CMYK)
            in_samples(JCS_CMYK, scale, &options, 1, 0);
    }
}

int main(int argc, char **argv) {
    char line[4096];
    FILE *list = argc == 2 ? fopen(argv[1], "r") : NULL;
    if (!list) return 2;
    while (fgets(line, sizeof line, list)) {
        line[strcspn(line, "\n")] = 0;
        name = line;
        read_file(name);
        of_file();
    }
    fclose(list);
    printf("rows: %ld files, %ld of them refused, %ld pictures, %ld of them with a warning; "
           "%ld faults\n",
           files, refused, pictures, partial, faults);
    return faults != 0;
}
