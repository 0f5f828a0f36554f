/* calls LIST: for each file that LIST names, the picture in every format of RGB, with a pitch and
 * without, from the top and from the bottom, and at each scale has the pixels of the library's own
 * RGB, and the bytes between the lines are unchanged; in grey it is the library's own, and in CMYK
 * its complement, or refused where the file doesn't store that. */
#include <stdio.h>
#include <stdlib.h>
#include <string.h>
#include <turbojpeg.h>
#include <zaxbriar.h>

static long files, pictures, refused, faults;
static unsigned char jpeg[1 << 22];

static const struct {
    int format, bytes, red, green, blue;
} formats[] = {
    {TJPF_RGB, 3, 0, 1, 2},  {TJPF_BGR, 3, 2, 1, 0},  {TJPF_RGBX, 4, 0, 1, 2},
    {TJPF_BGRX, 4, 2, 1, 0}, {TJPF_XBGR, 4, 3, 2, 1}, {TJPF_XRGB, 4, 1, 2, 3},
    {TJPF_RGBA, 4, 0, 1, 2}, {TJPF_BGRA, 4, 2, 1, 0}, {TJPF_ABGR, 4, 3, 2, 1},
    {TJPF_ARGB, 4, 1, 2, 3},
};

static void fault(const char *name, const char *what) {
    printf("%s: %s\n", name, what);
    faults++;
}

static void in_format(tjhandle handle, const char *name, size_t size, int which, int width,
                      int height, const unsigned char *wanted, size_t wanted_row) {
    for (int flags = 0; flags <= TJFLAG_BOTTOMUP; flags += TJFLAG_BOTTOMUP) {
        int pitch = width * formats[which].bytes + (which % 2 ? 7 : 0);
        unsigned char *pixels = calloc((size_t)pitch, (size_t)height);
        if (!pixels || tjDecompress2(handle, jpeg, size, pixels, width, which % 2 ? pitch : 0,
                                     height, formats[which].format, flags))
            fault(name, tjGetErrorStr2(handle));
        for (int y = 0; pixels && y < height; y++) {
            for (int i = width * formats[which].bytes; i < pitch; i++)
                if (pixels[(size_t)y * (size_t)pitch + (size_t)i]) fault(name, "a gap is written");
            for (int x = 0; x < width; x++) {
                const unsigned char *from =
                    wanted + (size_t)(flags ? height - 1 - y : y) * wanted_row + 3 * (size_t)x;
                const unsigned char *pixel =
                    pixels + (size_t)y * (size_t)pitch + (size_t)(x * formats[which].bytes);
                if (pixel[formats[which].red] != from[0] ||
                    pixel[formats[which].green] != from[1] ||
                    pixel[formats[which].blue] != from[2]) {
                    fault(name, "another pixel");
                    x = width;
                    y = height;
                }
            }
        }
        free(pixels);
        pictures++;
    }
}

/* In grey, or in the colours of CMYK, at full size. */
static void in_layout(tjhandle handle, const char *name, size_t size, int format) {
    zaxbriar_options options = {.layout = format == TJPF_GRAY ? ZAXBRIAR_GREY : ZAXBRIAR_AS_STORED};
    zaxbriar_picture picture;
    if (zaxbriar_read_info(jpeg, size, &options, &picture) != ZAXBRIAR_OK) return;
    int is_given = format == TJPF_GRAY || (picture.components == 4 && picture.sample_bytes == 1);
    unsigned char *wanted = malloc(picture.size), *pixels = malloc(picture.size);
    if (zaxbriar_decode(jpeg, size, &options, wanted, picture.size, &picture) == ZAXBRIAR_OK) {
        int answer = tjDecompress2(handle, jpeg, size, pixels, 0, 0, 0, format, 0);
        if (is_given == (answer != 0)) fault(name, "grey or CMYK is answered otherwise");
        for (size_t i = 0; !answer && i < picture.size; i++)
            if (pixels[i] != (format == TJPF_GRAY ? wanted[i] : wanted[i] ^ 255)) {
                fault(name, "another sample of grey or CMYK");
                break;
            }
        pictures += !answer;
    }
    free(wanted);
    free(pixels);
}

static void of_file(const char *name, size_t size) {
    int width, height, sampling, colours, count;
    tjhandle handle = tjInitDecompress();
    tjscalingfactor *factors = tjGetScalingFactors(&count);
    int answer = tjDecompressHeader3(handle, jpeg, size, &width, &height, &sampling, &colours);
    zaxbriar_picture whole, picture;
    if ((answer == 0) != (zaxbriar_read_info(jpeg, size, NULL, &whole) == ZAXBRIAR_OK))
        fault(name, "another header");
    for (int i = 0; answer == 0 && i < count; i++) {
        int scaled_width = TJSCALED(width, factors[i]),
            scaled_height = TJSCALED(height, factors[i]);
        zaxbriar_options options = {.layout = ZAXBRIAR_RGB};
        if (i && whole.process == ZAXBRIAR_LOSSLESS) break;
        /* of two scales of the same size the greater is taken */
        if (i && scaled_width == TJSCALED(width, factors[i - 1]) &&
            scaled_height == TJSCALED(height, factors[i - 1]))
            continue;
        options.scale = (uint8_t)factors[i].denom;
        if (zaxbriar_read_info(jpeg, size, &options, &picture) != ZAXBRIAR_OK)
            fault(name, picture.text);
        unsigned char *wanted = malloc(picture.size);
        if (zaxbriar_decode(jpeg, size, &options, wanted, picture.size, &picture) != ZAXBRIAR_OK) {
            if (!tjDecompress2(handle, jpeg, size, wanted, 0, 0, 0, TJPF_RGB, 0))
                fault(name, "not refused");
            refused++;
            free(wanted);
            break;
        }
        if ((int)picture.width != scaled_width || (int)picture.height != scaled_height)
            fault(name, "another size");
        else
            for (unsigned which = 0; which < sizeof formats / sizeof *formats; which++)
                in_format(handle, name, size, (int)which, scaled_width, scaled_height, wanted,
                          picture.row_bytes);
        free(wanted);
    }
    in_layout(handle, name, size, TJPF_GRAY);
    in_layout(handle, name, size, TJPF_CMYK);
    if (answer) refused++;
    if (answer && !tjGetErrorStr2(handle)[0]) fault(name, "no text");
    tjDestroy(handle);
    files++;
}

int main(int argc, char **argv) {
    char name[4096];
    FILE *list = argc == 2 ? fopen(argv[1], "r") : NULL;
    if (!list) return 2;
    while (fgets(name, sizeof name, list)) {
        name[strcspn(name, "\n")] = 0;
        FILE *file = fopen(name, "rb");
        if (!file) return 2;
        size_t size = fread(jpeg, 1, sizeof jpeg, file);
        fclose(file);
        of_file(name, size);
    }
    fclose(list);
    printf("turbojpeg: %ld files, %ld of them refused, %ld pictures; %ld faults\n", files, refused,
           pictures, faults);
    return faults != 0;
}
