/* show FILE: the picture that imlib2 loads, as PPM, and on standard error the files of imlib2's
 * loaders and of libjpeg that are mapped. */
#include <Imlib2.h>
#include <stdio.h>
#include <string.h>

static void mapped_files(void) {
    char line[4096], last[4096] = "";
    FILE *maps = fopen("/proc/self/maps", "r");
    while (maps && fgets(line, sizeof line, maps)) {
        char *name = strchr(line, '/');
        if (name && strcmp(name, last) && (strstr(name, "/jpeg.so") || strstr(name, "libjpeg")))
            fputs(strcpy(last, name), stderr);
    }
    if (maps) fclose(maps);
}

int main(int argc, char **argv) {
    int error;
    Imlib_Image image = argc == 2 ? imlib_load_image_with_errno_return(argv[1], &error) : NULL;
    if (!image) return 1;
    imlib_context_set_image(image);
    int width = imlib_image_get_width(), height = imlib_image_get_height();
    const uint32_t *pixels = imlib_image_get_data_for_reading_only();
    printf("P6\n%d %d\n255\n", width, height);
    for (size_t i = 0; i < (size_t)width * (size_t)height; i++) {
        putchar(pixels[i] >> 16 & 255);
        putchar(pixels[i] >> 8 & 255);
        putchar(pixels[i] & 255);
    }
    mapped_files();
    imlib_free_image();
    return 0;
}
