/* steps FILE: prints in how many steps imlib2 shows a file while it is loaded. Each begins where
 * the one before ended, its pixels are those of the whole picture, and the last one ends that. A
 * load that is broken off after the first step gives the lines of this step, and grey below. */
#include <Imlib2.h>
#include <limits.h>
#include <stdio.h>
#include <stdlib.h>
#include <string.h>

static uint32_t *whole;
static int steps, shown, most_steps, faults;

static int progress(Imlib_Image image, char percent, int x, int y, int width, int height) {
    size_t from = (size_t)y * (size_t)width, size = (size_t)width * (size_t)height;
    imlib_context_set_image(image);
    const uint32_t *pixels = imlib_image_get_data_for_reading_only();
    int is_last = y + height == imlib_image_get_height();
    faults += x != 0 || y != shown || (percent == 100) != is_last ||
              memcmp(pixels + from, whole + from, size * sizeof *whole);
    shown = y + height;
    return ++steps < most_steps;
}

/* Loads a file anew, in `most` steps at most. */
static Imlib_Image load(const char *file, int most) {
    int error;
    steps = shown = 0;
    most_steps = most;
    Imlib_Image image = imlib_load_image_with_errno_return(file, &error);
    if (!image) exit(1);
    imlib_context_set_image(image);
    return image;
}

int main(int argc, char **argv) {
    if (argc != 2) return 2;
    imlib_set_cache_size(0);
    load(argv[1], 0);
    size_t width = (size_t)imlib_image_get_width(), size = width * (size_t)imlib_image_get_height();
    whole = malloc(size * sizeof *whole);
    if (!whole) return 1;
    memcpy(whole, imlib_image_get_data_for_reading_only(), size * sizeof *whole);
    imlib_free_image_and_decache();

    imlib_context_set_progress_function(progress);
    imlib_context_set_progress_granularity(0);
    load(argv[1], 1);
    const uint32_t *pixels = imlib_image_get_data_for_reading_only();
    for (size_t i = 0; i < size; i++)
        faults += pixels[i] != (i < width * (size_t)shown ? whole[i] : 0xFF808080);
    imlib_free_image_and_decache();
    load(argv[1], INT_MAX);
    printf("%d steps\n", steps);
    return faults != 0 || (size_t)shown * width != size;
}
