/* save FROM TO: loads a picture and writes it as the ending of TO says, as feh and scrot do. */
#include <Imlib2.h>
#include <stdio.h>
#include <string.h>

int main(int argc, char **argv) {
    Imlib_Load_Error error = IMLIB_LOAD_ERROR_NONE;
    Imlib_Image image = argc == 3 ? imlib_load_image_with_error_return(argv[1], &error) : NULL;
    if (!image) return fprintf(stderr, "%s isn't loaded: error %d\n", argv[1], error), 1;
    imlib_context_set_image(image);
    imlib_image_set_format(strrchr(argv[2], '.') + 1);
    imlib_save_image_with_error_return(argv[2], &error);
    imlib_free_image();
    if (error) return fprintf(stderr, "%s isn't written: error %d\n", argv[2], error), 1;
    return 0;
}
