/* show FILE: writes the picture that glycin loads of a file to standard output, as a PPM file, with
 * grey repeated. Where the environment has NO_SANDBOX, glycin starts its loader outside of its
 * sandbox. */
#include <glycin.h>
#include <stdio.h>
#include <stdlib.h>

int main(int count, char **words) {
    GError *error = NULL;
    if (count != 2) return 2;
    GlyLoader *loader = gly_loader_new(g_file_new_for_path(words[1]));
    if (getenv("NO_SANDBOX") != NULL)
        gly_loader_set_sandbox_selector(loader, GLY_SANDBOX_SELECTOR_NOT_SANDBOXED);
    GlyImage *image = gly_loader_load(loader, &error);
    GlyFrame *frame = image ? gly_image_next_frame(image, &error) : NULL;
    if (frame == NULL) {
        fprintf(stderr, "%s: %s\n", words[1], error->message);
        return 1;
    }
    GlyMemoryFormat format = gly_frame_get_memory_format(frame);
    if (format != GLY_MEMORY_G8 && format != GLY_MEMORY_R8G8B8) {
        fprintf(stderr, "%s: memory format %d\n", words[1], format);
        return 1;
    }
    size_t bytes = format == GLY_MEMORY_G8 ? 1 : 3;
    size_t width = gly_frame_get_width(frame), height = gly_frame_get_height(frame);
    size_t stride = gly_frame_get_stride(frame);
    const char *pixels = g_bytes_get_data(gly_frame_get_buf_bytes(frame), NULL);
    printf("P6\n%zu %zu\n255\n", width, height);
    for (size_t row = 0; row < height; row++)
        for (size_t sample = 0; sample < 3 * width; sample++)
            putchar(pixels[row * stride + (bytes == 1 ? sample / 3 : sample)]);
    return 0;
}
