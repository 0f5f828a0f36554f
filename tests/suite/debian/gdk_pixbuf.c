/* Writes the picture that GdkPixbuf makes of a file, as PPM: gdk_pixbuf FILE */
#include <gdk-pixbuf/gdk-pixbuf.h>
#include <stdio.h>

int main(int count, char **words)
{
    GdkPixbuf *picture = count == 2 ? gdk_pixbuf_new_from_file(words[1], NULL) : NULL;
    if (picture == NULL || gdk_pixbuf_get_n_channels(picture) != 3)
        return 1;
    int width = gdk_pixbuf_get_width(picture), height = gdk_pixbuf_get_height(picture);
    printf("P6\n%d %d\n255\n", width, height);
    for (int row = 0; row < height; row++)
        fwrite(gdk_pixbuf_read_pixels(picture) + (size_t)row * gdk_pixbuf_get_rowstride(picture), 3,
               (size_t)width, stdout);
    g_object_unref(picture);
    return 0;
}
