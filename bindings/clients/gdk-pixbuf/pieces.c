/* pieces FILE BYTES MILLISECONDS [WIDTH HEIGHT]: loads a file by pieces of so many bytes, after
 * each of which so many milliseconds pass, and writes the picture as its last update has left it,
 * as PPM; with a size, the picture of that size. Tells on the standard error output after how many
 * bytes the picture was prepared, and at how many it was updated. */
#include <gdk-pixbuf/gdk-pixbuf.h>
#include <stdio.h>
#include <stdlib.h>

static gsize fed;
static int want_width, want_height;
static GdkPixbuf *last;

static void size_prepared(GdkPixbufLoader *loader, int width, int height) {
    fprintf(stderr, "%d by %d after %zu\n", width, height, fed);
    if (want_width) gdk_pixbuf_loader_set_size(loader, want_width, want_height);
}

static void area_prepared(GdkPixbufLoader *loader) {
    GdkPixbuf *pixbuf = gdk_pixbuf_loader_get_pixbuf(loader);
    fprintf(stderr, "prepared after %zu: grey %d, dpi %s, comment %s\n", fed,
            gdk_pixbuf_get_pixels(pixbuf)[0], gdk_pixbuf_get_option(pixbuf, "x-dpi"),
            gdk_pixbuf_get_option(pixbuf, "comment"));
}

static void area_updated(GdkPixbufLoader *loader, int x, int y, int width, int height) {
    fprintf(stderr, "updated after %zu: %d %d %d %d\n", fed, x, y, width, height);
    if (last) g_object_unref(last);
    last = gdk_pixbuf_copy(gdk_pixbuf_loader_get_pixbuf(loader));
}

static void write_picture(GdkPixbuf *pixbuf) {
    int width = gdk_pixbuf_get_width(pixbuf), height = gdk_pixbuf_get_height(pixbuf);
    int channels = gdk_pixbuf_get_n_channels(pixbuf);
    printf("P6\n%d %d\n255\n", width, height);
    for (int y = 0; y < height; y++)
        for (int x = 0; x < width; x++)
            fwrite(gdk_pixbuf_get_pixels(pixbuf) +
                       (size_t)y * (size_t)gdk_pixbuf_get_rowstride(pixbuf) +
                       (size_t)x * (size_t)channels,
                   3, 1, stdout);
}

int main(int argc, char **argv) {
    GError *error = NULL;
    gchar *bytes;
    gsize size;
    if (argc != 4 && argc != 6) return 2;
    if (!g_file_get_contents(argv[1], &bytes, &size, &error)) return 2;
    gsize piece = (gsize)atol(argv[2]);
    want_width = argc > 4 ? atoi(argv[4]) : 0;
    want_height = argc > 4 ? atoi(argv[5]) : 0;
    GdkPixbufLoader *loader = gdk_pixbuf_loader_new();
    g_signal_connect(loader, "size-prepared", G_CALLBACK(size_prepared), NULL);
    g_signal_connect(loader, "area-prepared", G_CALLBACK(area_prepared), NULL);
    g_signal_connect(loader, "area-updated", G_CALLBACK(area_updated), NULL);
    gboolean is_fine = TRUE;
    for (gsize at = 0; is_fine && at < size; at += piece) {
        gsize count = MIN(piece, size - at);
        fed = at + count;
        is_fine = gdk_pixbuf_loader_write(loader, (guchar *)bytes + at, count, &error);
        g_usleep((gulong)atol(argv[3]) * 1000);
    }
    if (!gdk_pixbuf_loader_close(loader, is_fine ? &error : NULL)) is_fine = FALSE;
    if (!is_fine) return fprintf(stderr, "%s\n", error->message), 1;
    write_picture(last);
    g_object_unref(last);
    g_object_unref(loader);
    g_free(bytes);
    return 0;
}
