/* show FILE [WIDTH HEIGHT]: writes the picture that GdkPixbuf loads of a file, turned by its
 * orientation, as PPM, or fails; with a size, the picture of that size. Names the loaders that are
 * mapped, the density and how long the ICC profile is on the standard error output. */
#include <gdk-pixbuf/gdk-pixbuf.h>
#include <stdio.h>
#include <stdlib.h>
#include <string.h>

static void tell_loaders(void) {
    char line[4096], last[4096] = "";
    FILE *maps = fopen("/proc/self/maps", "r");
    while (maps && fgets(line, sizeof line, maps)) {
        char *name = strchr(line, '/');
        if (!name || (!strstr(name, "zaxbriar") && !strstr(name, "loaders")) || !strcmp(name, last))
            continue;
        strcpy(last, name);
        fputs(name, stderr);
    }
    if (maps) fclose(maps);
}

static const char *option(GdkPixbuf *pixbuf, const char *key, const char *otherwise) {
    const char *value = gdk_pixbuf_get_option(pixbuf, key);
    return value ? value : otherwise;
}

int main(int argc, char **argv) {
    GError *error = NULL;
    if (argc != 2 && argc != 4) return 2;
    GdkPixbuf *stored = argc == 2 ? gdk_pixbuf_new_from_file(argv[1], &error)
                                  : gdk_pixbuf_new_from_file_at_scale(
                                        argv[1], atoi(argv[2]), atoi(argv[3]), FALSE, &error);
    tell_loaders();
    if (!stored) return fprintf(stderr, "%s\n", error->message), 1;
    fprintf(stderr, "orientation %s, density %sx%s, profile of %zu digits\n",
            option(stored, "orientation", "1"), option(stored, "x-dpi", "none"),
            option(stored, "y-dpi", "none"), strlen(option(stored, "icc-profile", "")));
    GdkPixbuf *pixbuf = gdk_pixbuf_apply_embedded_orientation(stored);
    int width = gdk_pixbuf_get_width(pixbuf), height = gdk_pixbuf_get_height(pixbuf);
    int channels = gdk_pixbuf_get_n_channels(pixbuf);
    printf("P6\n%d %d\n255\n", width, height);
    for (int y = 0; y < height; y++)
        for (int x = 0; x < width; x++)
            fwrite(gdk_pixbuf_get_pixels(pixbuf) +
                       (size_t)y * (size_t)gdk_pixbuf_get_rowstride(pixbuf) +
                       (size_t)x * (size_t)channels,
                   3, 1, stdout);
    g_object_unref(pixbuf);
    g_object_unref(stored);
    return 0;
}
