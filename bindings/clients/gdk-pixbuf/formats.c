/* formats FILE OUTPUT: what programs do with a file's format after they have loaded it: they save
 * in it, to OUTPUT, and make loaders by its name and by its MIME type; four threads at once load
 * and save. Prints what each gives. */
#include <gdk-pixbuf/gdk-pixbuf.h>
#include <stdio.h>
#include <string.h>

static const char *file_name;

/* Loads and saves, and compares with what was saved first. */
static gpointer load_and_save(gpointer saved) {
    for (int i = 0; i < 20; i++) {
        char *bytes = NULL;
        gsize size = 0;
        GdkPixbuf *pixbuf = gdk_pixbuf_new_from_file(file_name, NULL);
        if (!pixbuf || !gdk_pixbuf_save_to_buffer(pixbuf, &bytes, &size, "jpeg", NULL, "quality",
                                                  "80", NULL))
            return "fails";
        GBytes *one = g_bytes_new_take(bytes, size);
        if (!g_bytes_equal(one, saved)) return "saves something else";
        g_bytes_unref(one);
        g_object_unref(pixbuf);
    }
    return NULL;
}

static void in_threads(GdkPixbuf *pixbuf) {
    GThread *threads[4];
    char *bytes = NULL;
    const char *fault = NULL;
    gsize size = 0;
    gdk_pixbuf_save_to_buffer(pixbuf, &bytes, &size, "jpeg", NULL, "quality", "80", NULL);
    GBytes *saved = g_bytes_new_take(bytes, size);
    for (int i = 0; i < 4; i++) threads[i] = g_thread_new("saver", load_and_save, saved);
    for (int i = 0; i < 4; i++) {
        const char *text = g_thread_join(threads[i]);
        if (text) fault = text;
    }
    printf("four threads: %s\n", fault ? fault : "load and save");
    g_bytes_unref(saved);
}

/* Which decoder a loader has: zaxbriar's texts begin with its name. */
static void tell_loader(const char *by, GdkPixbufLoader *loader) {
    static const guchar damaged[] = "\xff\xd8\xff\xd9 no picture";
    GError *error = NULL;
    if (gdk_pixbuf_loader_write(loader, damaged, sizeof damaged, &error))
        gdk_pixbuf_loader_close(loader, &error);
    else gdk_pixbuf_loader_close(loader, NULL);
    gboolean is_ours = error && g_str_has_prefix(error->message, "zaxbriar: ");
    printf("loader by %s: %s\n", by, is_ours ? "zaxbriar" : "another");
    g_clear_error(&error);
    g_object_unref(loader);
}

int main(int argc, char **argv) {
    GError *error = NULL;
    if (argc != 3) return 2;
    file_name = argv[1];
    GdkPixbufFormat *format = gdk_pixbuf_get_file_info(file_name, NULL, NULL);
    GdkPixbuf *pixbuf = gdk_pixbuf_new_from_file(file_name, &error);
    if (!pixbuf || !format) return fprintf(stderr, "%s\n", error ? error->message : "?"), 1;
    char *name = gdk_pixbuf_format_get_name(format);
    const char *comment = gdk_pixbuf_get_option(pixbuf, "comment");
    printf("format %s, writable %d, quality %d; %d channels; comment %s\n", name,
           gdk_pixbuf_format_is_writable(format),
           gdk_pixbuf_format_is_save_option_supported(format, "quality"),
           gdk_pixbuf_get_n_channels(pixbuf), comment ? comment : "none");
    if (!gdk_pixbuf_save(pixbuf, argv[2], name, &error, "quality", "80", NULL))
        printf("isn't saved: %s\n", error->message);
    in_threads(pixbuf);
    tell_loader("name", gdk_pixbuf_loader_new_with_type(name, NULL));
    tell_loader("MIME type", gdk_pixbuf_loader_new_with_mime_type("image/jpeg", NULL));
    g_free(name);
    g_object_unref(pixbuf);
    return 0;
}
