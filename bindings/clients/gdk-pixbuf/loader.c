/* A GdkPixbuf loader for JPEG files over zaxbriar. */
#define GDK_PIXBUF_ENABLE_BACKEND
#include <gdk-pixbuf/gdk-pixbuf.h>
#include <stdlib.h>
#include <string.h>
#include <zaxbriar.h>

enum {
    /* How many times the scans of a file may code the blocks of its picture. */
    MAX_PASSES = 100,
    /* How many microseconds pass at least before a picture is shown that isn't whole. */
    PAUSE = 100000
};

/* A file that is being loaded: the bytes that have come, with how many of them the header is read
 * or the whole picture shown next, and the size that the program wants, if it was asked. Then the
 * picture, how it is decoded, and what shows it while bytes come: how many it was fed, and when it
 * shows it next at the earliest. Of a picture that is shown line by line, the samples of a pixel as
 * they are stored, otherwise 0, and how many lines there are by now. */
typedef struct {
    GdkPixbufModuleSizeFunc size_known;
    GdkPixbufModulePreparedFunc prepared;
    GdkPixbufModuleUpdatedFunc updated;
    gpointer loader;
    uint8_t *jpeg;
    size_t size, room, next;
    int width, height;
    gboolean is_asked;
    GdkPixbuf *pixbuf;
    zaxbriar_options options;
    zaxbriar_fed *fed;
    size_t fed_size;
    gint64 time;
    uint8_t components;
    int lines;
} load;

static gboolean refuse(GError **error, zaxbriar_result answer, const char *text) {
    gboolean is_memory = answer == ZAXBRIAR_NO_MEMORY;
    g_set_error(error, GDK_PIXBUF_ERROR,
                is_memory                          ? GDK_PIXBUF_ERROR_INSUFFICIENT_MEMORY
                : answer == ZAXBRIAR_UNSUPPORTED ? GDK_PIXBUF_ERROR_UNKNOWN_TYPE
                                                   : GDK_PIXBUF_ERROR_CORRUPT_IMAGE,
                "zaxbriar: %s", text);
    return FALSE;
}

/* Reads the header, and asks for the size that the program wants. */
static gboolean describe(load *state, GError **error) {
    zaxbriar_picture picture;
    zaxbriar_result answer = zaxbriar_read_info(state->jpeg, state->size, NULL, &picture);
    if (answer != ZAXBRIAR_OK) return refuse(error, answer, picture.text);
    state->width = (int)picture.width;
    state->height = (int)picture.height;
    state->is_asked = TRUE;
    if (state->size_known) state->size_known(&state->width, &state->height, state->loader);
    if (state->width <= 0 || state->height <= 0) {
        g_set_error_literal(error, GDK_PIXBUF_ERROR, GDK_PIXBUF_ERROR_FAILED,
                            "zaxbriar: a size of 0 was asked for");
        return FALSE;
    }
    return TRUE;
}

/* Describes the picture at the least scale that is as large as the program wants, without the
 * columns and rows of which the picture has only a part. */
static gboolean choose_scale(load *state, zaxbriar_picture *picture, GError **error) {
    uint32_t width = (uint32_t)state->width, height = (uint32_t)state->height;
    uint8_t scale = 8;
    zaxbriar_result answer = zaxbriar_read_info(state->jpeg, state->size, NULL, picture);
    while (scale > 1 && (picture->width / scale < width || picture->height / scale < height))
        scale /= 2;
    /* (with a scale, zaxbriar_fed_show reads all bytes each time) */
    if (scale > 1) state->options.scale = scale;
    if (answer == ZAXBRIAR_OK)
        answer = zaxbriar_read_info(state->jpeg, state->size, &state->options, picture);
    return answer == ZAXBRIAR_OK || refuse(error, answer, picture->text);
}

/* Decodes a picture, or the part of one before a fault, as GdkPixbuf's own loader does. */
static gboolean decode(const load *state, GError **error) {
    zaxbriar_picture picture;
    guint room;
    guchar *pixels = gdk_pixbuf_get_pixels_with_length(state->pixbuf, &room);
    zaxbriar_result answer =
        zaxbriar_decode(state->jpeg, state->size, &state->options, pixels, room, &picture);
    if (answer == ZAXBRIAR_MALFORMED || answer == ZAXBRIAR_UNSUPPORTED ||
        answer == ZAXBRIAR_TRUNCATED || answer == ZAXBRIAR_TOO_MANY_PASSES)
        answer = zaxbriar_decode_partial(state->jpeg, state->size, &state->options, pixels, room,
                                         &picture);
    if (answer == ZAXBRIAR_OK || answer == ZAXBRIAR_PARTIAL) return TRUE;
    return refuse(error, answer, picture.text);
}

static void set_number(GdkPixbuf *pixbuf, const char *key, int number) {
    char text[12];
    g_snprintf(text, sizeof text, "%d", number);
    gdk_pixbuf_set_option(pixbuf, key, text);
}

/* Finds the first segment of a kind, no later than the first scan, and returns its payload, or a
 * null pointer if there is none by now. */
static const uint8_t *find_segment(const load *state, uint8_t marker, size_t *size) {
    zaxbriar_segment segment = {0};
    size_t at = 0;
    while (segment.marker != 0xDA && segment.marker != 0xD9 &&
           zaxbriar_next_segment(state->jpeg + at, state->size - at, &segment) == ZAXBRIAR_OK) {
        if (segment.marker == marker) {
            *size = segment.size;
            return state->jpeg + at + segment.offset;
        }
        at += segment.end;
    }
    return NULL;
}

/* Sets the text of the first comment before the first scan, if there is one by now. */
static void set_comment(const load *state) {
    size_t size;
    const uint8_t *comment = find_segment(state, 0xFE, &size);
    if (!comment) return;
    char *text = g_strndup((const char *)comment, size);
    gdk_pixbuf_set_option(state->pixbuf, "comment", text);
    g_free(text);
}

/* Sets the options that GdkPixbuf's own loader sets. */
static void set_options(const load *state, const zaxbriar_picture *picture) {
    GdkPixbuf *pixbuf = state->pixbuf;
    double per_inch = picture->density_unit == ZAXBRIAR_PER_CENTIMETRE ? 2.54 : 1;
    size_t length = 0;
    set_comment(state);
    if (picture->orientation > 1) set_number(pixbuf, "orientation", picture->orientation);
    if (picture->density_unit == ZAXBRIAR_PER_INCH ||
        picture->density_unit == ZAXBRIAR_PER_CENTIMETRE) {
        set_number(pixbuf, "x-dpi", (int)(picture->horizontal_density * per_inch + 0.5));
        set_number(pixbuf, "y-dpi", (int)(picture->vertical_density * per_inch + 0.5));
    }
    if (zaxbriar_metadata(state->jpeg, state->size, ZAXBRIAR_ICC, NULL, 0, &length) !=
        ZAXBRIAR_NO_ROOM)
        return;
    guchar *profile = g_try_malloc(length);
    if (profile && zaxbriar_metadata(state->jpeg, state->size, ZAXBRIAR_ICC, profile, length,
                                     NULL) == ZAXBRIAR_OK) {
        char *text = g_base64_encode(profile, length);
        gdk_pixbuf_set_option(pixbuf, "icc-profile", text);
        g_free(text);
    }
    g_free(profile);
}

static void release(guchar *pixels, gpointer unused) {
    (void)unused;
    g_free(pixels);
}

/* A picture of zeros. (The system takes memory for a large one where it is written, which here is
 * as late as with the bytes that gdk_pixbuf_new leaves as they are.) */
static GdkPixbuf *new_pixbuf(gboolean has_alpha, int width, int height) {
    int stride = (width * (has_alpha ? 4 : 3) + 3) / 4 * 4;
    guchar *pixels = g_try_malloc0_n((gsize)height, (gsize)stride);
    if (!pixels) return NULL;
    return gdk_pixbuf_new_from_data(pixels, GDK_COLORSPACE_RGB, has_alpha, 8, width, height,
                                    stride, release, NULL);
}

/* Whether a picture may have lines to show while its bytes come. (Other than sequential ones have
 * none before their end, and the library gives none at a scale.) */
static gboolean has_lines(const load *state, const zaxbriar_picture *picture) {
    gboolean is_known =
        picture->format == ZAXBRIAR_FORMAT_GREY8 || picture->format == ZAXBRIAR_FORMAT_RGB;
    return is_known && picture->precision == 8 && picture->sample_bytes == 1 &&
           picture->process == ZAXBRIAR_SEQUENTIAL && !state->options.scale;
}

/* Makes the picture that the program gets, and gives it. */
static gboolean prepare(load *state, GError **error) {
    zaxbriar_picture picture;
    state->options = (zaxbriar_options){.layout = ZAXBRIAR_RGB, .max_passes = MAX_PASSES};
    if (!choose_scale(state, &picture, error)) return FALSE;
    /* (GdkPixbuf's own loader gives cyan, magenta, yellow and black as opaque colours) */
    gboolean has_alpha = picture.format == ZAXBRIAR_FORMAT_CMYK;
    if (has_alpha) state->options.layout = ZAXBRIAR_RGBA;
    state->pixbuf = new_pixbuf(has_alpha, (int)picture.width, (int)picture.height);
    if (!state->pixbuf) return refuse(error, ZAXBRIAR_NO_MEMORY, "out of memory");
    state->options.stride = (uint64_t)gdk_pixbuf_get_rowstride(state->pixbuf);
    if (has_lines(state, &picture)) state->components = picture.components;
    set_options(state, &picture);
    if (state->prepared) state->prepared(state->pixbuf, NULL, state->loader);
    state->time = g_get_monotonic_time() + PAUSE;
    return TRUE;
}

/* Whether a program sees updates before the last one. GdkPixbuf gives it none of a picture that it
 * makes larger or smaller. */
static gboolean is_seen(const load *state) {
    return state->updated && gdk_pixbuf_get_width(state->pixbuf) == state->width &&
           gdk_pixbuf_get_height(state->pixbuf) == state->height;
}

/* Tells the program of the lines that are new, if there are any. */
static void update(const load *state, int from, int to) {
    if (state->updated && from < to)
        state->updated(state->pixbuf, 0, from, gdk_pixbuf_get_width(state->pixbuf), to - from,
                       state->loader);
}

/* Has the library take the bytes that it hasn't had, for lines or for the whole picture. */
static zaxbriar_result feed(load *state) {
    static const zaxbriar_options as_stored = {.max_passes = MAX_PASSES};
    zaxbriar_result answer = ZAXBRIAR_OK;
    if (!state->fed)
        answer = zaxbriar_fed_new(state->components ? &as_stored : &state->options, &state->fed);
    if (answer == ZAXBRIAR_OK)
        answer = zaxbriar_fed_feed(state->fed, state->jpeg + state->fed_size,
                                   state->size - state->fed_size);
    if (answer == ZAXBRIAR_OK) state->fed_size = state->size;
    return answer;
}

static void stop_feeding(load *state) {
    zaxbriar_fed_free(state->fed);
    state->fed = NULL;
    state->fed_size = 0;
}

/* Has the bytes that have come shown in the picture. */
static void show_picture(load *state) {
    guint room;
    guchar *pixels = gdk_pixbuf_get_pixels_with_length(state->pixbuf, &room);
    zaxbriar_result answer = feed(state);
    if (answer == ZAXBRIAR_OK) answer = zaxbriar_fed_show(state->fed, pixels, room, NULL);
    if (answer == ZAXBRIAR_OK || answer == ZAXBRIAR_PARTIAL)
        update(state, 0, gdk_pixbuf_get_height(state->pixbuf));
    state->next = 2 * state->size;
}

/* Begins with the lines of the picture, once it is known whether its first scan has all of its
 * components: otherwise there are no lines before the end. What hasn't come yet is grey, as by
 * show_picture. */
static void begin_lines(load *state) {
    size_t size;
    const uint8_t *scan = find_segment(state, 0xDA, &size);
    if (!scan) return;
    if (size > 0 && scan[0] == state->components && feed(state) == ZAXBRIAR_OK &&
        zaxbriar_fed_rows(state->fed, NULL) == ZAXBRIAR_OK) {
        gdk_pixbuf_fill(state->pixbuf, 0x808080FF);
    } else {
        stop_feeding(state);
        state->components = 0;
    }
}

/* Writes all lines whose bytes have come, and returns why there is no other one. */
static zaxbriar_result take_lines(load *state) {
    guchar *pixels = gdk_pixbuf_get_pixels(state->pixbuf);
    size_t stride = (size_t)gdk_pixbuf_get_rowstride(state->pixbuf);
    size_t width = (size_t)gdk_pixbuf_get_width(state->pixbuf), size = width * state->components;
    int last = gdk_pixbuf_get_height(state->pixbuf) - 1;
    for (;;) {
        guchar *row = pixels + stride * (size_t)MIN(state->lines, last);
        /* (grey samples are written to the end of the row: in order, none is overwritten unread) */
        guchar *line = row + 3 * width - size;
        zaxbriar_result answer = zaxbriar_fed_next(state->fed, line, size);
        if (answer != ZAXBRIAR_OK) return answer;
        for (size_t x = 0; state->components == 1 && x < width; x++)
            memset(row + 3 * x, line[x], 3);
        state->lines++;
    }
}

/* Takes the lines that are left. Returns whether all are the picture of the file: if it has a
 * fault, or a late segment that asks for other colours, it has to be decoded anew. */
static gboolean end_lines(load *state) {
    return feed(state) == ZAXBRIAR_OK && zaxbriar_fed_end(state->fed) == ZAXBRIAR_OK &&
           take_lines(state) == ZAXBRIAR_END;
}

/* Shows the picture while its file comes, if it comes so slowly that somebody sees that, and no
 * sooner than the last time took: the lines that are new, or the picture each time that there are
 * twice as many bytes. */
static void show_if_due(load *state) {
    gint64 begin = g_get_monotonic_time();
    int shown = state->lines;
    if (begin < state->time || !is_seen(state)) return;
    if (state->components && !state->fed) begin_lines(state);
    if (!state->components) {
        if (state->size < state->next) return;
        show_picture(state);
    } else if (state->fed && feed(state) == ZAXBRIAR_OK) {
        take_lines(state);
        update(state, shown, state->lines);
    }
    gint64 end = g_get_monotonic_time();
    state->time = end + MAX(PAUSE, end - begin);
}

static gboolean load_pixels(load *state, GError **error) {
    int shown = state->lines;
    gboolean is_whole = state->components && state->fed && end_lines(state);
    stop_feeding(state);
    if (!is_whole) {
        shown = 0;
        if (!state->pixbuf && !prepare(state, error)) return FALSE;
        if (!decode(state, error)) return FALSE;
    }
    set_comment(state);
    update(state, shown, gdk_pixbuf_get_height(state->pixbuf));
    return TRUE;
}

static gpointer begin_load(GdkPixbufModuleSizeFunc size_known,
                           GdkPixbufModulePreparedFunc prepared,
                           GdkPixbufModuleUpdatedFunc updated, gpointer loader, GError **error) {
    load *state = g_try_new0(load, 1);
    if (!state) {
        refuse(error, ZAXBRIAR_NO_MEMORY, "out of memory");
        return NULL;
    }
    *state = (load){.size_known = size_known,
                    .prepared = prepared,
                    .updated = updated,
                    .loader = loader,
                    .next = 1024};
    return state;
}

static gboolean load_increment(gpointer context, const guchar *bytes, guint count,
                               GError **error) {
    load *state = context;
    if (count > state->room - state->size) {
        size_t room = MAX(2 * state->room, state->size + count);
        uint8_t *jpeg = g_try_realloc(state->jpeg, room);
        if (!jpeg) return refuse(error, ZAXBRIAR_NO_MEMORY, "out of memory");
        state->jpeg = jpeg;
        state->room = room;
    }
    memcpy(state->jpeg + state->size, bytes, count);
    state->size += count;
    if (state->pixbuf) show_if_due(state);
    if (state->is_asked || state->size < state->next) return TRUE;
    /* The program may only want to know the size. It is told as soon as the header is there. */
    zaxbriar_picture picture;
    state->next = 2 * state->size;
    if (zaxbriar_read_info(state->jpeg, state->size, NULL, &picture) == ZAXBRIAR_TRUNCATED)
        return TRUE;
    return describe(state, error) && prepare(state, error);
}

static gboolean stop_load(gpointer context, GError **error) {
    load *state = context;
    gboolean is_loaded = (state->is_asked || describe(state, error)) && state->width > 0 &&
                         state->height > 0 && load_pixels(state, error);
    zaxbriar_fed_free(state->fed);
    if (state->pixbuf) g_object_unref(state->pixbuf);
    g_free(state->jpeg);
    g_free(state);
    return is_loaded;
}

/* This loader, as GdkPixbuf knows it, and its name in a list of loaders. */
static GdkPixbufModule *own;
static char listed_name[] = "zaxbriar", usual_name[] = "jpeg";

/* Has GdkPixbuf's own code write a file: while this loader has its other name, "jpeg" names that.
 * (A loader that another thread makes meanwhile by the name is GdkPixbuf's own, too. That is rare:
 * files are recognised by their first bytes.) */
static gboolean save_to_callback(GdkPixbufSaveFunc save, gpointer user, GdkPixbuf *pixbuf,
                                 gchar **keys, gchar **values, GError **error) {
    static GMutex one_at_a_time;
    g_mutex_lock(&one_at_a_time);
    g_atomic_pointer_set(&own->module_name, listed_name);
    gboolean is_saved =
        gdk_pixbuf_save_to_callbackv(pixbuf, save, user, usual_name, keys, values, error);
    g_atomic_pointer_set(&own->module_name, usual_name);
    g_mutex_unlock(&one_at_a_time);
    return is_saved;
}

static gboolean is_save_option_supported(const gchar *key) {
    return !g_strcmp0(key, "quality") || !g_strcmp0(key, "icc-profile");
}

G_MODULE_EXPORT void fill_vtable(GdkPixbufModule *module);
G_MODULE_EXPORT void fill_vtable(GdkPixbufModule *module) {
    module->begin_load = begin_load;
    module->load_increment = load_increment;
    module->stop_load = stop_load;
    module->save_to_callback = save_to_callback;
    module->is_save_option_supported = is_save_option_supported;
    /* From here on it has the name of GdkPixbuf's own, and comes before that: programs that ask for
     * "jpeg" or image/jpeg get this loader, and those that save in the format that they loaded find
     * one that can be written. In the list of loaders it has another name, since GdkPixbuf takes
     * its own code for each entry "jpeg". (gdk-pixbuf-query-loaders, which writes the list, calls
     * this function without a format.) */
    if (!module->info) return;
    own = module;
    own->info->flags |= GDK_PIXBUF_FORMAT_WRITABLE;
    own->info->name = own->module_name = usual_name;
}

G_MODULE_EXPORT void fill_info(GdkPixbufFormat *info);
G_MODULE_EXPORT void fill_info(GdkPixbufFormat *info) {
    static const GdkPixbufModulePattern signature[] = {{"\xff\xd8", NULL, 100}, {NULL, NULL, 0}};
    static const char *types[] = {"image/jpeg", NULL};
    static const char *extensions[] = {"jpeg", "jpe", "jpg", NULL};
    info->name = listed_name;
    info->signature = (GdkPixbufModulePattern *)signature;
    info->description = "JPEG, decoded by zaxbriar";
    info->mime_types = (char **)types;
    info->extensions = (char **)extensions;
    info->flags = GDK_PIXBUF_FORMAT_THREADSAFE;
    info->license = "MIT OR Apache-2.0";
}
