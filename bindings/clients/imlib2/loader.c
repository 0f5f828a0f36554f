/* An imlib2 loader for JPEG files over zaxbriar. */
#include <sys/types.h>

#include <Imlib2_Loader.h>
#include <dlfcn.h>
#include <stdlib.h>
#include <string.h>
#include <zaxbriar.h>

enum {
    /* How many times the scans of a file may code the blocks of its picture. */
    MAX_PASSES = 100,
    /* How many lines imlib2 is told of at a time, those of a row of MCUs of most files. */
    LINES_AT_A_TIME = 16
};

static const char *const _formats[] = {"jpg", "jpeg", "jfif", "jfi"};

static int answer_of(int answer) { return answer == ZAXBRIAR_NO_MEMORY ? LOAD_OOM : LOAD_BADIMAGE; }

/* Decodes a picture, or the part of one before a fault, as imlib2's own loader does. */
static int decode(const uint8_t *jpeg, size_t size, const zaxbriar_options *options,
                  uint32_t *pixels, zaxbriar_picture *picture) {
    size_t room = picture->size;
    zaxbriar_result answer = zaxbriar_decode(jpeg, size, options, pixels, room, picture);
    if (answer == ZAXBRIAR_MALFORMED || answer == ZAXBRIAR_UNSUPPORTED ||
        answer == ZAXBRIAR_TRUNCATED || answer == ZAXBRIAR_TOO_MANY_PASSES)
        answer = zaxbriar_decode_partial(jpeg, size, options, pixels, room, picture);
    return answer == ZAXBRIAR_PARTIAL ? ZAXBRIAR_OK : answer;
}

/* Loads the whole picture, or the part of one before a fault, and then tells imlib2 of it. */
static int load_at_once(ImlibImage *image, const uint8_t *jpeg, size_t size,
                        const zaxbriar_options *options, zaxbriar_picture *picture) {
    int answer = decode(jpeg, size, options, image->data, picture);
    if (answer != ZAXBRIAR_OK) return answer_of(answer);
    /* (by rows imlib2 would leave out those that it was told of before) */
    return image->lc && __imlib_LoadProgress(image, 0, 0, image->w, image->h) ? LOAD_BREAK
                                                                              : LOAD_SUCCESS;
}

/* Whether a picture is loaded line by line. (Other than sequential ones are read to their end
 * before the first line, with as much memory.) */
static int has_lines(const zaxbriar_picture *picture) {
    int is_known =
        picture->format == ZAXBRIAR_FORMAT_GREY8 || picture->format == ZAXBRIAR_FORMAT_RGB;
    return is_known && picture->precision == 8 && picture->sample_bytes == 1 &&
           picture->orientation == 1 && picture->process == ZAXBRIAR_SEQUENTIAL;
}

/* Writes the pixels of a line as the layout ZAXBRIAR_BGRA has them. */
static void write_line(uint32_t *pixels, const uint8_t *line, int width, int components) {
    int green = components == 1 ? 0 : 1, blue = 2 * green;
    for (int x = 0; x < width; x++, line += components)
        pixels[x] = PIXEL_ARGB(255u, (uint32_t)line[0], (uint32_t)line[green], line[blue]);
}

/* Writes grey, as of what a file lacks, from a line on. */
static void write_rest(ImlibImage *image, int from) {
    size_t width = (size_t)image->w, end = width * (size_t)image->h;
    for (size_t i = width * (size_t)from; i < end; i++) image->data[i] = 0xFF808080;
}

/* Takes all lines, and returns LOAD_FAIL where the picture isn't known to be right. */
static int take_lines(ImlibImage *image, zaxbriar_rows *rows, const zaxbriar_picture *picture,
                      uint8_t *line) {
    int told = 0;
    for (int y = 0; y < image->h; y++) {
        if (image->lc && y - told == LINES_AT_A_TIME) {
            if (__imlib_LoadProgressRows(image, told, y - told)) {
                write_rest(image, y);
                return LOAD_BREAK;
            }
            told = y;
        }
        if (zaxbriar_rows_next(rows, line, picture->row_bytes) != ZAXBRIAR_OK) return LOAD_FAIL;
        write_line(image->data + (size_t)y * (size_t)image->w, line, image->w, picture->components);
    }
    if (zaxbriar_rows_next(rows, line, picture->row_bytes) != ZAXBRIAR_END) return LOAD_FAIL;
    return image->lc && __imlib_LoadProgressRows(image, told, image->h - told) ? LOAD_BREAK
                                                                              : LOAD_SUCCESS;
}

/* Loads a picture line by line, so that none of its samples but those of two rows of MCUs are in
 * memory besides the pixels. Returns LOAD_FAIL where the picture isn't known to be right. */
static int load_by_lines(ImlibImage *image, const uint8_t *jpeg, size_t size) {
    zaxbriar_options options = {.max_passes = MAX_PASSES};
    zaxbriar_picture picture;
    zaxbriar_rows *rows;
    if (zaxbriar_rows_new(jpeg, size, &options, &rows, &picture) != ZAXBRIAR_OK) return LOAD_FAIL;
    uint8_t *line = malloc(picture.row_bytes);
    int loaded = line ? take_lines(image, rows, &picture, line) : LOAD_FAIL;
    free(line);
    zaxbriar_rows_free(rows);
    return loaded;
}

static int load_pixels(ImlibImage *image, const uint8_t *jpeg, size_t size,
                       const zaxbriar_options *options, zaxbriar_picture *picture) {
    if (!__imlib_AllocateData(image)) return LOAD_OOM;
    int loaded = has_lines(picture) ? load_by_lines(image, jpeg, size) : LOAD_FAIL;
    /* (a damaged file is shown up to its fault, and one whose transform changes by its last one) */
    return loaded == LOAD_FAIL ? load_at_once(image, jpeg, size, options, picture) : loaded;
}

static int load_copied(ImlibImage *image, const uint8_t *jpeg, size_t size, int load_data) {
    zaxbriar_options options = {.layout = ZAXBRIAR_BGRA, .upright = 1, .max_passes = MAX_PASSES};
    zaxbriar_picture picture;
    int answer = zaxbriar_read_info(jpeg, size, &options, &picture);
    if (answer != ZAXBRIAR_OK) return answer_of(answer);
    image->w = (int)picture.width;
    image->h = (int)picture.height;
    if (!IMAGE_DIMENSIONS_OK(image->w, image->h)) return LOAD_BADIMAGE;
    image->has_alpha = 0;
    return load_data ? load_pixels(image, jpeg, size, &options, &picture) : LOAD_SUCCESS;
}

static int _load(ImlibImage *image, int load_data) {
    const uint8_t *mapped = image->fi->fdata;
    size_t size = (size_t)image->fi->fsize;
    if (size < 2 || mapped[0] != 0xFF || mapped[1] != 0xD8) return LOAD_FAIL;
    /* imlib2 maps the file, which another program may write meanwhile; the library asks for bytes
     * that don't change. */
    uint8_t *jpeg = malloc(size);
    if (!jpeg) return LOAD_OOM;
    memcpy(jpeg, mapped, size);
    int loaded = load_copied(image, jpeg, size, load_data);
    free(jpeg);
    return loaded;
}

static int _save(ImlibImage *image);

IMLIB_LOADER(_formats, _load, _save);

/* Files are written by imlib2's own loader, OWN_LOADER. (imlib2 opens no other file than jpeg.so
 * for a name that ends in .jpg, whether it reads or writes.) */
static int _save(ImlibImage *image) {
    void *file = dlopen(OWN_LOADER, RTLD_NOW | RTLD_LOCAL);
    ImlibLoaderModule *own = file ? dlsym(file, "loader") : NULL;
    int saved = LOAD_FAIL;
    if (own && own != &loader && own->ldr_version == loader.ldr_version && own->save)
        saved = own->save(image);
    if (file) dlclose(file);
    return saved;
}
