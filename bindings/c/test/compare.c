/* compare LIST [JPEGRAW]: decodes each file that LIST names, a name in each line.
 *
 * Where JPEGRAW is given, the picture or the refusal is compared with what that program writes,
 * byte for byte. Then the same picture is asked for with less room, from the part of the file that
 * was read, in each layout with gaps between the lines, at each scale, upright by each orientation,
 * also of a cut file and of a part of the picture, without its colours, and with a limit. Metadata
 * are compared with NAME.exif, NAME.xmp and NAME.icc where there are such files, Exif data also
 * with the place that is found for them, and the orientation with the number after `orientation-`
 * in the name. The last line has a sum of all pictures and of what is said of them, by which two
 * builds of the library are compared. */
#define _POSIX_C_SOURCE 200809L
#include <sys/wait.h>

#include "common.h"

static struct bytes jpeg;
static long decoded, refused, compared, arranged, scaled, turned, cropped, fitted, without_colours;
static uint64_t sum = 14695981039346656037u;

static void add_to_sum(const void *start, size_t size) {
    for (size_t i = 0; i < size; i++)
        sum = (sum ^ ((const unsigned char *)start)[i]) * 1099511628211u;
}

static const char *format(const zaxbriar_picture *picture) {
    switch (picture->format) {
    case ZAXBRIAR_FORMAT_GREY8: return "L8";
    case ZAXBRIAR_FORMAT_GREY16: return "L16";
    case ZAXBRIAR_FORMAT_RGB: return "RGB24";
    case ZAXBRIAR_FORMAT_CMYK: return "CMYK32";
    default: return "?";
    }
}

/* Compares with what jpegraw writes: a line and the pixels, or a line on standard error and the
 * status 1. */
static void with_jpegraw(const char *jpegraw, const char *name, int answer,
                         const zaxbriar_picture *picture, const unsigned char *pixels) {
    char command[8192], line[64];
    int count =
        snprintf(line, sizeof line, "%u %u %s\n", picture->width, picture->height, format(picture));
    if (strchr(name, '\'')) return;
    snprintf(command, sizeof command, "'%s' < '%s' 2>&1", jpegraw, name);
    FILE *pipe = popen(command, "r");
    size_t room = (answer ? 4096 : (size_t)count + picture->size) + 2;
    unsigned char *written = block(room);
    size_t size = pipe ? fread(written, 1, room - 1, pipe) : 0;
    written[size] = 0;
    int status = pipe ? pclose(pipe) : -1;
    compared++;
    if (answer == ZAXBRIAR_OK) {
        CHECK(status == 0);
        CHECK(size == (size_t)count + picture->size && !memcmp(written, line, (size_t)count));
        CHECK(size == (size_t)count + picture->size &&
              !memcmp(written + count, pixels, picture->size));
    } else {
        CHECK(WIFEXITED(status) && WEXITSTATUS(status) == 1);
        int is_told = picture->text[0] && strstr((char *)written, picture->text);
        if (!is_told)
            printf("%s: jpegraw says %.100s, the library %s\n", name, (char *)written,
                   picture->text);
        CHECK(is_told);
    }
    free(written);
}

/* The stream ends where `stream_bytes` says: that part alone gives the picture, and one byte less
 * none. */
static void of_part(const zaxbriar_picture *whole, const unsigned char *pixels) {
    zaxbriar_picture picture;
    unsigned char *again = block(whole->size), *part = block(whole->stream_bytes);
    CHECK(whole->stream_bytes >= 4 && whole->stream_bytes <= jpeg.size);
    memcpy(part, jpeg.start, whole->stream_bytes);
    CHECK(zaxbriar_decode(part, whole->stream_bytes, NULL, again, whole->size, &picture) ==
          ZAXBRIAR_OK);
    CHECK(!memcmp(again, pixels, whole->size));
    memset(again, 0xA5, whole->size);
    CHECK(zaxbriar_decode(part, whole->stream_bytes - 1, NULL, again, whole->size, &picture) !=
          ZAXBRIAR_OK);
    CHECK(is_all(again, whole->size, 0xA5));
    CHECK(zaxbriar_decode(jpeg.start, jpeg.size, NULL, again, whole->size - 1, &picture) ==
          ZAXBRIAR_NO_ROOM);
    CHECK(picture.size == whole->size && is_all(again, whole->size, 0xA5));
    free(again);
    free(part);
}

/* A stored sample on the scale of 0 to `full`. A lossless picture may have samples above the
 * greatest of its precision, which become `full`. */
static uint64_t level(unsigned full, const zaxbriar_picture *whole, const unsigned char *sample) {
    unsigned most = (1u << whole->precision) - 1;
    uint64_t value = whole->sample_bytes == 2 ? sample[0] | (unsigned)sample[1] << 8 : sample[0];
    return value < most ? (value * full + most / 2) / most : full;
}

/* Red, green and blue of a pixel as it is stored, from 0 to `full`. */
static void colour_of(unsigned full, const zaxbriar_picture *whole, const unsigned char *stored,
                      uint64_t colour[3]) {
    for (int i = 0; i < 3; i++) {
        int component = whole->components == 1 ? 0 : i;
        colour[i] = level(full, whole, stored + component * whole->sample_bytes);
        if (whole->components == 4)
            colour[i] = ((full - colour[i]) *
                             (full - level(full, whole, stored + 3 * whole->sample_bytes)) +
                         full / 2) /
                        full;
    }
}

/* Whether a number of two bytes is this one. */
static int is_word(const unsigned char *got, uint64_t number) {
    return got[0] == number % 256 && got[1] == number / 256;
}

static int same_pixel(int layout, const zaxbriar_picture *whole, const unsigned char *got,
                      const unsigned char *stored) {
    unsigned full = layout == ZAXBRIAR_GREY16 || layout == ZAXBRIAR_RGB16 ? 65535 : 255;
    uint64_t colour[3], red, green, blue, luma;
    colour_of(full, whole, stored, colour);
    red = colour[0], green = colour[1], blue = colour[2];
    luma = whole->components == 1 ? red
                                  : (19595 * red + 38470 * green + 7471 * blue + 32768) / 65536;
    switch (layout) {
    case ZAXBRIAR_AS_STORED: return !memcmp(got, stored, whole->pixel_bytes);
    case ZAXBRIAR_GREY: return got[0] == luma;
    case ZAXBRIAR_GREY16: return is_word(got, luma);
    case ZAXBRIAR_RGB16:
        return is_word(got, red) && is_word(got + 2, green) && is_word(got + 4, blue);
    case ZAXBRIAR_RGB: return got[0] == red && got[1] == green && got[2] == blue;
    case ZAXBRIAR_RGBA: return got[0] == red && got[1] == green && got[2] == blue && got[3] == 255;
    case ZAXBRIAR_BGRA: return got[2] == red && got[1] == green && got[0] == blue && got[3] == 255;
    case ZAXBRIAR_BGR: return got[2] == red && got[1] == green && got[0] == blue;
    case ZAXBRIAR_ABGR: return got[0] == 255 && got[3] == red && got[2] == green && got[1] == blue;
    case ZAXBRIAR_RGB565:
        return is_word(got, (red & 0xf8) << 8 | (green & 0xfc) << 3 | blue >> 3);
    default: return got[0] == 255 && got[1] == red && got[2] == green && got[3] == blue;
    }
}

/* Each layout with gaps between the lines, which stay as they were, as do the bytes after the
 * picture. */
static void in_layout(int layout, const zaxbriar_picture *whole, const unsigned char *pixels) {
    zaxbriar_options options = {.layout = (uint8_t)layout,
                                .stride = (uint64_t)whole->width * 8 + 13};
    zaxbriar_picture picture, head;
    CHECK(zaxbriar_read_info(jpeg.start, jpeg.size, &options, &head) == ZAXBRIAR_OK);
    CHECK(head.layout == layout && head.row_bytes == (uint64_t)head.width * head.pixel_bytes);
    CHECK(head.size == options.stride * (head.height - 1) + head.row_bytes);
    size_t room = head.size + 31;
    unsigned char *rows = block(room);
    memset(rows, 0xA5, room);
    CHECK(zaxbriar_decode(jpeg.start, jpeg.size, &options, rows, room, &picture) == ZAXBRIAR_OK);
    for (size_t y = 0; y < picture.height; y++) {
        const unsigned char *row = rows + y * options.stride,
                            *stored = pixels + y * whole->row_bytes;
        size_t end = y + 1 < picture.height ? options.stride : room - y * options.stride;
        int same = is_all(row + picture.row_bytes, end - picture.row_bytes, 0xA5);
        for (size_t x = 0; same && x < picture.width; x++)
            same = same_pixel(layout, whole, row + x * picture.pixel_bytes,
                              stored + x * whole->pixel_bytes);
        CHECK(same);
        if (!same) break;
    }
    /* without gaps */
    options.stride = 0;
    CHECK(zaxbriar_read_info(jpeg.start, jpeg.size, &options, &head) == ZAXBRIAR_OK);
    unsigned char *joined = block(head.size);
    CHECK(zaxbriar_decode(jpeg.start, jpeg.size, &options, joined, head.size, &picture) ==
          ZAXBRIAR_OK);
    for (size_t y = 0; y < head.height; y++)
        CHECK(!memcmp(joined + y * head.row_bytes, rows + y * ((uint64_t)whole->width * 8 + 13),
                      head.row_bytes));
    add_to_sum(joined, head.size);
    /* and from the bottom */
    options.bottom_up = 1;
    memset(joined, 0xA5, head.size);
    CHECK(zaxbriar_decode(jpeg.start, jpeg.size, &options, joined, head.size, &picture) ==
          ZAXBRIAR_OK);
    for (size_t y = 0; y < head.height; y++)
        CHECK(!memcmp(joined + (head.height - 1 - y) * head.row_bytes,
                      rows + y * ((uint64_t)whole->width * 8 + 13), head.row_bytes));
    free(joined);
    free(rows);
    arranged++;
}

static void at_scale(unsigned part, const zaxbriar_picture *whole) {
    unsigned width = (whole->width + part - 1) / part;
    zaxbriar_options options = {.min_width = (uint16_t)width};
    zaxbriar_options as_before = {.min_width = (uint16_t)width, .min_height = UINT16_MAX};
    zaxbriar_picture head, picture;
    CHECK(zaxbriar_read_info(jpeg.start, jpeg.size, &as_before, &picture) == ZAXBRIAR_OK);
    CHECK(zaxbriar_read_info(jpeg.start, jpeg.size, &options, &head) == ZAXBRIAR_OK);
    if (whole->process == ZAXBRIAR_LOSSLESS)
        CHECK(head.width == whole->width && head.height == whole->height);
    else CHECK(head.width == width);
    CHECK(head.width == picture.width && head.height == picture.height);
    options = (zaxbriar_options){.min_height = (uint16_t)head.height};
    CHECK(zaxbriar_read_info(jpeg.start, jpeg.size, &options, &picture) == ZAXBRIAR_OK);
    CHECK(picture.height == head.height);
    /* exactly this part, whatever the least sides are */
    options = (zaxbriar_options){.scale = (uint8_t)part, .min_width = 1, .min_height = UINT16_MAX};
    CHECK(zaxbriar_read_info(jpeg.start, jpeg.size, &options, &head) == ZAXBRIAR_OK);
    if (whole->process == ZAXBRIAR_LOSSLESS) width = whole->width, part = 1;
    CHECK(head.width == width && head.height == (whole->height + part - 1) / part);
    unsigned char *pixels = block(head.size);
    CHECK(zaxbriar_decode(jpeg.start, jpeg.size, &options, pixels, head.size, &picture) ==
          ZAXBRIAR_OK);
    CHECK(picture.width == head.width && picture.height == head.height &&
          picture.size == head.size);
    add_to_sum(pixels, head.size);
    free(pixels);
    scaled++;
}

/* A call that decodes. */
typedef zaxbriar_result decoding(const void *, size_t, const zaxbriar_options *, void *, size_t,
                                 zaxbriar_picture *);

/* Puts each pixel of a stored picture where it is to be seen, in lines that are so many bytes
 * apart. */
static void turn(const zaxbriar_picture *stored, const unsigned char *rows, int is_bottom_up,
                 unsigned char *pixels, size_t stride) {
    size_t width = stored->width, height = stored->height, pixel_bytes = stored->pixel_bytes;
    for (size_t y = 0; y < height; y++)
        for (size_t x = 0; x < width; x++) {
            struct seen seen = seen_at(stored->orientation, width, height, x, y);
            size_t line = is_bottom_up ? seen.height - 1 - seen.down : seen.down;
            memcpy(pixels + line * stride + seen.across * pixel_bytes,
                   rows + (y * width + x) * pixel_bytes, pixel_bytes);
        }
}

/* A stream is decoded upright as it is decoded otherwise, but for the places of the pixels. */
static void turned_by(decoding *call, struct bytes stream, zaxbriar_options options) {
    zaxbriar_picture stored, upright;
    /* (a size to fit within has one side for both, as it is that of the picture as it is shown) */
    zaxbriar_options plain = {.layout = options.layout,
                              .scale = options.scale,
                              .most_width = options.most_width,
                              .most_height = options.most_height};
    if (zaxbriar_read_info(stream.start, stream.size, &plain, &stored) != ZAXBRIAR_OK) return;
    unsigned char *rows = block(stored.size);
    zaxbriar_result result = call(stream.start, stream.size, &plain, rows, stored.size, &stored);
    if (result == ZAXBRIAR_OK || result == ZAXBRIAR_PARTIAL) {
        struct seen whole = seen_at(stored.orientation, stored.width, stored.height, 0, 0);
        size_t row_bytes = whole.width * stored.pixel_bytes;
        options.stride = row_bytes + 5;
        size_t size = options.stride * (whole.height - 1) + row_bytes, room = size + 8;
        unsigned char *wanted = memset(block(room), 0xA5, room);
        unsigned char *pixels = memset(block(room), 0xA5, room);
        turn(&stored, rows, options.bottom_up, wanted, options.stride);
        CHECK(call(stream.start, stream.size, &options, pixels, room, &upright) == result);
        CHECK(!memcmp(wanted, pixels, room));
        add_to_sum(pixels, room);
        stored.width = (uint32_t)whole.width, stored.height = (uint32_t)whole.height;
        stored.row_bytes = row_bytes, stored.size = size;
        CHECK(!memcmp(&upright, &stored, sizeof stored));
        free(pixels);
        free(wanted);
        turned++;
    }
    free(rows);
}

/* A part of a picture has the pixels that the picture has there, as it is shown. */
static void cropped_by(decoding *call, struct bytes stream, zaxbriar_options options) {
    zaxbriar_picture whole, part;
    options.stride = options.bottom_up = 0;
    if (zaxbriar_read_info(stream.start, stream.size, &options, &whole) != ZAXBRIAR_OK) return;
    unsigned char *all = block(whole.size), *pixels = block(whole.size);
    zaxbriar_result result = call(stream.start, stream.size, &options, all, whole.size, &whole);
    if (result == ZAXBRIAR_OK || result == ZAXBRIAR_PARTIAL) {
        size_t left = whole.width / 3, top = whole.height / 4;
        options.crop_left = (uint16_t)left, options.crop_top = (uint16_t)top;
        options.crop_width = (uint16_t)((whole.width - left + 1) / 2);
        options.crop_height = (uint16_t)((whole.height - top + 1) / 2);
        CHECK(call(stream.start, stream.size, &options, pixels, whole.size, &part) == result);
        CHECK(part.width == options.crop_width && part.height == options.crop_height);
        CHECK(part.decoding_bytes == whole.decoding_bytes && part.whole_rows <= whole.whole_rows);
        for (size_t y = 0; y < part.height; y++)
            CHECK(!memcmp(pixels + y * part.row_bytes,
                          all + (top + y) * whole.row_bytes + left * whole.pixel_bytes,
                          part.row_bytes));
        add_to_sum(pixels, part.size);
        cropped++;
    }
    free(all);
    free(pixels);
}

/* The sum of a component's samples in a box of a picture as it is stored. */
static uint64_t box_sum(const unsigned char *samples, const zaxbriar_picture *whole,
                        const size_t columns[2], const size_t rows[2], size_t component) {
    uint64_t sum = 0;
    for (size_t y = rows[0]; y < rows[1]; y++)
        for (size_t x = columns[0]; x < columns[1]; x++) {
            const unsigned char *sample = samples + y * whole->row_bytes + x * whole->pixel_bytes +
                                          component * whole->sample_bytes;
            sum += sample[0] + (whole->sample_bytes == 2 ? 256u * sample[1] : 0u);
        }
    return sum;
}

/* Whether each sample of a smaller picture is the mean of those in its place, halves up. */
static int are_means(const unsigned char *small_samples, const zaxbriar_picture *small,
                     const unsigned char *samples, const zaxbriar_picture *whole) {
    for (size_t y = 0; y < small->height; y++)
        for (size_t x = 0; x < small->width; x++)
            for (size_t component = 0; component < small->components; component++) {
                size_t columns[] = {x * whole->width / small->width,
                                    (x + 1) * whole->width / small->width};
                size_t rows[] = {y * whole->height / small->height,
                                 (y + 1) * whole->height / small->height};
                uint64_t count = (columns[1] - columns[0]) * (rows[1] - rows[0]);
                uint64_t sum = box_sum(samples, whole, columns, rows, component);
                uint64_t mean = (2 * sum + count) / (2 * count);
                const unsigned char *sample = small_samples + y * small->row_bytes +
                                              x * small->pixel_bytes +
                                              component * small->sample_bytes;
                uint64_t is = sample[0] + (small->sample_bytes == 2 ? 256u * sample[1] : 0u);
                if (is != mean) return 0;
            }
    return 1;
}

/* A picture within a size has the means of the samples of the picture as it is stored. */
static void fitted_by(decoding *call, struct bytes stream, zaxbriar_options options) {
    zaxbriar_picture whole, small;
    options.layout = options.upright = options.bottom_up = 0;
    if (zaxbriar_read_info(stream.start, stream.size, &options, &whole) != ZAXBRIAR_OK) return;
    unsigned char *all = block(whole.size), *pixels = block(whole.size);
    zaxbriar_result result = call(stream.start, stream.size, &options, all, whole.size, &whole);
    if (result == ZAXBRIAR_OK || result == ZAXBRIAR_PARTIAL) {
        options.most_width = (uint16_t)(1 + whole.width / 3);
        options.most_height = (uint16_t)(1 + whole.height * 2 / 3);
        CHECK(call(stream.start, stream.size, &options, pixels, whole.size, &small) == result);
        CHECK(small.width <= options.most_width && small.height <= options.most_height);
        CHECK(small.whole_rows == whole.whole_rows);
        CHECK(are_means(pixels, &small, all, &whole));
        add_to_sum(pixels, small.size);
        fitted++;
    }
    free(all);
    free(pixels);
}

/* By each orientation, in a layout of each number of bytes, at scales, from the top and the bottom,
 * of a part and within a size. (A stream that has Exif data keeps its own orientation.) */
static void upright(void) {
    static const uint8_t layouts[] = {ZAXBRIAR_AS_STORED, ZAXBRIAR_GREY,   ZAXBRIAR_RGB,
                                      ZAXBRIAR_RGBA,      ZAXBRIAR_RGB565, ZAXBRIAR_RGB16};
    struct bytes stream = {block(jpeg.size + EXIF_BYTES), jpeg.size + EXIF_BYTES};
    memcpy(stream.start, jpeg.start, 2);
    memcpy(stream.start + 2 + EXIF_BYTES, jpeg.start + 2, jpeg.size - 2);
    for (unsigned orientation = 1; orientation <= 8; orientation++) {
        unsigned number = orientation + (unsigned)decoded;
        zaxbriar_options options = {.layout = layouts[number % 6],
                                    .scale = (uint8_t)(number / 3 % 4 == 3 ? 2 : 1),
                                    .bottom_up = (uint8_t)(number / 2 % 2),
                                    .upright = 1};
        exif_of(stream.start + 2, orientation);
        turned_by(zaxbriar_decode, stream, options);
        turned_by(zaxbriar_decode_partial, (struct bytes){stream.start, stream.size * 2 / 3},
                  options);
        cropped_by(zaxbriar_decode, stream, options);
        cropped_by(zaxbriar_decode_partial, (struct bytes){stream.start, stream.size * 2 / 3},
                   options);
        fitted_by(zaxbriar_decode, stream, options);
        fitted_by(zaxbriar_decode_partial, (struct bytes){stream.start, stream.size * 2 / 3},
                  options);
        options.most_width = options.most_height = (uint16_t)(1 + number % 9);
        turned_by(zaxbriar_decode, stream, options);
    }
    free(stream.start);
}

/* The luma is what stands first in each line of the components, without a conversion. */
static void luma_by(decoding *call, struct bytes stream, const zaxbriar_picture *whole,
                    zaxbriar_options options) {
    zaxbriar_options components = options;
    zaxbriar_picture luma, lines;
    components.luma = 0;
    components.transform = ZAXBRIAR_TRANSFORM_NONE;
    if (zaxbriar_read_info(stream.start, stream.size, &options, &luma) != ZAXBRIAR_OK) return;
    CHECK(luma.components == 1 && luma.format == ZAXBRIAR_FORMAT_GREY8 && luma.pixel_bytes == 1);
    CHECK(luma.transform == whole->transform && luma.precision == whole->precision);
    CHECK(!memcmp(luma.sampling, whole->sampling, sizeof luma.sampling));
    size_t room = luma.size, all = room * whole->components;
    unsigned char *pixels = memset(block(room), 0xA5, room), *rows = block(all);
    zaxbriar_result result = call(stream.start, stream.size, &options, pixels, room, &luma);
    zaxbriar_result plain = call(stream.start, stream.size, &components, rows, all, &lines);
    if (result == ZAXBRIAR_OK || result == ZAXBRIAR_PARTIAL) {
        CHECK(plain == result && lines.whole_rows == luma.whole_rows);
        for (size_t y = 0; y < luma.height; y++)
            CHECK(!memcmp(pixels + y * luma.row_bytes, rows + y * lines.row_bytes, luma.width));
        add_to_sum(pixels, room);
        without_colours++;
    } else {
        CHECK(result == ZAXBRIAR_MALFORMED && is_all(pixels, room, 0xA5));
    }
    free(pixels);
    free(rows);
}

/* The luma of a picture in colour, of the whole and of a part, as the stream says, and where its
 * first component counts as luma whatever that is. */
static void luma(const zaxbriar_picture *whole) {
    if (whole->components == 1 || whole->process == ZAXBRIAR_LOSSLESS) return;
    struct bytes part = {jpeg.start, jpeg.size * 2 / 3};
    for (uint8_t scale = 1; scale <= 8; scale *= 2) {
        zaxbriar_options options = {.luma = 1, .scale = scale};
        luma_by(zaxbriar_decode, jpeg, whole, options);
        luma_by(zaxbriar_decode_partial, part, whole, options);
        options.transform = ZAXBRIAR_TRANSFORM_YCBCR;
        luma_by(zaxbriar_decode, jpeg, whole, options);
        luma_by(zaxbriar_decode_partial, part, whole, options);
    }
}

/* A picture above a limit is refused whether what follows its header is whole or cut. */
static void above(const zaxbriar_options *options, const zaxbriar_picture *whole,
                  unsigned char *pixels) {
    zaxbriar_picture picture;
    memset(pixels, 0xA5, whole->size);
    CHECK(zaxbriar_read_info(jpeg.start, jpeg.size, options, &picture) == ZAXBRIAR_TOO_LARGE);
    CHECK(picture.size == whole->size && picture.decoding_bytes == whole->decoding_bytes);
    for (size_t cut = 0; cut <= 1; cut++) {
        CHECK(zaxbriar_decode(jpeg.start, whole->stream_bytes - cut, options, pixels, whole->size,
                              &picture) == ZAXBRIAR_TOO_LARGE);
        CHECK(picture.size == whole->size && picture.text[0] && is_all(pixels, whole->size, 0xA5));
    }
}

static void limited(const zaxbriar_picture *whole) {
    uint64_t samples = (uint64_t)whole->width * whole->height * whole->components;
    zaxbriar_options options = {.max_samples = samples, .max_bytes = whole->decoding_bytes};
    zaxbriar_picture picture;
    unsigned char *pixels = block(whole->size);
    CHECK(zaxbriar_decode(jpeg.start, jpeg.size, &options, pixels, whole->size, &picture) ==
          ZAXBRIAR_OK);
    options.max_samples = samples - 1;
    if (options.max_samples) above(&options, whole, pixels);
    options.max_samples = 0;
    options.max_bytes--;
    above(&options, whole, pixels);
    free(pixels);
}

/* The Exif data of a header or of a whole image are those in the bytes that reading it takes; data
 * of no bytes are data, too. Where there are none, the answer is that of reading it, or NO_DATA
 * after OK. */
static void exif_within(size_t bytes_read, int kind, int result) {
    zaxbriar_places places;
    size_t length;
    int answer = zaxbriar_metadata(jpeg.start, jpeg.size, kind, NULL, 0, &length);
    CHECK(zaxbriar_find_metadata(jpeg.start, bytes_read, &places) == ZAXBRIAR_OK);
    int with = places.exif.size ? ZAXBRIAR_NO_ROOM : ZAXBRIAR_OK;
    int without = result == ZAXBRIAR_OK ? ZAXBRIAR_NO_DATA : result;
    CHECK(answer == (places.exif.offset ? with : without));
    CHECK(length == places.exif.size);
}

static void metadata(const char *name) {
    static const char *const ends[] = {"", ".exif", ".xmp", ".icc"};
    for (int kind = ZAXBRIAR_EXIF; kind <= ZAXBRIAR_ICC; kind++) {
        char beside[4200];
        size_t length = 0, again = 0;
        int answer = zaxbriar_metadata(jpeg.start, jpeg.size, kind, NULL, 0, &length);
        unsigned char *data = block(length);
        if (answer == ZAXBRIAR_NO_ROOM) {
            CHECK(length > 0);
            memset(data, 0xA5, length);
            CHECK(zaxbriar_metadata(jpeg.start, jpeg.size, kind, data, length - 1, &again) ==
                  ZAXBRIAR_NO_ROOM);
            CHECK(again == length && is_all(data, length, 0xA5));
            CHECK(zaxbriar_metadata(jpeg.start, jpeg.size, kind, data, length, &again) ==
                  ZAXBRIAR_OK);
            CHECK(again == length);
        }
        snprintf(beside, sizeof beside, "%s%s", name, ends[kind]);
        FILE *file = fopen(beside, "rb");
        if (file) {
            fclose(file);
            struct bytes wanted = read_file(beside);
            CHECK(wanted.size == length && !memcmp(wanted.start, data, length));
            free(wanted.start);
        }
        free(data);
    }
}

static void of_file(const char *name, const char *jpegraw) {
    zaxbriar_picture head, picture;
    int answer = zaxbriar_read_info(jpeg.start, jpeg.size, NULL, &head);
    int is_headed = answer == ZAXBRIAR_OK;
    exif_within(head.stream_bytes, ZAXBRIAR_EXIF, answer);
    unsigned char *pixels = block(is_headed ? head.size : 0);
    answer =
        zaxbriar_decode(jpeg.start, jpeg.size, NULL, pixels, is_headed ? head.size : 0, &picture);
    CHECK(is_headed || answer != ZAXBRIAR_OK);
    if (answer) refused++;
    else decoded++;
    add_to_sum(&picture, sizeof picture);
    if (jpegraw) with_jpegraw(jpegraw, name, answer, &picture, pixels);
    metadata(name);
    exif_within(picture.stream_bytes, ZAXBRIAR_EXIF | ZAXBRIAR_WHOLE_IMAGE, answer);
    if (answer == ZAXBRIAR_OK) {
        const char *told = strstr(name, "orientation-");
        CHECK(!told || picture.orientation == atoi(told + 12));
        CHECK(picture.size == head.size && picture.orientation == head.orientation &&
              picture.text[0] == 0);
        CHECK(picture.width == head.width && picture.height == head.height &&
              picture.decoding_bytes == head.decoding_bytes);
        CHECK(picture.pixel_bytes == picture.components * picture.sample_bytes);
        CHECK(picture.sample_bytes == (picture.precision > 8 ? 2 : 1));
        of_part(&picture, pixels);
        for (int layout = ZAXBRIAR_AS_STORED; layout <= ZAXBRIAR_RGB16; layout++)
            in_layout(layout, &picture, pixels);
        for (unsigned part = 1; part <= 8; part *= 2) at_scale(part, &picture);
        upright();
        luma(&picture);
        limited(&picture);
    } else CHECK(picture.text[0] != 0);
    free(pixels);
}

int main(int argc, char **argv) {
    char name[4096];
    FILE *list = argc > 1 ? fopen(argv[1], "r") : NULL;
    if (!list) return 2;
    while (fgets(name, sizeof name, list)) {
        name[strcspn(name, "\n")] = 0;
        subject = name;
        jpeg = read_file(name);
        of_file(name, argc > 2 ? argv[2] : NULL);
        free(jpeg.start);
    }
    fclose(list);
    printf("compare: %ld files decoded, %ld refused; %ld compared with jpegraw; %ld pictures in "
           "other layouts, %ld at scales, %ld upright, %ld parts, %ld within a size, %ld without "
           "their colours; %d faults; sum %016llx\n",
           decoded, refused, compared, arranged, scaled, turned, cropped, fitted, without_colours,
           faults, (unsigned long long)sum);
    return faults != 0;
}
