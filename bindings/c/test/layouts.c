/* layouts: lossless pictures of known samples in each layout, from the top and from the bottom, as
 * they are stored and turned upright, whose widths, heights and strides are all small ones, in
 * memory of exactly the picture's size and of one byte more. */
#include "common.h"

enum { MOST_WIDTH = 17, MOST_HEIGHT = 65, MOST_SAMPLES = MOST_WIDTH * MOST_HEIGHT * 4 };

static unsigned char samples[MOST_SAMPLES];
static unsigned width, height, components, orientation;
static long pictures;

/* ---- a stream of the samples */

static unsigned char stream[256 + 4 * MOST_SAMPLES];
static size_t stream_bytes;
static unsigned bits, bit_count;

static void put(const void *bytes, size_t count) {
    memcpy(stream + stream_bytes, bytes, count);
    stream_bytes += count;
}

static void put_bits(unsigned value, unsigned count) {
    bits = bits << count | value;
    for (bit_count += count; bit_count >= 8; bit_count -= 8) {
        unsigned char byte = (unsigned char)(bits >> (bit_count - 8));
        put(&byte, 1);
        if (byte == 0xff) put("", 1);
    }
}

/* The sample to the left, or above where there is none, or half of the range. */
static int predicted(unsigned x, unsigned y, unsigned component) {
    size_t at = ((size_t)y * width + x) * components + component;
    return x ? samples[at - components] : y ? samples[at - width * components] : 128;
}

static void put_difference(int difference) {
    unsigned size = 0, value = (unsigned)(difference < 0 ? -difference : difference);
    while (value >> size) size++;
    put_bits(size, 4); /* the code of each size */
    if (size) put_bits(difference < 0 ? (1u << size) - 1 - value : value, size);
}

static void write_stream(void) {
    unsigned char part[] = {0, 0x11, 0}, exif[EXIF_BYTES];
    unsigned char frame[] = {0xff, 0xc3, 0, (unsigned char)(8 + 3 * components), 8,
                             0, (unsigned char)height, 0, (unsigned char)width,
                             (unsigned char)components};
    unsigned char scan[] = {0xff, 0xda, 0, (unsigned char)(6 + 2 * components),
                            (unsigned char)components};
    stream_bytes = bits = bit_count = 0;
    put("\xff\xd8", 2);
    put(exif_of(exif, orientation), EXIF_BYTES);
    put(frame, sizeof frame);
    for (part[0] = 1; part[0] <= components; part[0]++) put(part, 3);
    put("\xff\xc4\0\x1c\0\0\0\0\x09\0\0\0\0\0\0\0\0\0\0\0\0\0\1\2\3\4\5\6\7\x8", 30);
    put(scan, sizeof scan);
    for (part[0] = 1; part[0] <= components; part[0]++) put((unsigned char[]){part[0], 0}, 2);
    put("\1\0", 3);
    for (unsigned y = 0; y < height; y++)
        for (unsigned x = 0; x < width; x++)
            for (unsigned i = 0; i < components; i++)
                put_difference(samples[((size_t)y * width + x) * components + i] -
                               predicted(x, y, i));
    put_bits(0x7f, 7);
    put("\xff\xd9", 2);
}

/* ---- the layouts */

/* Red, green or blue of an ink and black, of which 255 is full ink. */
static unsigned char light(unsigned char ink, unsigned char black) {
    return (unsigned char)(((255 - ink) * (255 - black) + 127) / 255);
}

/* The same of 16 bits. */
static unsigned wide_light(unsigned ink, unsigned black) {
    return (unsigned)(((uint64_t)(255 - ink) * 257 * ((255 - black) * 257) + 32767) / 65535);
}

/* Writes numbers of two bytes, the lower first, and returns how many bytes they take. */
static unsigned put_words(unsigned char *pixel, const unsigned *numbers, unsigned count) {
    for (unsigned i = 0; i < 2 * count; i++)
        pixel[i] = (unsigned char)(i % 2 ? numbers[i / 2] >> 8 : numbers[i / 2]);
    return 2 * count;
}

/* The bytes of a pixel in a layout of 16 bits. */
static unsigned convert_wide(int layout, const unsigned char *stored, unsigned char *pixel) {
    unsigned colour[3];
    for (int i = 0; i < 3; i++)
        colour[i] = components == 4 ? wide_light(stored[i], stored[3])
                                    : stored[components == 3 ? i : 0] * 257u;
    unsigned luma = (19595 * colour[0] + 38470 * colour[1] + 7471 * colour[2] + 32768) >> 16;
    return layout == ZAXBRIAR_RGB16 ? put_words(pixel, colour, 3) : put_words(pixel, &luma, 1);
}

/* The bytes of a pixel, of which `size` are written. */
static unsigned convert(int layout, const unsigned char *stored, unsigned char pixel[6]) {
    unsigned char red = stored[0], green = red, blue = red;
    if (components == 3) green = stored[1], blue = stored[2];
    if (components == 4)
        red = light(stored[0], stored[3]), green = light(stored[1], stored[3]),
        blue = light(stored[2], stored[3]);
    switch (layout) {
    case ZAXBRIAR_AS_STORED: return memcpy(pixel, stored, components), components;
    case ZAXBRIAR_GREY:
        pixel[0] = (unsigned char)((19595 * red + 38470 * green + 7471 * blue + 32768) >> 16);
        return 1;
    case ZAXBRIAR_RGB: return memcpy(pixel, (unsigned char[]){red, green, blue}, 3), 3;
    case ZAXBRIAR_BGR: return memcpy(pixel, (unsigned char[]){blue, green, red}, 3), 3;
    case ZAXBRIAR_RGBA: return memcpy(pixel, (unsigned char[]){red, green, blue, 255}, 4), 4;
    case ZAXBRIAR_BGRA: return memcpy(pixel, (unsigned char[]){blue, green, red, 255}, 4), 4;
    case ZAXBRIAR_ABGR: return memcpy(pixel, (unsigned char[]){255, blue, green, red}, 4), 4;
    case ZAXBRIAR_RGB565:
        pixel[0] = (unsigned char)((green << 3 & 0xe0) | blue >> 3);
        pixel[1] = (unsigned char)((red & 0xf8) | green >> 5);
        return 2;
    case ZAXBRIAR_GREY16:
    case ZAXBRIAR_RGB16: return convert_wide(layout, stored, pixel);
    default: return memcpy(pixel, (unsigned char[]){255, red, green, blue}, 4), 4;
    }
}

/* ---- the pictures */

/* Which one of a number of things is asked for of a picture. */
struct asked {
    int layout;
    unsigned gap, more, is_bottom_up, is_upright;
};

/* Writes the picture as it is asked for, whose lines are so many bytes apart. */
static void put_wanted(unsigned char *wanted, struct asked asked, size_t stride) {
    unsigned char pixel[6];
    for (unsigned y = 0; y < height; y++)
        for (unsigned x = 0; x < width; x++) {
            struct seen seen =
                seen_at(asked.is_upright ? orientation : 1, width, height, x, y);
            size_t line = asked.is_bottom_up ? seen.height - 1 - seen.down : seen.down;
            unsigned pixel_bytes =
                convert(asked.layout, samples + ((size_t)y * width + x) * components, pixel);
            memcpy(wanted + line * stride + seen.across * pixel_bytes, pixel, pixel_bytes);
        }
}

static void decoded_as(struct asked asked) {
    unsigned char pixel[6];
    struct seen turned = seen_at(asked.is_upright ? orientation : 1, width, height, 0, 0);
    unsigned pixel_bytes = convert(asked.layout, samples, pixel);
    size_t row_bytes = turned.width * pixel_bytes, stride = row_bytes + asked.gap;
    zaxbriar_options options = {.layout = (uint8_t)asked.layout,
                                .stride = asked.gap ? stride : 0,
                                .bottom_up = (uint8_t)asked.is_bottom_up,
                                .upright = (uint8_t)asked.is_upright};
    zaxbriar_picture picture;
    size_t size = stride * (turned.height - 1) + row_bytes, room = size + asked.more;
    unsigned char *wanted = block(room), *pixels = block(room);
    for (size_t i = 0; i < room; i++) wanted[i] = pixels[i] = (unsigned char)(i * 7 + 3);
    put_wanted(wanted, asked, stride);
    CHECK(zaxbriar_decode(stream, stream_bytes, &options, pixels, room, &picture) == ZAXBRIAR_OK);
    CHECK(!memcmp(pixels, wanted, room));
    CHECK(picture.size == size && picture.row_bytes == row_bytes);
    CHECK(picture.width == turned.width && picture.height == turned.height);
    CHECK(picture.layout == asked.layout && picture.pixel_bytes == pixel_bytes);
    CHECK(picture.orientation == orientation);
    /* The planes, of two bytes a sample: no layout, gap or turn needs a picture beside them. */
    CHECK(picture.decoding_bytes == (uint64_t)width * height * components * 2);
    if (!asked.gap) { /* a stream that ends too soon leaves all as it was */
        for (size_t i = 0; i < room; i++) wanted[i] = pixels[i] = (unsigned char)(i * 5 + 1);
        CHECK(zaxbriar_decode(stream, stream_bytes - 2, &options, pixels, room, &picture) ==
              ZAXBRIAR_TRUNCATED);
        CHECK(!memcmp(pixels, wanted, room));
    }
    free(wanted);
    free(pixels);
    pictures++;
}

/* The layouts of a picture of this size: in each way of 12 as it is stored, and in one of them
 * upright, which is another one for the next orientation. */
static void of_size(void) {
    static const unsigned gaps[] = {0, 1, 64};
    static uint32_t chance = 1;
    for (size_t i = 0; i < (size_t)width * height * components; i++) {
        chance = chance * 1664525 + 1013904223;
        samples[i] = (unsigned char)(chance >> 24);
    }
    for (orientation = 1; orientation <= 8; orientation++) {
        write_stream();
        for (int layout = ZAXBRIAR_AS_STORED; layout <= ZAXBRIAR_RGB16; layout++)
            for (unsigned i = 0; i < 12; i++) {
                struct asked asked = {layout, gaps[i % 3], i / 3 % 2, i / 6, 0};
                if (orientation == 1 + (width + height) % 8) decoded_as(asked);
                asked.is_upright = 1;
                if (i == (orientation + width + height * 5 + (unsigned)layout * 7) % 12)
                    decoded_as(asked);
            }
    }
}

int main(void) {
    static const unsigned heights[] = {1, 2, 3, 4, 5, 31, 32, 33, 64, 65};
    subject = "a lossless picture";
    for (components = 1; components <= 4; components += components == 1 ? 2 : 1)
        for (width = 1; width <= MOST_WIDTH; width++)
            for (int i = 0; i < 10; i++) {
                height = heights[i];
                /* (32 lines are turned at a time) */
                if (height <= 5 || width <= 3) of_size();
            }
    printf("layouts: %ld pictures; %d faults\n", pictures, faults);
    return faults != 0;
}
