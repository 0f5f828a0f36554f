#include "pixels.h"

/* Red, green and blue, or one of them thrice. */
struct colour {
    uint64_t red, green, blue;
};

/* Returns the sample at a place among all of a picture. */
static uint64_t sample_at(const zaxbriar_picture *picture, const unsigned char *samples,
                          size_t place) {
    if (picture->sample_bytes == 1) return samples[place];
    return samples[2 * place] | (uint64_t)samples[2 * place + 1] << 8;
}

/* Returns the sample at a place, from 0 to `full`. */
static uint64_t sample_of(const zaxbriar_picture *picture, const unsigned char *samples,
                          size_t place, uint64_t full) {
    uint64_t most = ((uint64_t)1 << picture->precision) - 1;
    uint64_t sample = (sample_at(picture, samples, place) * full + most / 2) / most;
    return sample < full ? sample : full;
}

static uint64_t without_ink(uint64_t ink, uint64_t black, uint64_t full) {
    return ((full - ink) * (full - black) + full / 2) / full;
}

/* Returns the colour of a pixel of which the stored samples begin at a place. */
static struct colour colour_of(const zaxbriar_picture *picture, const unsigned char *samples,
                               size_t place, uint64_t full) {
    uint64_t found[4];
    for (size_t i = 0; i < picture->components; i++)
        found[i] = sample_of(picture, samples, place + i, full);
    if (picture->components == 1) return (struct colour){found[0], found[0], found[0]};
    if (picture->components == 3) return (struct colour){found[0], found[1], found[2]};
    return (struct colour){without_ink(found[0], found[3], full),
                           without_ink(found[1], found[3], full),
                           without_ink(found[2], found[3], full)};
}

static uint64_t luma_of(struct colour colour) {
    return (19595 * colour.red + 38470 * colour.green + 7471 * colour.blue + 32768) / 65536;
}

/* Returns the bytes of a pixel as a number, the first one lowest. */
static uint64_t packed(int layout, struct colour colour) {
    uint64_t red = colour.red, green = colour.green, blue = colour.blue, opaque = 255;
    switch (layout) {
    case ZAXBRIAR_RGB: return red | green << 8 | blue << 16;
    case ZAXBRIAR_RGBA: return red | green << 8 | blue << 16 | opaque << 24;
    case ZAXBRIAR_BGRA: return blue | green << 8 | red << 16 | opaque << 24;
    case ZAXBRIAR_BGR: return blue | green << 8 | red << 16;
    case ZAXBRIAR_XRGB: return opaque | red << 8 | green << 16 | blue << 24;
    case ZAXBRIAR_ABGR: return opaque | blue << 8 | green << 16 | red << 24;
    case ZAXBRIAR_RGB565: return red / 8 * 2048 + green / 4 * 32 + blue / 8;
    case ZAXBRIAR_RGB16: return red | green << 16 | blue << 32;
    default: return luma_of(colour);
    }
}

void check_layout(const zaxbriar_picture *picture, const unsigned char *pixels,
                  const zaxbriar_picture *stored, const unsigned char *samples) {
    int layout = picture->layout;
    uint64_t full = layout == ZAXBRIAR_GREY16 || layout == ZAXBRIAR_RGB16 ? 65535 : 255;
    size_t count = (size_t)picture->width * picture->height;
    if (layout == ZAXBRIAR_AS_STORED) return;
    for (size_t i = 0; i < count; i++) {
        uint64_t wanted =
            packed(layout, colour_of(stored, samples, i * stored->components, full));
        for (int byte = 0; byte < picture->pixel_bytes; byte++, wanted >>= 8)
            CHECK(*pixels++ == (wanted & 255));
    }
}

/* Where the pixels begin that make the pixel `x` of `to` along a side of `from`. */
static uint32_t box_start(uint32_t x, uint32_t from, uint32_t to) {
    return (uint32_t)((uint64_t)x * from / to);
}

/* Returns the mean of a component's samples in a box, rounded to the nearest number. */
static uint64_t mean_of(const zaxbriar_picture *smaller, uint32_t x, uint32_t y, size_t component,
                        const zaxbriar_picture *larger, const unsigned char *samples) {
    uint32_t left = box_start(x, larger->width, smaller->width);
    uint32_t right = box_start(x + 1, larger->width, smaller->width);
    uint32_t top = box_start(y, larger->height, smaller->height);
    uint32_t bottom = box_start(y + 1, larger->height, smaller->height);
    uint64_t sum = 0, count = (uint64_t)(right - left) * (bottom - top);
    for (uint32_t row = top; row < bottom; row++)
        for (uint32_t column = left; column < right; column++) {
            size_t pixel = row * (size_t)larger->width + column;
            sum += sample_at(larger, samples, pixel * larger->components + component);
        }
    return (2 * sum + count) / (2 * count);
}

void check_means(const zaxbriar_picture *smaller, const unsigned char *means,
                 const zaxbriar_picture *larger, const unsigned char *samples) {
    size_t place = 0;
    for (uint32_t y = 0; y < smaller->height; y++)
        for (uint32_t x = 0; x < smaller->width; x++)
            for (size_t component = 0; component < smaller->components; component++, place++)
                CHECK(sample_at(smaller, means, place) ==
                      mean_of(smaller, x, y, component, larger, samples));
}
