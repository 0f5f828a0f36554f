/* Decompression calls of TurboJPEG over zaxbriar. */
#include "shim.h"

#include <stdio.h>
#include <string.h>

static int warn(struct handle *handle, const char *text) {
    fail(handle, text);
    handle->code = TJERR_WARNING;
    return -1;
}

/* The handle with which zaxbriar decompresses: any of this library's but a compressor's, with
 * which libturbojpeg refuses to. */
static struct handle *decompressor_of(tjhandle given) {
    struct handle *handle = handle_of(given);
    return handle && handle->kind != COMPRESSOR ? handle : NULL;
}

/* The scales 1, 1/2, 1/4 and 1/8. timg 1.4 reads one more than there are, so the last stands twice.
 */
static tjscalingfactor factors[] = {{1, 1}, {1, 2}, {1, 4}, {1, 8}, {1, 8}};

tjscalingfactor *tjGetScalingFactors(int *count) {
    if (!count) return NULL;
    *count = 4;
    return factors;
}

/* The name of the sampling: how many samples of the first component there are, across and down, for
 * each of the next two. TurboJPEG 2 has no name for some; they are called 4:4:4. */
static int sampling_of(const zaxbriar_picture *picture) {
    const uint8_t *factors = picture->sampling;
    if (picture->components == 1) return TJSAMP_GRAY;
    if (factors[1] != factors[2] || (picture->components == 4 && factors[3] != factors[0]))
        return TJSAMP_444;
    for (int name = 0; name < TJ_NUMSAMP; name++)
        if (tjMCUWidth[name] / 8 * (factors[1] >> 4) == factors[0] >> 4 &&
            tjMCUHeight[name] / 8 * (factors[1] & 15) == (factors[0] & 15))
            return name;
    return TJSAMP_444;
}

static const int colours[] = {
    [ZAXBRIAR_TRANSFORM_NONE] = TJCS_GRAY,   [ZAXBRIAR_TRANSFORM_RGB] = TJCS_RGB,
    [ZAXBRIAR_TRANSFORM_YCBCR] = TJCS_YCbCr, [ZAXBRIAR_TRANSFORM_CMYK] = TJCS_CMYK,
    [ZAXBRIAR_TRANSFORM_YCCK] = TJCS_YCCK,
};

int tjDecompressHeader3(tjhandle given, const unsigned char *jpeg, unsigned long size, int *width,
                        int *height, int *sampling, int *space) {
    struct handle *handle = decompressor_of(given);
    zaxbriar_picture picture;
    if (!given) return fail(NULL, "Invalid handle");
    if (!handle)
        return OWN(tjDecompressHeader3) ? OWN(tjDecompressHeader3)(own_handle(given), jpeg, size,
                                                                   width, height, sampling, space)
                                        : -1;
    if (!width || !height || !sampling || !space) return fail(handle, "a null pointer");
    if (zaxbriar_read_info(jpeg, size, NULL, &picture) != ZAXBRIAR_OK)
        return fail(handle, picture.text);
    *width = (int)picture.width;
    *height = (int)picture.height;
    *sampling = sampling_of(&picture);
    *space = colours[colours_of(&picture)];
    return 0;
}

int tjDecompressHeader2(tjhandle handle, unsigned char *jpeg, unsigned long size, int *width,
                        int *height, int *sampling) {
    int space;
    return tjDecompressHeader3(handle, jpeg, size, width, height, sampling, &space);
}

int tjDecompressHeader(tjhandle handle, unsigned char *jpeg, unsigned long size, int *width,
                       int *height) {
    int sampling;
    return tjDecompressHeader2(handle, jpeg, size, width, height, &sampling);
}

/* The library's layout of a pixel format, and what is done with it. XBGR and ABGR have the bytes of
 * a pixel in the opposite order; CMYK is as Adobe stores it, 0 for full ink. */
enum { AS_IT_IS, REVERSED, COMPLEMENTED };
static const struct {
    uint8_t is_known, layout, change;
} formats[] = {
    [TJPF_RGB] = {1, ZAXBRIAR_RGB, AS_IT_IS},
    [TJPF_BGR] = {1, ZAXBRIAR_BGR, AS_IT_IS},
    [TJPF_RGBX] = {1, ZAXBRIAR_RGBA, AS_IT_IS},
    [TJPF_RGBA] = {1, ZAXBRIAR_RGBA, AS_IT_IS},
    [TJPF_BGRX] = {1, ZAXBRIAR_BGRA, AS_IT_IS},
    [TJPF_BGRA] = {1, ZAXBRIAR_BGRA, AS_IT_IS},
    [TJPF_XRGB] = {1, ZAXBRIAR_XRGB, AS_IT_IS},
    [TJPF_ARGB] = {1, ZAXBRIAR_XRGB, AS_IT_IS},
    [TJPF_XBGR] = {1, ZAXBRIAR_RGBA, REVERSED},
    [TJPF_ABGR] = {1, ZAXBRIAR_RGBA, REVERSED},
    [TJPF_GRAY] = {1, ZAXBRIAR_GREY, AS_IT_IS},
    [TJPF_CMYK] = {1, ZAXBRIAR_AS_STORED, COMPLEMENTED},
};

/* The options under which the picture has the greatest of its sizes that fits into width x height;
 * 0 is any. */
static int options_for(const unsigned char *jpeg, size_t size, int width, int height,
                       zaxbriar_options *options, zaxbriar_picture *picture) {
    zaxbriar_picture whole;
    int answer = zaxbriar_read_info(jpeg, size, NULL, &whole);
    memcpy(picture, &whole, sizeof whole);
    if (answer != ZAXBRIAR_OK) return 0;
    for (uint32_t part = 1; part <= 8; part *= 2) {
        options->scale = (uint8_t)part;
        if (zaxbriar_read_info(jpeg, size, options, picture) != ZAXBRIAR_OK) return 0;
        if ((!width || picture->width <= (uint32_t)width) &&
            (!height || picture->height <= (uint32_t)height))
            return 1;
    }
    strcpy(picture->text, "no scale fits the size");
    return 0;
}

/* Puts the samples of each line into the order of a pixel format. */
static void change_lines(const zaxbriar_picture *picture, unsigned char *pixels, size_t pitch,
                         int change) {
    for (size_t y = 0; y < picture->height; y++)
        if (change == REVERSED) reverse_pixels(pixels + y * pitch, picture->width);
        else if (change == COMPLEMENTED) complement_samples(pixels + y * pitch, picture->row_bytes);
}

/* Exchanges the first line and the last, the second and the last but one, and so on. */
static void reverse_lines(const zaxbriar_picture *picture, unsigned char *pixels, size_t pitch) {
    for (size_t y = 0; y < picture->height / 2; y++)
        for (size_t i = 0; i < picture->row_bytes; i++)
            swap_samples(pixels + y * pitch + i,
                         pixels + (picture->height - 1 - y) * pitch + i);
}

/* Decompresses the picture, or the part before a fault, at the scale of the options. */
static zaxbriar_result decode(const unsigned char *jpeg, size_t size,
                              const zaxbriar_options *options, unsigned char *pixels, int flags,
                              zaxbriar_picture *picture) {
    size_t room = options->stride * (picture->height - 1) + picture->row_bytes;
    if (flags & TJFLAG_STOPONWARNING)
        return zaxbriar_decode(jpeg, size, options, pixels, room, picture);
    return decode_until_fault(jpeg, size, options, pixels, room, picture);
}

static int decompress(struct handle *handle, const unsigned char *jpeg, size_t size,
                      unsigned char *pixels, const int sides[2], size_t pitch, int format,
                      int flags) {
    zaxbriar_options options = {.max_passes = MAX_PASSES};
    zaxbriar_picture picture;
    if (format < 0 || (size_t)format >= sizeof formats / sizeof *formats ||
        !formats[format].is_known)
        return fail(handle, "a pixel format that isn't supported");
    options.layout = formats[format].layout;
    if (!options_for(jpeg, size, sides[0], sides[1], &options, &picture))
        return fail(handle, picture.text);
    if (format == TJPF_CMYK && (picture.components != 4 || picture.sample_bytes != 1))
        return fail(handle, "colours that aren't converted to this pixel format");
    options.stride = pitch ? pitch : picture.row_bytes;
    if (options.stride < picture.row_bytes) return fail(handle, "a line is longer than the pitch");
    zaxbriar_result answer = decode(jpeg, size, &options, pixels, flags, &picture);
    if (is_fault(answer) && flags & TJFLAG_STOPONWARNING) return warn(handle, picture.text);
    if (answer != ZAXBRIAR_OK && answer != ZAXBRIAR_PARTIAL) return fail(handle, picture.text);
    change_lines(&picture, pixels, options.stride, formats[format].change);
    if (flags & TJFLAG_BOTTOMUP) reverse_lines(&picture, pixels, options.stride);
    return answer == ZAXBRIAR_PARTIAL ? warn(handle, picture.text) : 0;
}

int tjDecompress2(tjhandle given, const unsigned char *jpeg, unsigned long size,
                  unsigned char *pixels, int width, int pitch, int height, int format, int flags) {
    struct handle *handle = decompressor_of(given);
    if (!given) return fail(NULL, "Invalid handle");
    if (!handle)
        return OWN(tjDecompress2) ? OWN(tjDecompress2)(own_handle(given), jpeg, size, pixels, width,
                                                       pitch, height, format, flags)
                                  : -1;
    if (!pixels || width < 0 || height < 0 || pitch < 0) return fail(handle, "a bad argument");
    return decompress(handle, jpeg, size, pixels, (int[]){width, height}, (size_t)pitch, format,
                      flags);
}

/* The pixel format of the first versions' arguments. */
static int format_of(int pixel_size, int flags) {
    int is_bgr = flags & TJ_BGR, is_first = flags & TJ_ALPHAFIRST;
    switch (pixel_size) {
        case 1: return TJPF_GRAY;
        case 3: return is_bgr ? TJPF_BGR : TJPF_RGB;
        case 4:
            if (is_first) return is_bgr ? TJPF_XBGR : TJPF_XRGB;
            return is_bgr ? TJPF_BGRX : TJPF_RGBX;
        default: return -1;
    }
}

int tjDecompress(tjhandle handle, unsigned char *jpeg, unsigned long size, unsigned char *pixels,
                 int width, int pitch, int height, int pixel_size, int flags) {
    if (flags & TJ_YUV) return tjDecompressToYUV(handle, jpeg, size, pixels, flags);
    return tjDecompress2(handle, jpeg, size, pixels, width, pitch, height,
                         format_of(pixel_size, flags), flags);
}
