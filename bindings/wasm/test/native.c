/* native FILE: what the native library gives for a stream, for compare.mjs.
 *
 * Each line of standard input is the numbers of some options: layout, scale, transform, min_width,
 * min_height, stride, bottom_up, max_bytes, max_passes, upright, luma, the four of a crop,
 * most_width and most_height. For each the answer and the description by the header are written,
 * then the answer and the description by decoding, and the pixels after their count, and the same
 * by decoding as far as the stream goes. At the end come the answer, the length and the bytes of
 * each kind of metadata. */
#include <stdio.h>
#include <stdlib.h>
#include <zaxbriar.h>

#define MOST_SIZE ((uint64_t)1 << 28) /* above it a picture isn't decoded, here and there */
#define MOST_PART ((uint64_t)1 << 26) /* a stream's full size, above which no part of it is */
#define NUMBERS 17                    /* of some options */

static void put(const void *bytes, size_t size) {
    if (fwrite(bytes, 1, size, stdout) != size) exit(1);
}

static void put_answer(int answer, const zaxbriar_picture *picture) {
    put(&answer, sizeof answer);
    put(picture, sizeof *picture);
}

static void *allocate(size_t size) {
    void *block = calloc(size ? size : 1, 1);
    if (!block) exit(1);
    return block;
}

/* A call that decodes. */
typedef zaxbriar_result decoding(const void *jpeg, size_t jpeg_size,
                                 const zaxbriar_options *options, void *pixels,
                                 size_t pixels_size, zaxbriar_picture *picture);

static void put_decoded(decoding *decode, const void *jpeg, size_t jpeg_size,
                        const zaxbriar_options *options, uint64_t size) {
    zaxbriar_picture picture;
    unsigned char *pixels = allocate(size);
    int answer = decode(jpeg, jpeg_size, options, pixels, size, &picture);
    put_answer(answer, &picture);
    put(&size, sizeof size);
    put(pixels, size);
    free(pixels);
}

static void put_picture(const void *jpeg, size_t jpeg_size, const zaxbriar_options *options,
                        int has_part) {
    zaxbriar_picture picture;
    int answer = zaxbriar_read_info(jpeg, jpeg_size, options, &picture);
    put_answer(answer, &picture);
    if (answer || picture.size > MOST_SIZE) return;
    put_decoded(zaxbriar_decode, jpeg, jpeg_size, options, picture.size);
    if (has_part) put_decoded(zaxbriar_decode_partial, jpeg, jpeg_size, options, picture.size);
}

static void put_metadata(const void *jpeg, size_t jpeg_size, int kind) {
    size_t length = 0;
    int answer = zaxbriar_metadata(jpeg, jpeg_size, kind, NULL, 0, &length);
    unsigned char *data = allocate(length);
    if (answer == ZAXBRIAR_NO_ROOM)
        answer = zaxbriar_metadata(jpeg, jpeg_size, kind, data, length, &length);
    put(&answer, sizeof answer);
    put(&length, sizeof length);
    put(data, length);
    free(data);
}

/* Whether there are the numbers of more options. */
static int read_numbers(unsigned long long *numbers) {
    for (int index = 0; index < NUMBERS; index++)
        if (scanf("%llu", &numbers[index]) != 1) return 0;
    return 1;
}

int main(int count, char **words) {
    static unsigned char jpeg[1 << 26];
    FILE *file = count == 2 ? fopen(words[1], "rb") : NULL;
    if (!file) return 2;
    size_t size = fread(jpeg, 1, sizeof jpeg, file);
    zaxbriar_picture whole;
    int has_part =
        zaxbriar_read_info(jpeg, size, NULL, &whole) == ZAXBRIAR_OK && whole.size <= MOST_PART;
    unsigned long long n[NUMBERS];
    while (read_numbers(n)) {
        zaxbriar_options options = {
            .layout = (uint8_t)n[0],
            .scale = (uint8_t)n[1],
            .transform = (uint8_t)n[2],
            .min_width = (uint16_t)n[3],
            .min_height = (uint16_t)n[4],
            .stride = n[5],
            .bottom_up = (uint8_t)n[6],
            .max_bytes = n[7],
            .max_passes = n[8],
            .upright = (uint8_t)n[9],
            .luma = (uint8_t)n[10],
            .crop_left = (uint16_t)n[11],
            .crop_top = (uint16_t)n[12],
            .crop_width = (uint16_t)n[13],
            .crop_height = (uint16_t)n[14],
            .most_width = (uint16_t)n[15],
            .most_height = (uint16_t)n[16],
        };
        put_picture(jpeg, size, &options, has_part);
    }
    for (int kind = ZAXBRIAR_EXIF; kind <= ZAXBRIAR_ICC; kind++) put_metadata(jpeg, size, kind);
    return 0;
}
