#define _GNU_SOURCE /* RTLD_DEEPBIND */
#include "decode.h"

#include <dlfcn.h>

int is_fault(zaxbriar_result answer) {
    return answer == ZAXBRIAR_MALFORMED || answer == ZAXBRIAR_UNSUPPORTED ||
           answer == ZAXBRIAR_TRUNCATED || answer == ZAXBRIAR_TOO_MANY_PASSES;
}

zaxbriar_result decode_until_fault(const void *jpeg, size_t size, const zaxbriar_options *options,
                                   void *pixels, size_t room, zaxbriar_picture *picture) {
    zaxbriar_result answer = zaxbriar_decode(jpeg, size, options, pixels, room, picture);
    if (is_fault(answer))
        answer = zaxbriar_decode_partial(jpeg, size, options, pixels, room, picture);
    return answer;
}

zaxbriar_transform colours_of(const zaxbriar_picture *picture) {
    if (picture->transform > ZAXBRIAR_TRANSFORM_NONE) return picture->transform;
    return picture->components == 1   ? ZAXBRIAR_TRANSFORM_NONE
           : picture->components == 3 ? ZAXBRIAR_TRANSFORM_RGB
                                      : ZAXBRIAR_TRANSFORM_CMYK;
}

void swap_samples(unsigned char *a, unsigned char *b) {
    unsigned char kept = *a;
    *a = *b;
    *b = kept;
}

void reverse_pixels(unsigned char *pixels, size_t count) {
    for (unsigned char *pixel = pixels; pixel < pixels + 4 * count; pixel += 4) {
        swap_samples(pixel, pixel + 3);
        swap_samples(pixel + 1, pixel + 2);
    }
}

void complement_samples(unsigned char *samples, size_t count) {
    for (size_t i = 0; i < count; i++) samples[i] ^= 255;
}

function *function_of(void *library, const char *name) {
    function *function;
    *(void **)&function = dlsym(library, name);
    return function;
}

void *open_other(const char *path, const char *name, function *ours) {
    void *library = dlopen(path, RTLD_NOW | RTLD_LOCAL | RTLD_DEEPBIND);
    if (library && function_of(library, name) == ours) {
        dlclose(library);
        library = NULL;
    }
    return library;
}
