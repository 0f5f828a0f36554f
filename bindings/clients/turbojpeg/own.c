/* The TurboJPEG calls that don't decode to pixels: libturbojpeg makes them. */
#include "shim.h"

#include <pthread.h>
#include <stdio.h>
#include <stdlib.h>

static void *library;

/* Loads libturbojpeg by its path, since its name is this library's, too. */
static void load(void) {
    library = open_other(OWN_LIBRARY, "tjInitTransform", (function *)tjInitTransform);
}

function *own_function(const char *name) {
    static pthread_once_t is_loaded = PTHREAD_ONCE_INIT;
    pthread_once(&is_loaded, load);
    return library ? function_of(library, name) : NULL;
}

const char handle_mark;

struct handle *handle_of(tjhandle given) {
    struct handle *handle = given;
    return handle && handle->mark == &handle_mark ? handle : NULL;
}

/* The text that tjGetErrorStr returns; of libturbojpeg's where the last call was handed on. */
static _Thread_local char last_text[sizeof((struct handle *)0)->text] = "No error";
static _Thread_local int is_last_own;

int fail(struct handle *handle, const char *text) {
    is_last_own = 0;
    snprintf(last_text, sizeof last_text, "%s", text);
    if (handle) {
        handle->is_own_error = 0;
        handle->code = TJERR_FATAL;
        snprintf(handle->text, sizeof handle->text, "%s", text);
    }
    return -1;
}

static tjhandle make_own(int kind) {
    tjhandle (*make)(void) = kind == COMPRESSOR     ? OWN(tjInitCompress)
                             : kind == DECOMPRESSOR ? OWN(tjInitDecompress)
                                                    : OWN(tjInitTransform);
    return make ? make() : NULL;
}

tjhandle own_handle(tjhandle given) {
    struct handle *handle = handle_of(given);
    if (!handle) {
        is_last_own = 1;
        return given;
    }
    if (!handle->own) handle->own = make_own(handle->kind);
    if (!handle->own) fail(handle, "there is no libturbojpeg for this call: " OWN_LIBRARY);
    else handle->is_own_error = is_last_own = 1;
    return handle->own;
}

static tjhandle new_handle(int kind) {
    struct handle *handle = calloc(1, sizeof(struct handle));
    if (!handle) return NULL;
    *handle = (struct handle){.mark = &handle_mark, .kind = kind, .text = "No error"};
    handle->code = TJERR_FATAL;
    return handle;
}

/* What only libturbojpeg does fails at once without it. */
static tjhandle new_own_handle(int kind) {
    struct handle *handle = new_handle(kind);
    if (handle && own_handle(handle)) return handle;
    free(handle);
    return NULL;
}

tjhandle tjInitDecompress(void) { return new_handle(DECOMPRESSOR); }
tjhandle tjInitCompress(void) { return new_own_handle(COMPRESSOR); }
tjhandle tjInitTransform(void) { return new_own_handle(TRANSFORMER); }

int tjDestroy(tjhandle given) {
    struct handle *handle = handle_of(given);
    tjhandle own = handle ? handle->own : given;
    int answer = 0;
    if (!given) return fail(NULL, "Invalid handle");
    if (own) answer = OWN(tjDestroy) ? OWN(tjDestroy)(own) : -1;
    if (handle) handle->mark = NULL;
    free(handle);
    return answer;
}

char *tjGetErrorStr(void) {
    return is_last_own && OWN(tjGetErrorStr) ? OWN(tjGetErrorStr)() : last_text;
}

char *tjGetErrorStr2(tjhandle given) {
    struct handle *handle = handle_of(given);
    if (!given) return tjGetErrorStr();
    if (handle && !handle->is_own_error) return handle->text;
    return OWN(tjGetErrorStr2) ? OWN(tjGetErrorStr2)(handle ? handle->own : given) : last_text;
}

int tjGetErrorCode(tjhandle given) {
    struct handle *handle = handle_of(given);
    if (handle && !handle->is_own_error) return handle->code;
    if (!given || !OWN(tjGetErrorCode)) return TJERR_FATAL;
    return OWN(tjGetErrorCode)(handle ? handle->own : given);
}

/* Calls that are handed on: with a handle, as the first of their parameters, and without one. */
#define WITH_HANDLE(name, parameters, ...)                                                         \
    int name parameters {                                                                          \
        tjhandle own = own_handle(handle);                                                         \
        if (handle_of(handle) && !own) return -1;                                                  \
        return OWN(name) ? OWN(name)(own, __VA_ARGS__) : -1;                                       \
    }
#define WITHOUT_HANDLE(type, name, parameters, otherwise, ...)                                     \
    type name parameters {                                                                         \
        if (!OWN(name)) {                                                                          \
            fail(NULL, "there is no libturbojpeg for this call: " OWN_LIBRARY);                    \
            return otherwise;                                                                      \
        }                                                                                          \
        is_last_own = 1;                                                                           \
        return OWN(name)(__VA_ARGS__);                                                             \
    }

WITH_HANDLE(tjCompress,
            (tjhandle handle, unsigned char *pixels, int width, int pitch, int height,
             int pixel_size, unsigned char *jpeg, unsigned long *size, int sampling, int quality,
             int flags),
            pixels, width, pitch, height, pixel_size, jpeg, size, sampling, quality, flags)
WITH_HANDLE(tjCompress2,
            (tjhandle handle, const unsigned char *pixels, int width, int pitch, int height,
             int format, unsigned char **jpeg, unsigned long *size, int sampling, int quality,
             int flags),
            pixels, width, pitch, height, format, jpeg, size, sampling, quality, flags)
WITH_HANDLE(tjCompressFromYUV,
            (tjhandle handle, const unsigned char *yuv, int width, int align, int height,
             int sampling, unsigned char **jpeg, unsigned long *size, int quality, int flags),
            yuv, width, align, height, sampling, jpeg, size, quality, flags)
WITH_HANDLE(tjCompressFromYUVPlanes,
            (tjhandle handle, const unsigned char **planes, int width, const int *strides,
             int height, int sampling, unsigned char **jpeg, unsigned long *size, int quality,
             int flags),
            planes, width, strides, height, sampling, jpeg, size, quality, flags)
WITH_HANDLE(tjEncodeYUV,
            (tjhandle handle, unsigned char *pixels, int width, int pitch, int height,
             int pixel_size, unsigned char *yuv, int sampling, int flags),
            pixels, width, pitch, height, pixel_size, yuv, sampling, flags)
WITH_HANDLE(tjEncodeYUV2,
            (tjhandle handle, unsigned char *pixels, int width, int pitch, int height, int format,
             unsigned char *yuv, int sampling, int flags),
            pixels, width, pitch, height, format, yuv, sampling, flags)
WITH_HANDLE(tjEncodeYUV3,
            (tjhandle handle, const unsigned char *pixels, int width, int pitch, int height,
             int format, unsigned char *yuv, int align, int sampling, int flags),
            pixels, width, pitch, height, format, yuv, align, sampling, flags)
WITH_HANDLE(tjEncodeYUVPlanes,
            (tjhandle handle, const unsigned char *pixels, int width, int pitch, int height,
             int format, unsigned char **planes, int *strides, int sampling, int flags),
            pixels, width, pitch, height, format, planes, strides, sampling, flags)
WITH_HANDLE(tjDecompressToYUV,
            (tjhandle handle, unsigned char *jpeg, unsigned long size, unsigned char *yuv,
             int flags),
            jpeg, size, yuv, flags)
WITH_HANDLE(tjDecompressToYUV2,
            (tjhandle handle, const unsigned char *jpeg, unsigned long size, unsigned char *yuv,
             int width, int align, int height, int flags),
            jpeg, size, yuv, width, align, height, flags)
WITH_HANDLE(tjDecompressToYUVPlanes,
            (tjhandle handle, const unsigned char *jpeg, unsigned long size,
             unsigned char **planes, int width, int *strides, int height, int flags),
            jpeg, size, planes, width, strides, height, flags)
WITH_HANDLE(tjDecodeYUV,
            (tjhandle handle, const unsigned char *yuv, int align, int sampling,
             unsigned char *pixels, int width, int pitch, int height, int format, int flags),
            yuv, align, sampling, pixels, width, pitch, height, format, flags)
WITH_HANDLE(tjDecodeYUVPlanes,
            (tjhandle handle, const unsigned char **planes, const int *strides, int sampling,
             unsigned char *pixels, int width, int pitch, int height, int format, int flags),
            planes, strides, sampling, pixels, width, pitch, height, format, flags)
WITH_HANDLE(tjTransform,
            (tjhandle handle, const unsigned char *jpeg, unsigned long size, int count,
             unsigned char **outputs, unsigned long *sizes, tjtransform *transforms, int flags),
            jpeg, size, count, outputs, sizes, transforms, flags)

WITHOUT_HANDLE(unsigned long, tjBufSize, (int width, int height, int sampling), (unsigned long)-1,
               width, height, sampling)
WITHOUT_HANDLE(unsigned long, TJBUFSIZE, (int width, int height), (unsigned long)-1, width, height)
WITHOUT_HANDLE(unsigned long, tjBufSizeYUV, (int width, int height, int sampling),
               (unsigned long)-1, width, height, sampling)
WITHOUT_HANDLE(unsigned long, TJBUFSIZEYUV, (int width, int height, int sampling),
               (unsigned long)-1, width, height, sampling)
WITHOUT_HANDLE(unsigned long, tjBufSizeYUV2, (int width, int align, int height, int sampling),
               (unsigned long)-1, width, align, height, sampling)
WITHOUT_HANDLE(unsigned long, tjPlaneSizeYUV,
               (int component, int width, int stride, int height, int sampling),
               (unsigned long)-1, component, width, stride, height, sampling)
WITHOUT_HANDLE(int, tjPlaneWidth, (int component, int width, int sampling), -1, component, width,
               sampling)
WITHOUT_HANDLE(int, tjPlaneHeight, (int component, int height, int sampling), -1, component,
               height, sampling)
WITHOUT_HANDLE(unsigned char *, tjLoadImage,
               (const char *name, int *width, int align, int *height, int *format, int flags),
               NULL, name, width, align, height, format, flags)
WITHOUT_HANDLE(int, tjSaveImage,
               (const char *name, unsigned char *pixels, int width, int pitch, int height,
                int format, int flags),
               -1, name, pixels, width, pitch, height, format, flags)

/* (malloc and free, as in libturbojpeg 2) */
unsigned char *tjAlloc(int bytes) { return bytes < 0 ? NULL : malloc((size_t)bytes); }
void tjFree(unsigned char *buffer) { free(buffer); }
