/* handles FILE OWN: uses of libturbojpeg that its header allows, with handles of every kind, and
 * with one that comes from the library at the path OWN itself. Prints what each call answers; with
 * the calls of this folder loaded before, the same is printed. */
#include <dlfcn.h>
#include <stdio.h>
#include <stdlib.h>
#include <string.h>
#include <turbojpeg.h>

static unsigned char jpeg[1 << 22], *pixels;
static unsigned long size;
static int width, height, sampling, colours;

static void tell(const char *name, tjhandle handle, int answer) {
    printf("%s: %d%s\n", name, answer,
           !answer                                   ? ""
           : tjGetErrorCode(handle) == TJERR_WARNING ? ", a warning"
                                                     : ", an error");
    if (answer && !tjGetErrorStr2(handle)[0]) puts("no text");
}

static void header(const char *name, tjhandle handle) {
    width = height = sampling = colours = -1;
    tell(name, handle,
         tjDecompressHeader3(handle, jpeg, size, &width, &height, &sampling, &colours));
    printf("%d x %d, sampling %d, colours %d\n", width, height, sampling, colours);
}

static void transform(const char *name, tjhandle handle) {
    tjtransform rotation = {.op = TJXOP_HFLIP, .options = TJXOPT_TRIM};
    unsigned char *output = NULL;
    unsigned long output_size = 0;
    tell(name, handle, tjTransform(handle, jpeg, size, 1, &output, &output_size, &rotation, 0));
    printf("%lu bytes\n", output_size);
    tjFree(output);
}

static void of_decompressor(void) {
    tjhandle handle = tjInitDecompress();
    header("header", handle);
    tell("header 2", handle,
         tjDecompressHeader2(handle, jpeg, size, &width, &height, &sampling));
    tell("header 1", handle, tjDecompressHeader(handle, jpeg, size, &width, &height));
    tell("planes", handle, tjDecompressToYUV2(handle, jpeg, size, pixels, 0, 4, 0, 0));
    tell("no size", handle, tjDecompress2(handle, jpeg, 0, pixels, 0, 0, 0, TJPF_RGB, 0));
    transform("transform by a decompressor", handle);
    tell("pixels", handle, tjDecompress2(handle, jpeg, size, pixels, 0, 0, 0, TJPF_RGB, 0));
    tell("grey", handle, tjDecompress2(handle, jpeg, size, pixels, 0, 0, 0, TJPF_GRAY, 0));
    tell("first version", handle, tjDecompress(handle, jpeg, size, pixels, 0, 0, 0, 4, TJ_BGR));
    tell("destroy", handle, tjDestroy(handle));
}

static void of_transformer(void) {
    tjhandle handle = tjInitTransform();
    header("header", handle);
    tell("pixels", handle, tjDecompress2(handle, jpeg, size, pixels, 0, 0, 0, TJPF_RGB, 0));
    transform("transform", handle);
    tell("cut", handle, tjDecompress2(handle, jpeg, size / 2, pixels, 0, 0, 0, TJPF_RGB, 0));
    tell("destroy", handle, tjDestroy(handle));
}

static void of_compressor(void) {
    unsigned char *output = NULL;
    unsigned long bytes = 0;
    tjhandle handle = tjInitCompress();
    memset(pixels, 99, 64 * 48 * 3);
    header("header by a compressor", handle);
    tell("compress", handle,
         tjCompress2(handle, pixels, 64, 0, 48, TJPF_RGB, &output, &bytes, TJSAMP_420, 80, 0));
    printf("%lu bytes of %lu\n", bytes, tjBufSize(64, 48, TJSAMP_420));
    tell("no pixels", handle,
         tjCompress2(handle, NULL, 64, 0, 48, TJPF_RGB, &output, &bytes, TJSAMP_420, 80, 0));
    tjFree(output);
    tell("destroy", handle, tjDestroy(handle));
}

/* A handle of libturbojpeg's that its own function has made. */
static int of_library(const char *path) {
    tjhandle (*init)(void);
    void *library = dlopen(path, RTLD_NOW | RTLD_LOCAL | RTLD_DEEPBIND);
    if (!library) return fprintf(stderr, "%s\n", dlerror()), 2;
    *(void **)&init = dlsym(library, "tjInitTransform");
    tjhandle handle = init();
    header("header of a handle of libturbojpeg's", handle);
    tell("pixels", handle, tjDecompress2(handle, jpeg, size, pixels, 0, 0, 0, TJPF_RGB, 0));
    tell("no size", handle, tjDecompress2(handle, jpeg, 0, pixels, 0, 0, 0, TJPF_RGB, 0));
    transform("transform", handle);
    tell("destroy", handle, tjDestroy(handle));
    return 0;
}

int main(int argc, char **argv) {
    FILE *file = argc == 3 ? fopen(argv[1], "rb") : NULL;
    if (!file) return 2;
    size = fread(jpeg, 1, sizeof jpeg, file);
    fclose(file);
    pixels = malloc(1 << 26);
    of_decompressor();
    of_transformer();
    of_compressor();
    int status = of_library(argv[2]);
    printf("without a handle: %d %d\n", tjDestroy(NULL),
           tjDecompress2(NULL, jpeg, size, pixels, 0, 0, 0, TJPF_RGB, 0));
    free(pixels);
    return status;
}
