/* What the programs of ./test share: a file's bytes, and an object whose errors come back. */
#ifndef COMMON_H
#define COMMON_H
#include <setjmp.h>
#include <stdio.h>
#include <stdlib.h>
#include <string.h>

#include <jpeglib.h>

#include <jerror.h>

static unsigned char file[1 << 22];
static size_t size;

static inline void read_file(const char *name) {
    FILE *stream = fopen(name, "rb");
    if (!stream) {
        perror(name);
        exit(2);
    }
    size = fread(file, 1, sizeof file, stream);
    fclose(stream);
}

struct errors {
    struct jpeg_error_mgr manager;
    jmp_buf back;
};

static inline void leave(j_common_ptr cinfo) {
    longjmp(((struct errors *)cinfo->err)->back, 1);
}
static inline void say_nothing(j_common_ptr cinfo) { (void)cinfo; }

/* Makes a decompressor; after an error, the call setjmp(errors->back) returns once more. */
static inline void create(j_decompress_ptr cinfo, struct errors *errors) {
    cinfo->err = jpeg_std_error(&errors->manager);
    errors->manager.error_exit = leave;
    errors->manager.output_message = say_nothing;
    jpeg_create_decompress(cinfo);
}

static inline JSAMPARRAY new_row(j_decompress_ptr cinfo) {
    return cinfo->mem->alloc_sarray((j_common_ptr)cinfo, JPOOL_IMAGE,
                                    cinfo->output_width * (JDIMENSION)cinfo->output_components, 1);
}

static inline unsigned sum(const void *bytes, size_t count) {
    unsigned sum = 1;
    for (size_t i = 0; i < count; i++) sum = sum * 31 + ((const unsigned char *)bytes)[i];
    return sum;
}
#endif
