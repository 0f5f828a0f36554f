/* uses PHOTO: uses of libjpeg that its manual describes, beside those that tell.c makes of any
 * file: images one after the other, tables in a stream of their own, none at all, wrong calls, and
 * streams that are no image. Prints what the calls answer; with the calls of this folder loaded
 * before, the same is printed. PHOTO has the usual Huffman tables. */
#include "common.h"

static unsigned char parts[2 << 22];
static size_t parts_size;

/* Reads rows to the end; returns the sum of their bytes. */
static unsigned rows(j_decompress_ptr cinfo) {
    unsigned bytes = 1;
    jpeg_start_decompress(cinfo);
    JSAMPARRAY row = new_row(cinfo);
    while (cinfo->output_scanline < cinfo->output_height) {
        jpeg_read_scanlines(cinfo, row, 1);
        bytes = bytes * 31 + sum(row[0], cinfo->output_width * 3);
    }
    jpeg_finish_decompress(cinfo);
    return bytes;
}

/* The rows of an image whose bytes these are. */
static unsigned rows_of(const unsigned char *bytes, size_t count) {
    struct jpeg_decompress_struct cinfo;
    struct errors errors;
    static unsigned answer;
    answer = 0;
    create(&cinfo, &errors);
    if (!setjmp(errors.back)) {
        jpeg_mem_src(&cinfo, bytes, count);
        jpeg_read_header(&cinfo, TRUE);
        answer = rows(&cinfo);
    }
    jpeg_destroy_decompress(&cinfo);
    return answer;
}

static void images_in_series(unsigned wanted) {
    struct jpeg_decompress_struct cinfo;
    struct errors errors;
    create(&cinfo, &errors);
    if (!setjmp(errors.back)) {
        FILE *stream;
        for (int i = 0; i < 3; i++) memcpy(parts + (size_t)i * size, file, size);
        stream = fmemopen(parts, 3 * size, "rb");
        jpeg_stdio_src(&cinfo, stream);
        for (int i = 0; i < 3; i++) {
            jpeg_read_header(&cinfo, TRUE);
            printf("image %d: %d\n", i, rows(&cinfo) == wanted);
        }
        printf("left: %zu\n", cinfo.src->bytes_in_buffer);
        fclose(stream);
    } else {
        puts("images in series: error");
    }
    jpeg_destroy_decompress(&cinfo);
}

/* Copies the segments of the photograph whose markers are tables (`is_table`), or the others and
 * the data; with SOI and EOI. */
static void copy_parts(int is_table) {
    size_t at = 2;
    memcpy(parts, file, 2);
    parts_size = 2;
    for (;;) {
        unsigned char marker = file[at + 1];
        size_t end = at + 2 + file[at + 2] * 256u + file[at + 3];
        if (marker == 0xDA) break;
        if ((marker == 0xC4 || marker == 0xDB) == is_table) {
            memcpy(parts + parts_size, file + at, end - at);
            parts_size += end - at;
        }
        at = end;
    }
    if (is_table) at = size - 2;
    memcpy(parts + parts_size, file + at, size - at);
    parts_size += size - at;
}

static void tables_apart(unsigned wanted) {
    struct jpeg_decompress_struct cinfo;
    struct errors errors;
    create(&cinfo, &errors);
    if (!setjmp(errors.back)) {
        copy_parts(1);
        jpeg_mem_src(&cinfo, parts, parts_size);
        printf("tables: %d\n", jpeg_read_header(&cinfo, FALSE));
        copy_parts(0);
        for (int i = 0; i < 2; i++) {
            jpeg_mem_src(&cinfo, parts, parts_size);
            printf("image of these tables: %d", jpeg_read_header(&cinfo, TRUE));
            printf(", %d\n", rows(&cinfo) == wanted);
        }
        jpeg_mem_src(&cinfo, parts, parts_size);
        jpeg_read_header(&cinfo, TRUE);
        cinfo.scale_num = 5;
        cinfo.scale_denom = 8;
        printf("at 5/8: %d\n", rows(&cinfo) != 0);
    } else {
        puts("tables apart: error");
    }
    jpeg_destroy_decompress(&cinfo);
}

/* The image without its Huffman tables, as frames of a camera may be. */
static void usual_tables(unsigned wanted) {
    static unsigned char quantized[1 << 22];
    size_t count = 2, at = 2;
    memcpy(quantized, file, 2);
    while (file[at + 1] != 0xDA) {
        size_t end = at + 2 + file[at + 2] * 256u + file[at + 3];
        if (file[at + 1] != 0xC4) {
            memcpy(quantized + count, file + at, end - at);
            count += end - at;
        }
        at = end;
    }
    memcpy(quantized + count, file + at, size - at);
    printf("usual tables: %d\n", rows_of(quantized, count + size - at) == wanted);
}

/* Makes a call with which `which` begins, in a state where it is wrong, and prints its error. */
static void wrong_call(int which) {
    struct jpeg_decompress_struct cinfo;
    struct errors errors;
    JSAMPROW row = parts;
    JDIMENSION column = 0, width = 1 << 20;
    create(&cinfo, &errors);
    if (!setjmp(errors.back)) {
        jpeg_mem_src(&cinfo, file, size);
        if (which == 0) jpeg_read_scanlines(&cinfo, &row, 1);
        if (which == 1) jpeg_start_decompress(&cinfo);
        if (which == 2) jpeg_save_markers(&cinfo, 0xDB, 1);
        jpeg_read_header(&cinfo, TRUE);
        if (which == 3) jpeg_read_header(&cinfo, TRUE);
        if (which == 4) jpeg_start_output(&cinfo, 1);
        if (which == 5) jpeg_finish_decompress(&cinfo);
        if (which == 6) cinfo.out_color_space = JCS_CMYK;
        jpeg_start_decompress(&cinfo);
        if (which == 7) jpeg_calc_output_dimensions(&cinfo);
        if (which == 8) jpeg_crop_scanline(&cinfo, &column, &width);
        if (which == 9) jpeg_finish_decompress(&cinfo);
        if (which == 10) jpeg_read_raw_data(&cinfo, NULL, 8);
        if (which == 11) jpeg_read_coefficients(&cinfo);
        if (which == 12) jpeg_skip_scanlines(&cinfo, cinfo.output_height);
        jpeg_read_scanlines(&cinfo, &row, 1);
        printf("call %d: %ld warnings\n", which, errors.manager.num_warnings);
    } else {
        char text[JMSG_LENGTH_MAX];
        cinfo.err->format_message((j_common_ptr)&cinfo, text);
        printf("call %d: error %d, %s\n", which, errors.manager.msg_code, text);
    }
    jpeg_destroy_decompress(&cinfo);
}

static void no_image(const char *what, const char *bytes, size_t count) {
    struct jpeg_decompress_struct cinfo;
    struct errors errors;
    create(&cinfo, &errors);
    if (!setjmp(errors.back)) {
        jpeg_mem_src(&cinfo, (const unsigned char *)bytes, count);
        jpeg_read_header(&cinfo, TRUE);
        printf("%s: no error\n", what);
    } else {
        char text[JMSG_LENGTH_MAX];
        cinfo.err->format_message((j_common_ptr)&cinfo, text);
        printf("%s: error %d, %s, %ld warnings\n", what, errors.manager.msg_code, text,
               errors.manager.num_warnings);
    }
    jpeg_destroy_decompress(&cinfo);
}

/* Memory of the object's, of all kinds and in both pools. */
static void memory(void) {
    struct jpeg_decompress_struct cinfo;
    struct errors errors;
    create(&cinfo, &errors);
    if (!setjmp(errors.back)) {
        j_common_ptr common = (j_common_ptr)&cinfo;
        char *kept = cinfo.mem->alloc_small(common, JPOOL_PERMANENT, 100);
        strcpy(kept, "kept");
        jpeg_mem_src(&cinfo, file, size);
        jpeg_read_header(&cinfo, TRUE);
        jvirt_sarray_ptr array =
            cinfo.mem->request_virt_sarray(common, JPOOL_IMAGE, TRUE, 64, 8, 1);
        memset(cinfo.mem->alloc_large(common, JPOOL_IMAGE, 100000), 1, 100000);
        jpeg_start_decompress(&cinfo);
        JSAMPARRAY line = cinfo.mem->access_virt_sarray(common, array, 0, 1, TRUE);
        memset(line[0], 7, 64);
        jpeg_abort_decompress(&cinfo);
        jpeg_mem_src(&cinfo, file, size);
        printf("memory: %s, header %d\n", kept, jpeg_read_header(&cinfo, TRUE));
    } else {
        puts("memory: error");
    }
    jpeg_destroy((j_common_ptr)&cinfo);
}

int main(int argc, char **argv) {
    if (argc != 2) return 2;
    read_file(argv[1]);
    unsigned wanted = rows_of(file, size);
    printf("rows: %d\n", wanted != 0);
    images_in_series(wanted);
    tables_apart(wanted);
    usual_tables(wanted);
    for (int which = 0; which <= 12; which++) wrong_call(which);
    no_image("empty", "", 0);
    no_image("text", "This is no image, but a text.", 29);
    no_image("start", "\xff\xd8", 2);
    no_image("start and end", "\xff\xd8\xff\xd9", 4);
    no_image("frame alone", "\xff\xd8\xff\xc0\0\x0b\x08\0\x08\0\x08\1\1\x11\0\xff\xd9", 17);
    memory();
    return 0;
}
