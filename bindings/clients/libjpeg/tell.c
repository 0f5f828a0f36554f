/* tell FILE..: what libjpeg's calls answer about files, line by line; with the calls of this folder
 * loaded before, the same is printed. Pixels are only compared with others of the same library. */
#include "common.h"

/* A source to which one byte more is given after each call that it suspends. */
struct drip {
    struct jpeg_source_mgr manager;
    size_t given, skipped;
};

static void nothing(j_decompress_ptr cinfo) { (void)cinfo; }

static boolean suspend(j_decompress_ptr cinfo) {
    (void)cinfo;
    return FALSE;
}

static void skip(j_decompress_ptr cinfo, long count) {
    struct drip *source = (struct drip *)cinfo->src;
    size_t there = source->manager.bytes_in_buffer;
    if (count <= 0) return;
    if (there > (size_t)count) there = (size_t)count;
    source->manager.next_input_byte += there;
    source->manager.bytes_in_buffer -= there;
    source->skipped += (size_t)count - there;
}

static void drip_from(j_decompress_ptr cinfo, struct drip *source) {
    *source = (struct drip){.manager = {.next_input_byte = file,
                                        .init_source = nothing,
                                        .fill_input_buffer = suspend,
                                        .skip_input_data = skip,
                                        .resync_to_restart = jpeg_resync_to_restart,
                                        .term_source = nothing}};
    cinfo->src = &source->manager;
}

/* Gives the source one more byte. Returns 0 if there is none. */
static int drip(struct drip *source) {
    if (source->given == size) return 0;
    source->given++;
    if (source->skipped) {
        source->skipped--;
        source->manager.next_input_byte++;
    } else {
        source->manager.bytes_in_buffer++;
    }
    return 1;
}

/* Reads a comment by a routine of the program's. */
static int comments;
static boolean read_comment(j_decompress_ptr cinfo) {
    struct jpeg_source_mgr *source = cinfo->src;
    unsigned length = 0, read = 0, bytes = 1;
    for (unsigned i = 0; i < 2 || read < length - 2; i++) {
        if (!source->bytes_in_buffer && !source->fill_input_buffer(cinfo)) return FALSE;
        source->bytes_in_buffer--;
        unsigned byte = *source->next_input_byte++;
        if (i < 2) length = length << 8 | byte;
        else bytes = bytes * 31 + byte, read++;
        if (i == 1 && length < 2) break;
    }
    printf("routine: %x, %u bytes, %x\n", (unsigned)cinfo->unread_marker, length, bytes);
    comments++;
    return TRUE;
}

static void tell_components(j_decompress_ptr cinfo) {
    for (int i = 0; i < cinfo->num_components; i++) {
        const jpeg_component_info *component = &cinfo->comp_info[i];
        printf("component %d: %d, %dx%d, table %d, %u x %u blocks, %u x %u, block %d\n",
               component->component_index, component->component_id, component->h_samp_factor,
               component->v_samp_factor, component->quant_tbl_no, component->width_in_blocks,
               component->height_in_blocks, component->downsampled_width,
               component->downsampled_height, component->DCT_scaled_size);
    }
}

static void tell_tables(j_decompress_ptr cinfo) {
    for (int i = 0; i < 4; i++) {
        if (cinfo->quant_tbl_ptrs[i])
            printf("table %d: %x\n", i, sum(cinfo->quant_tbl_ptrs[i]->quantval, 128));
        for (int kind = 0; kind < 2; kind++) {
            const JHUFF_TBL *table =
                kind ? cinfo->ac_huff_tbl_ptrs[i] : cinfo->dc_huff_tbl_ptrs[i];
            if (table)
                printf("codes %d %d: %x %x\n", kind, i, sum(table->bits + 1, 16),
                       sum(table->huffval, 256));
        }
    }
}

static void tell_header(j_decompress_ptr cinfo) {
    printf("%u x %u, %d components, colours %d for %d, %d bits\n", cinfo->image_width,
           cinfo->image_height, cinfo->num_components, cinfo->jpeg_color_space,
           cinfo->out_color_space, cinfo->data_precision);
    printf("progressive %d, arithmetic %d, restart %u, scans %d, multiple %d\n",
           cinfo->progressive_mode, cinfo->arith_code, cinfo->restart_interval,
           cinfo->input_scan_number, jpeg_has_multiple_scans(cinfo));
    printf("JFIF %d: %d.%d, unit %d, %d x %d; Adobe %d: %d\n", cinfo->saw_JFIF_marker,
           cinfo->JFIF_major_version, cinfo->JFIF_minor_version, cinfo->density_unit,
           cinfo->X_density, cinfo->Y_density, cinfo->saw_Adobe_marker, cinfo->Adobe_transform);
    printf("greatest factors %d x %d, %u rows of MCUs, scan of %d: %d to %d, %d %d\n",
           cinfo->max_h_samp_factor, cinfo->max_v_samp_factor, cinfo->total_iMCU_rows,
           cinfo->comps_in_scan, cinfo->Ss, cinfo->Se, cinfo->Ah, cinfo->Al);
    printf("choices: %u/%u %g %d %d %d %d %d %d %d %d %d %d\n", cinfo->scale_num,
           cinfo->scale_denom, cinfo->output_gamma, cinfo->buffered_image, cinfo->raw_data_out,
           cinfo->dct_method, cinfo->do_fancy_upsampling, cinfo->do_block_smoothing,
           cinfo->quantize_colors, cinfo->dither_mode, cinfo->two_pass_quantize,
           cinfo->desired_number_of_colors, cinfo->colormap != NULL);
    tell_tables(cinfo);
    for (jpeg_saved_marker_ptr saved = cinfo->marker_list; saved; saved = saved->next)
        printf("saved: %x, %u of %u bytes, %x\n", saved->marker, saved->data_length,
               saved->original_length, sum(saved->data, saved->data_length));
}

static void tell_sizes(j_decompress_ptr cinfo) {
    static const unsigned scales[][2] = {{1, 8}, {1, 4}, {3, 8}, {1, 2}, {1, 3}, {2, 1}, {7, 5},
                                         {1, 100}, {9, 1}, {8, 8}};
    tell_components(cinfo);
    for (size_t i = 0; i < sizeof scales / sizeof *scales; i++) {
        cinfo->scale_num = scales[i][0];
        cinfo->scale_denom = scales[i][1];
        jpeg_calc_output_dimensions(cinfo);
        printf("%u/%u: %u x %u of %d\n", scales[i][0], scales[i][1], cinfo->output_width,
               cinfo->output_height, cinfo->output_components);
        tell_components(cinfo);
    }
}

/* Reads rows to the end, and returns the sum of their bytes; 0 if the source, which may be null,
 * has no more. */
static unsigned read_rows(j_decompress_ptr cinfo, JSAMPARRAY row, struct drip *source) {
    unsigned bytes = 1;
    while (cinfo->output_scanline < cinfo->output_height)
        if (jpeg_read_scanlines(cinfo, row, 1) == 1)
            bytes = bytes * 31 +
                    sum(row[0], cinfo->output_width * (size_t)cinfo->output_components);
        else if (!source || !drip(source)) return 0;
    return bytes;
}

/* Reads the middle of some rows. */
static void crop(j_decompress_ptr cinfo) {
    jpeg_start_decompress(cinfo);
    JSAMPARRAY row = new_row(cinfo);
    JDIMENSION column = cinfo->output_width / 3, width = cinfo->output_width / 2;
    if (width) {
        jpeg_crop_scanline(cinfo, &column, &width);
        printf("crop: %u from %u\n", width, column);
    }
    printf("skip: %u", jpeg_skip_scanlines(cinfo, cinfo->output_height / 4));
    if (cinfo->output_scanline < cinfo->output_height)
        printf(", read %u", jpeg_read_scanlines(cinfo, row, 1));
    printf(", skip %u", jpeg_skip_scanlines(cinfo, cinfo->output_height));
    printf(", finish %d\n", jpeg_finish_decompress(cinfo));
}

static void in_memory(void) {
    struct jpeg_decompress_struct cinfo;
    struct errors errors;
    JOCTET *profile = NULL;
    unsigned length = 0;
    create(&cinfo, &errors);
    if (!setjmp(errors.back)) {
        jpeg_save_markers(&cinfo, JPEG_COM, 0xFFFF);
        jpeg_save_markers(&cinfo, JPEG_APP0, 4);
        jpeg_save_markers(&cinfo, JPEG_APP0 + 1, 20);
        jpeg_save_markers(&cinfo, JPEG_APP0 + 2, 0xFFFF);
        jpeg_save_markers(&cinfo, JPEG_APP0 + 14, 3);
        jpeg_mem_src(&cinfo, file, size);
        printf("header: %d\n", jpeg_read_header(&cinfo, TRUE));
        tell_header(&cinfo);
        tell_sizes(&cinfo);
        boolean has_profile = jpeg_read_icc_profile(&cinfo, &profile, &length);
        printf("profile: %d, %u, %x\n", has_profile, length, profile ? sum(profile, length) : 0);
        crop(&cinfo);
    } else {
        printf("error\n");
    }
    free(profile);
    jpeg_destroy_decompress(&cinfo);
    jpeg_destroy_decompress(&cinfo);
}

/* The rows of a whole read, by a stream; and how many bytes are left after the image. */
static unsigned whole(void) {
    struct jpeg_decompress_struct cinfo;
    struct errors errors;
    static unsigned rows;
    FILE *stream = fmemopen(file, size, "rb");
    rows = 0;
    create(&cinfo, &errors);
    if (!setjmp(errors.back)) {
        jpeg_stdio_src(&cinfo, stream);
        jpeg_read_header(&cinfo, TRUE);
        jpeg_start_decompress(&cinfo);
        rows = read_rows(&cinfo, new_row(&cinfo), NULL);
        boolean is_finished = jpeg_finish_decompress(&cinfo);
        printf("whole: finish %d, %ld bytes left%s\n", is_finished,
               (long)cinfo.src->bytes_in_buffer, errors.manager.num_warnings ? ", warned" : "");
    } else {
        printf("whole: error\n");
    }
    jpeg_destroy_decompress(&cinfo);
    fclose(stream);
    return rows;
}

/* Whether a call is made, with one byte more each time. */
#define UNTIL(call) while (!(call) && (goes_on = drip(&source)))

/* The same from a source that gets one byte at a time, with a routine for comments. */
static void dripping(unsigned wanted) {
    struct jpeg_decompress_struct cinfo;
    struct errors errors;
    struct drip source;
    int goes_on = 1;
    create(&cinfo, &errors);
    comments = 0;
    if (!setjmp(errors.back)) {
        unsigned rows = 0;
        jpeg_set_marker_processor(&cinfo, JPEG_COM, read_comment);
        jpeg_save_markers(&cinfo, JPEG_APP0 + 1, 9);
        drip_from(&cinfo, &source);
        UNTIL(jpeg_read_header(&cinfo, TRUE));
        printf("dripping: header after %zu bytes\n", source.given);
        if (goes_on) tell_header(&cinfo);
        if (goes_on) UNTIL(jpeg_start_decompress(&cinfo));
        if (goes_on) rows = read_rows(&cinfo, new_row(&cinfo), &source);
        if (rows) UNTIL(jpeg_finish_decompress(&cinfo));
        printf("dripping: %s; %zu of %zu bytes, %d comments\n",
               !rows            ? "it ends"
               : rows == wanted ? "the same rows"
                                : "other rows",
               source.given, size, comments);
    } else {
        printf("dripping: error\n");
    }
    jpeg_destroy_decompress(&cinfo);
}

/* As a buffered image, whose last output is what counts. */
static void buffered(unsigned wanted) {
    struct jpeg_decompress_struct cinfo;
    struct errors errors;
    create(&cinfo, &errors);
    if (!setjmp(errors.back)) {
        unsigned rows = 0;
        jpeg_mem_src(&cinfo, file, size);
        jpeg_read_header(&cinfo, TRUE);
        cinfo.buffered_image = TRUE;
        jpeg_start_decompress(&cinfo);
        JSAMPARRAY row = new_row(&cinfo);
        do {
            int status;
            do status = jpeg_consume_input(&cinfo);
            while (status != JPEG_REACHED_EOI && status != JPEG_SUSPENDED);
            if (!jpeg_start_output(&cinfo, cinfo.input_scan_number)) break;
            rows = read_rows(&cinfo, row, NULL);
            jpeg_finish_output(&cinfo);
        } while (!jpeg_input_complete(&cinfo));
        printf("buffered: %d of %d scans", cinfo.output_scan_number, cinfo.input_scan_number);
        printf(", %s, finish %d\n", rows == wanted ? "the same rows" : "other rows",
               jpeg_finish_decompress(&cinfo));
    } else {
        printf("buffered: error\n");
    }
    jpeg_destroy_decompress(&cinfo);
}

/* What only the system's library does: raw data, coefficients, few colours, other scales. */
static void handed_on(void) {
    struct jpeg_decompress_struct cinfo;
    struct errors errors;
    create(&cinfo, &errors);
    if (!setjmp(errors.back)) {
        jpeg_save_markers(&cinfo, JPEG_COM, 0xFFFF);
        jpeg_set_marker_processor(&cinfo, JPEG_APP0 + 1, read_comment);
        jpeg_mem_src(&cinfo, file, size);
        jpeg_read_header(&cinfo, TRUE);
        cinfo.quantize_colors = TRUE;
        cinfo.desired_number_of_colors = 20;
        jpeg_start_decompress(&cinfo);
        unsigned colours = read_rows(&cinfo, new_row(&cinfo), NULL);
        printf("few colours: %d, %x\n", cinfo.actual_number_of_colors, colours);
        tell_header(&cinfo);
        printf("finish %d\n", jpeg_finish_decompress(&cinfo));
        jpeg_mem_src(&cinfo, file, size);
        jpeg_read_header(&cinfo, TRUE);
        jvirt_barray_ptr *planes = jpeg_read_coefficients(&cinfo);
        JBLOCKARRAY blocks =
            cinfo.mem->access_virt_barray((j_common_ptr)&cinfo, planes[0], 0, 1, FALSE);
        printf("coefficients: %x\n", sum(blocks[0][0], sizeof(JBLOCK)));
        jpeg_abort_decompress(&cinfo);
        jpeg_mem_src(&cinfo, file, size);
        jpeg_read_header(&cinfo, TRUE);
        cinfo.scale_num = 3;
        cinfo.scale_denom = 8;
        jpeg_start_decompress(&cinfo);
        printf("3/8: %x\n", read_rows(&cinfo, new_row(&cinfo), NULL));
        printf("finish %d\n", jpeg_finish_decompress(&cinfo));
    } else {
        char text[JMSG_LENGTH_MAX];
        cinfo.err->format_message((j_common_ptr)&cinfo, text);
        printf("handed on: error, %s\n", text);
    }
    jpeg_destroy_decompress(&cinfo);
}

int main(int argc, char **argv) {
    for (int i = 1; i < argc; i++) {
        read_file(argv[i]);
        printf("file %s\n", argv[i]);
        in_memory();
        unsigned rows = whole();
        dripping(rows);
        buffered(rows);
        handed_on();
    }
    return 0;
}
