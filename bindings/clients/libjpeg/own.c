/* What the system's library does: it gets decompressors that need more than pixels, and makes all
 * calls that don't decompress. */
#include "shim.h"

#include <jerror.h>
#include <stdlib.h>

/* The messages that jerror.h has, in which two of libjpeg's own texts lack. */
#define JVERSION "6b"
#define JCOPYRIGHT_SHORT ""
#define JMESSAGE(code, string) string,
const char *const jpeg_std_message_table[] = {
#include <jerror.h>
    NULL};

HANDED_ON(JDIMENSION, jpeg_read_raw_data,
          (j_decompress_ptr cinfo, JSAMPIMAGE planes, JDIMENSION most), (cinfo, planes, most))
HANDED_ON(jvirt_barray_ptr *, jpeg_read_coefficients, (j_decompress_ptr cinfo), (cinfo))
HANDED_ON_VOID(jpeg_new_colormap, (j_decompress_ptr cinfo), (cinfo))

static int marker_of(int place) { return place == MARKERS - 1 ? JPEG_COM : JPEG_APP0 + place; }

void jpeg_save_markers(j_decompress_ptr cinfo, int marker, unsigned limit) {
    struct handle *handle = handle_of((j_common_ptr)cinfo);
    OWN(jpeg_save_markers)(cinfo, marker, limit);
    if (!handle) return;
    /* (as much as is needed to examine these is saved at least) */
    if (limit && marker == JPEG_APP0 && limit < 14) limit = 14;
    if (limit && marker == JPEG_APP0 + 14 && limit < 12) limit = 12;
    for (int place = 0; place < MARKERS; place++)
        if (marker_of(place) == marker) {
            handle->markers[place].routine = NULL;
            handle->markers[place].limit = limit;
        }
}

void jpeg_set_marker_processor(j_decompress_ptr cinfo, int marker,
                               jpeg_marker_parser_method routine) {
    struct handle *handle = handle_of((j_common_ptr)cinfo);
    OWN(jpeg_set_marker_processor)(cinfo, marker, routine);
    if (!handle) return;
    for (int place = 0; place < MARKERS; place++)
        if (marker_of(place) == marker) handle->markers[place].routine = routine;
}

/* Has the system's library ignore the markers of the header, which the program has been told of, or
 * tell the program of those that follow. */
static void tell_of_markers(j_decompress_ptr cinfo, const struct handle *handle, int is_told) {
    for (int place = 0; place < MARKERS; place++) {
        int marker = marker_of(place);
        OWN(jpeg_save_markers)(cinfo, marker, is_told ? handle->markers[place].limit : 0);
        if (is_told && handle->markers[place].routine)
            OWN(jpeg_set_marker_processor)(cinfo, marker, handle->markers[place].routine);
    }
}

/* Stores what a program has chosen, after the header was read again. */
static void restore_choices(j_decompress_ptr cinfo, const struct jpeg_decompress_struct *chosen) {
    cinfo->jpeg_color_space = chosen->jpeg_color_space;
    cinfo->out_color_space = chosen->out_color_space;
    cinfo->scale_num = chosen->scale_num;
    cinfo->scale_denom = chosen->scale_denom;
    cinfo->output_gamma = chosen->output_gamma;
    cinfo->buffered_image = chosen->buffered_image;
    cinfo->raw_data_out = chosen->raw_data_out;
    cinfo->dct_method = chosen->dct_method;
    cinfo->do_fancy_upsampling = chosen->do_fancy_upsampling;
    cinfo->do_block_smoothing = chosen->do_block_smoothing;
    cinfo->quantize_colors = chosen->quantize_colors;
    cinfo->dither_mode = chosen->dither_mode;
    cinfo->two_pass_quantize = chosen->two_pass_quantize;
    cinfo->desired_number_of_colors = chosen->desired_number_of_colors;
    cinfo->enable_1pass_quant = chosen->enable_1pass_quant;
    cinfo->enable_external_quant = chosen->enable_external_quant;
    cinfo->enable_2pass_quant = chosen->enable_2pass_quant;
    cinfo->actual_number_of_colors = chosen->actual_number_of_colors;
    cinfo->colormap = chosen->colormap;
}

/* Has the system's library read the header, from all bytes. */
static void read_again(j_decompress_ptr cinfo, struct handle *handle) {
    struct jpeg_decompress_struct chosen = *cinfo;
    long warnings = cinfo->err->num_warnings;
    make_replay(handle);
    handle->is_own = 1;
    tell_of_markers(cinfo, handle, 0);
    cinfo->marker_list = NULL;
    cinfo->global_state = DSTATE_START;
    lend_source(cinfo);
    OWN(jpeg_read_header)(cinfo, TRUE);
    return_source(cinfo);
    tell_of_markers(cinfo, handle, 1);
    cinfo->marker_list = chosen.marker_list;
    cinfo->err->num_warnings += warnings;
    if (chosen.global_state != DSTATE_INHEADER) restore_choices(cinfo, &chosen);
}

int hand_on(j_decompress_ptr cinfo, struct handle *handle, const char *feature) {
    const char *only = getenv("ZAXBRIAR_ONLY");
    if (only && *only) {
        char text[JMSG_STR_PARM_MAX];
        snprintf(text, sizeof text, "ZAXBRIAR_ONLY forbids libjpeg: %s", feature);
        return fail(cinfo, text);
    }
    if (gather(cinfo, handle, 0) == JPEG_SUSPENDED) return 0;
    read_again(cinfo, handle);
    trace("handed on", feature, cinfo->image_width, cinfo->image_height);
    return 1;
}

jvirt_barray_ptr *jpeg_read_coefficients(j_decompress_ptr cinfo) {
    struct handle *handle = ours(cinfo);
    if (!handle) return own_jpeg_read_coefficients(cinfo);
    if (cinfo->global_state != DSTATE_READY) {
        ERREXIT1(cinfo, JERR_BAD_STATE, cinfo->global_state);
        return NULL;
    }
    return hand_on(cinfo, handle, "coefficients") ? own_jpeg_read_coefficients(cinfo) : NULL;
}

JDIMENSION jpeg_read_raw_data(j_decompress_ptr cinfo, JSAMPIMAGE planes, JDIMENSION most) {
    if (!ours(cinfo)) return own_jpeg_read_raw_data(cinfo, planes, most);
    ERREXIT1(cinfo, JERR_BAD_STATE, cinfo->global_state);
    return 0;
}

void jpeg_new_colormap(j_decompress_ptr cinfo) {
    if (!ours(cinfo)) own_jpeg_new_colormap(cinfo);
    else ERREXIT1(cinfo, JERR_BAD_STATE, cinfo->global_state);
}

/* (It is also called by the system's library, while it has the source.) */
boolean jpeg_resync_to_restart(j_decompress_ptr cinfo, int wanted) {
    return OWN(jpeg_resync_to_restart)(cinfo, wanted);
}

/* Calls that are made by the system's library. */
#define FORWARD(type, name, parameters, arguments)                                                 \
    type name parameters { return OWN(name) arguments; }
#define FORWARD_VOID(name, parameters, arguments)                                                  \
    void name parameters { OWN(name) arguments; }

FORWARD_VOID(jpeg_CreateCompress, (j_compress_ptr cinfo, int version, size_t size),
             (cinfo, version, size))
FORWARD_VOID(jpeg_destroy_compress, (j_compress_ptr cinfo), (cinfo))
FORWARD_VOID(jpeg_abort_compress, (j_compress_ptr cinfo), (cinfo))
FORWARD_VOID(jpeg_stdio_dest, (j_compress_ptr cinfo, FILE *file), (cinfo, file))
FORWARD_VOID(jpeg_stdio_src, (j_decompress_ptr cinfo, FILE *file), (cinfo, file))
FORWARD_VOID(jpeg_mem_dest, (j_compress_ptr cinfo, unsigned char **bytes, unsigned long *size),
             (cinfo, bytes, size))
FORWARD_VOID(jpeg_mem_src, (j_decompress_ptr cinfo, const unsigned char *bytes, unsigned long size),
             (cinfo, bytes, size))
FORWARD_VOID(jpeg_set_defaults, (j_compress_ptr cinfo), (cinfo))
FORWARD_VOID(jpeg_set_colorspace, (j_compress_ptr cinfo, J_COLOR_SPACE colours), (cinfo, colours))
FORWARD_VOID(jpeg_default_colorspace, (j_compress_ptr cinfo), (cinfo))
FORWARD_VOID(jpeg_set_quality, (j_compress_ptr cinfo, int quality, boolean is_baseline),
             (cinfo, quality, is_baseline))
FORWARD_VOID(jpeg_set_linear_quality, (j_compress_ptr cinfo, int factor, boolean is_baseline),
             (cinfo, factor, is_baseline))
FORWARD_VOID(jpeg_add_quant_table,
             (j_compress_ptr cinfo, int name, const unsigned *table, int factor,
              boolean is_baseline),
             (cinfo, name, table, factor, is_baseline))
FORWARD(int, jpeg_quality_scaling, (int quality), (quality))
FORWARD_VOID(jpeg_simple_progression, (j_compress_ptr cinfo), (cinfo))
FORWARD_VOID(jpeg_suppress_tables, (j_compress_ptr cinfo, boolean suppress), (cinfo, suppress))
FORWARD(JQUANT_TBL *, jpeg_alloc_quant_table, (j_common_ptr cinfo), (cinfo))
FORWARD(JHUFF_TBL *, jpeg_alloc_huff_table, (j_common_ptr cinfo), (cinfo))
FORWARD_VOID(jpeg_start_compress, (j_compress_ptr cinfo, boolean write_tables),
             (cinfo, write_tables))
FORWARD(JDIMENSION, jpeg_write_scanlines, (j_compress_ptr cinfo, JSAMPARRAY rows, JDIMENSION count),
        (cinfo, rows, count))
FORWARD_VOID(jpeg_finish_compress, (j_compress_ptr cinfo), (cinfo))
FORWARD(JDIMENSION, jpeg_write_raw_data,
        (j_compress_ptr cinfo, JSAMPIMAGE planes, JDIMENSION count), (cinfo, planes, count))
FORWARD_VOID(jpeg_write_marker,
             (j_compress_ptr cinfo, int marker, const JOCTET *payload, unsigned size),
             (cinfo, marker, payload, size))
FORWARD_VOID(jpeg_write_m_header, (j_compress_ptr cinfo, int marker, unsigned size),
             (cinfo, marker, size))
FORWARD_VOID(jpeg_write_m_byte, (j_compress_ptr cinfo, int byte), (cinfo, byte))
FORWARD_VOID(jpeg_write_tables, (j_compress_ptr cinfo), (cinfo))
FORWARD_VOID(jpeg_write_icc_profile,
             (j_compress_ptr cinfo, const JOCTET *profile, unsigned size), (cinfo, profile, size))
FORWARD_VOID(jpeg_write_coefficients, (j_compress_ptr cinfo, jvirt_barray_ptr *coefficients),
             (cinfo, coefficients))
FORWARD_VOID(jpeg_copy_critical_parameters, (j_decompress_ptr from, j_compress_ptr to), (from, to))

FORWARD(long, jdiv_round_up, (long a, long b), (a, b))
FORWARD(long, jround_up, (long a, long b), (a, b))
FORWARD_VOID(jcopy_sample_rows,
             (JSAMPARRAY from, int from_row, JSAMPARRAY to, int to_row, int rows,
              JDIMENSION columns),
             (from, from_row, to, to_row, rows, columns))
FORWARD_VOID(jcopy_block_row, (JBLOCKROW from, JBLOCKROW to, JDIMENSION count), (from, to, count))
FORWARD_VOID(jzero_far, (void *bytes, size_t size), (bytes, size))
