/* The decompressor's calls from the header on. */
#include "shim.h"

#include <jerror.h>
#include <stdlib.h>
#include <string.h>

HANDED_ON(int, jpeg_read_header, (j_decompress_ptr cinfo, boolean require_image),
          (cinfo, require_image))
HANDED_ON(int, jpeg_consume_input, (j_decompress_ptr cinfo), (cinfo))
HANDED_ON_VOID(jpeg_calc_output_dimensions, (j_decompress_ptr cinfo), (cinfo))
HANDED_ON(boolean, jpeg_start_decompress, (j_decompress_ptr cinfo), (cinfo))
HANDED_ON(JDIMENSION, jpeg_read_scanlines,
          (j_decompress_ptr cinfo, JSAMPARRAY rows, JDIMENSION most), (cinfo, rows, most))
HANDED_ON(JDIMENSION, jpeg_skip_scanlines, (j_decompress_ptr cinfo, JDIMENSION count),
          (cinfo, count))
HANDED_ON_VOID(jpeg_crop_scanline, (j_decompress_ptr cinfo, JDIMENSION *column, JDIMENSION *width),
               (cinfo, column, width))
HANDED_ON(boolean, jpeg_finish_decompress, (j_decompress_ptr cinfo), (cinfo))
HANDED_ON(boolean, jpeg_has_multiple_scans, (j_decompress_ptr cinfo), (cinfo))
HANDED_ON(boolean, jpeg_input_complete, (j_decompress_ptr cinfo), (cinfo))
HANDED_ON(boolean, jpeg_start_output, (j_decompress_ptr cinfo, int scan), (cinfo, scan))
HANDED_ON(boolean, jpeg_finish_output, (j_decompress_ptr cinfo), (cinfo))
HANDED_ON(boolean, jpeg_read_icc_profile,
          (j_decompress_ptr cinfo, JOCTET **profile, unsigned *size), (cinfo, profile, size))

/* Whether the object is in one of the states `first` to `last`; ends the call if it isn't. */
static int is_between(j_decompress_ptr cinfo, int first, int last) {
    if (cinfo->global_state >= first && cinfo->global_state <= last) return 1;
    ERREXIT1(cinfo, JERR_BAD_STATE, cinfo->global_state);
    return 0;
}

/* Reads the bytes of the header by the library. Returns JPEG_REACHED_SOS; or JPEG_SUSPENDED where
 * the system's library has to read it. */
static int read_gathered_header(j_decompress_ptr cinfo, struct handle *handle) {
    zaxbriar_result answer =
        zaxbriar_read_info(handle->jpeg, handle->size, NULL, &handle->picture);
    if (answer == ZAXBRIAR_OK && handle->is_malformed)
        return fail(cinfo, "the length of a segment is less than 2");
    if (answer == ZAXBRIAR_OK) {
        describe(cinfo, handle);
        cinfo->global_state = DSTATE_READY;
        return JPEG_REACHED_SOS;
    }
    if (answer != ZAXBRIAR_UNSUPPORTED) return fail(cinfo, handle->picture.text);
    handle->own_feature = handle->picture.text;
    return JPEG_SUSPENDED;
}

/* Reads on in the header. Returns JPEG_REACHED_SOS, JPEG_REACHED_EOI or JPEG_SUSPENDED. */
static int consume_header(j_decompress_ptr cinfo, struct handle *handle) {
    if (!is_between(cinfo, DSTATE_START, DSTATE_INHEADER)) return JPEG_SUSPENDED;
    if (cinfo->global_state == DSTATE_START) {
        clear_handle(handle);
        cinfo->err->reset_error_mgr((j_common_ptr)cinfo);
        cinfo->comp_info = NULL;
        cinfo->input_scan_number = 0;
        cinfo->unread_marker = 0;
        cinfo->src->init_source(cinfo);
        cinfo->global_state = DSTATE_INHEADER;
    }
    if (!handle->own_feature) {
        int reached = gather(cinfo, handle, 1);
        if (reached == JPEG_SUSPENDED) return reached;
        if (reached == JPEG_REACHED_EOI && !handle->is_malformed) {
            if (handle->frame) ERREXIT(cinfo, JERR_SOF_NO_SOS);
            return reached;
        }
        reached = read_gathered_header(cinfo, handle);
        if (!handle->own_feature) return reached;
    }
    if (!hand_on(cinfo, handle, handle->own_feature)) return JPEG_SUSPENDED;
    return JPEG_REACHED_SOS;
}

int jpeg_read_header(j_decompress_ptr cinfo, boolean require_image) {
    struct handle *handle = ours(cinfo);
    if (!handle) return own_jpeg_read_header(cinfo, require_image);
    int reached = consume_header(cinfo, handle);
    if (reached != JPEG_REACHED_EOI)
        return reached == JPEG_REACHED_SOS ? JPEG_HEADER_OK : JPEG_SUSPENDED;
    if (require_image) ERREXIT(cinfo, JERR_NO_IMAGE);
    jpeg_abort((j_common_ptr)cinfo);
    return JPEG_HEADER_TABLES_ONLY;
}

int jpeg_consume_input(j_decompress_ptr cinfo) {
    struct handle *handle = ours(cinfo);
    if (!handle) return own_jpeg_consume_input(cinfo);
    if (cinfo->global_state <= DSTATE_INHEADER) return consume_header(cinfo, handle);
    if (!is_between(cinfo, DSTATE_READY, DSTATE_STOPPING)) return JPEG_SUSPENDED;
    return cinfo->global_state == DSTATE_READY ? JPEG_REACHED_SOS : gather(cinfo, handle, 0);
}

/* How many samples a block of 8 x 8 becomes each way, from 1 to 16, at the scale that the program
 * wants. */
static int scaled_block(j_decompress_ptr cinfo) {
    int size = 1;
    while (size < 16 && (uint64_t)cinfo->scale_num * DCTSIZE > (uint64_t)cinfo->scale_denom * size)
        size++;
    return size;
}

static JDIMENSION scaled(JDIMENSION side, int block) {
    return (JDIMENSION)(((uint64_t)side * (unsigned)block + DCTSIZE - 1) / DCTSIZE);
}

/* How many samples a pixel has in some colours of the program's, or of the stream. */
static int samples_of(j_decompress_ptr cinfo, J_COLOR_SPACE colours) {
    switch (colours) {
        case JCS_GRAYSCALE: return 1;
        case JCS_RGB:
        case JCS_YCbCr:
        case JCS_EXT_RGB:
        case JCS_EXT_BGR:
        case JCS_RGB565: return 3;
        case JCS_UNKNOWN: return cinfo->num_components;
        default: return 4;
    }
}

static void set_output(j_decompress_ptr cinfo) {
    int block = scaled_block(cinfo);
    set_sizes(cinfo, block);
    cinfo->output_width = scaled(cinfo->image_width, block);
    cinfo->output_height = scaled(cinfo->image_height, block);
    cinfo->out_color_components = samples_of(cinfo, cinfo->out_color_space);
    cinfo->output_components = cinfo->quantize_colors ? 1 : cinfo->out_color_components;
    cinfo->rec_outbuf_height = 1;
}

void jpeg_calc_output_dimensions(j_decompress_ptr cinfo) {
    struct handle *handle = ours(cinfo);
    if (!handle) own_jpeg_calc_output_dimensions(cinfo);
    else if (is_between(cinfo, DSTATE_READY, DSTATE_READY)) set_output(cinfo);
}

/* The library's layout of the program's colours where they are grey, or red, green and blue. */
static int layout_of(J_COLOR_SPACE colours, change *change) {
    *change = colours == JCS_EXT_XBGR || colours == JCS_EXT_ABGR ? REVERSED : AS_IT_IS;
    switch (colours) {
        case JCS_GRAYSCALE: return ZAXBRIAR_GREY;
        case JCS_RGB:
        case JCS_EXT_RGB: return ZAXBRIAR_RGB;
        case JCS_EXT_BGR: return ZAXBRIAR_BGR;
        case JCS_EXT_BGRX:
        case JCS_EXT_BGRA: return ZAXBRIAR_BGRA;
        case JCS_EXT_XRGB:
        case JCS_EXT_ARGB: return ZAXBRIAR_XRGB;
        case JCS_EXT_RGBX:
        case JCS_EXT_RGBA:
        case JCS_EXT_XBGR:
        case JCS_EXT_ABGR: return ZAXBRIAR_RGBA;
        default: return ZAXBRIAR_AS_STORED;
    }
}

static int transform_of(j_decompress_ptr cinfo, const struct handle *handle) {
    if (cinfo->jpeg_color_space == handle->colours) return ZAXBRIAR_TRANSFORM_OF_STREAM;
    switch (cinfo->jpeg_color_space) {
        case JCS_RGB: return ZAXBRIAR_TRANSFORM_RGB;
        case JCS_YCbCr: return ZAXBRIAR_TRANSFORM_YCBCR;
        case JCS_CMYK: return ZAXBRIAR_TRANSFORM_CMYK;
        case JCS_YCCK: return ZAXBRIAR_TRANSFORM_YCCK;
        default: return ZAXBRIAR_TRANSFORM_OF_STREAM;
    }
}

/* Chooses how the program's colours are made. Returns 0 if they can't be, as by libjpeg. */
static int choose_colours(j_decompress_ptr cinfo, struct handle *handle,
                          zaxbriar_options *options) {
    J_COLOR_SPACE from = cinfo->jpeg_color_space, to = cinfo->out_color_space;
    int is_lossless = handle->picture.process == ZAXBRIAR_LOSSLESS;
    options->layout = (uint8_t)layout_of(to, &handle->change);
    options->transform = (uint8_t)transform_of(cinfo, handle);
    if (to == JCS_GRAYSCALE && from == JCS_YCbCr && !is_lossless) {
        options->layout = ZAXBRIAR_AS_STORED;
        options->transform = ZAXBRIAR_TRANSFORM_NONE;
        handle->change = FIRST_PLANE;
        return 1;
    }
    if (options->layout != ZAXBRIAR_AS_STORED)
        return from == JCS_GRAYSCALE || from == JCS_RGB || from == JCS_YCbCr;
    if (is_lossless) return 0;
    if (to == JCS_CMYK && from == JCS_YCCK) {
        handle->change = COMPLEMENTED;
        return 1;
    }
    options->transform = ZAXBRIAR_TRANSFORM_NONE;
    handle->change = INTERLEAVED;
    return to == from;
}

/* Why the system's library has to decode, or null. */
static const char *own_feature(j_decompress_ptr cinfo) {
    int block = scaled_block(cinfo);
    if (cinfo->quantize_colors) return "colour quantization";
    if (cinfo->raw_data_out) return "raw data";
    if (cinfo->out_color_space == JCS_RGB565) return "RGB565";
    if (block != 1 && block != 2 && block != 4 && block != 8) return "another scale";
    return NULL;
}

/* Puts the tables that the stream lacks after its SOI. */
static int add_tables(j_decompress_ptr cinfo, struct handle *handle) {
    uint8_t tables[TABLES_ROOM];
    size_t size = write_tables(cinfo, handle, tables);
    if (!size) return 1;
    uint8_t *jpeg = malloc(handle->size + size);
    if (!jpeg) {
        ERREXIT1(cinfo, JERR_OUT_OF_MEMORY, 2);
        return 0;
    }
    memcpy(jpeg, handle->jpeg, 2);
    memcpy(jpeg + 2, tables, size);
    memcpy(jpeg + 2 + size, handle->jpeg + 2, handle->size - 2);
    free(handle->jpeg);
    handle->jpeg = jpeg;
    handle->size = handle->room = handle->size + size;
    handle->scan += size;
    return 1;
}

/* Decodes the gathered bytes into memory of the handle's. Returns 0 if there is no picture. */
static int decode_with(j_decompress_ptr cinfo, struct handle *handle,
                       const zaxbriar_options *options) {
    zaxbriar_picture picture;
    zaxbriar_result answer = zaxbriar_read_info(handle->jpeg, handle->size, options, &picture);
    if (answer != ZAXBRIAR_OK) return fail(cinfo, picture.text);
    if (picture.width != cinfo->output_width || picture.height != cinfo->output_height)
        return fail(cinfo, "the picture has no such scale");
    uint8_t *pixels = malloc(picture.size);
    if (pixels)
        answer = decode_until_fault(handle->jpeg, handle->size, options, pixels, picture.size,
                                    &picture);
    if (!pixels || (answer != ZAXBRIAR_OK && answer != ZAXBRIAR_PARTIAL)) {
        int is_memory = !pixels || answer == ZAXBRIAR_NO_MEMORY;
        free(pixels);
        if (!is_memory) return fail(cinfo, picture.text);
        ERREXIT1(cinfo, JERR_OUT_OF_MEMORY, 3);
        return 0;
    }
    handle->pixels = pixels;
    handle->row_bytes = picture.row_bytes;
    handle->width = picture.width;
    handle->planes = (unsigned)cinfo->num_components;
    trace("decoded", picture.text, picture.width, picture.height);
    if (answer == ZAXBRIAR_PARTIAL) warn(cinfo, picture.text);
    return 1;
}

/* Decodes the gathered bytes, once. Returns 0 if there is no picture. */
static int decode(j_decompress_ptr cinfo, struct handle *handle) {
    zaxbriar_options options = {.max_passes = MAX_PASSES};
    if (handle->pixels) return 1;
    if (samples_of(cinfo, cinfo->jpeg_color_space) != cinfo->num_components) {
        ERREXIT(cinfo, JERR_BAD_J_COLORSPACE);
        return 0;
    }
    if (!choose_colours(cinfo, handle, &options)) {
        ERREXIT(cinfo, JERR_CONVERSION_NOTIMPL);
        return 0;
    }
    options.scale = (uint8_t)(DCTSIZE / scaled_block(cinfo));
    return add_tables(cinfo, handle) && decode_with(cinfo, handle, &options);
}

/* Takes all bytes, and decodes them. Returns 0 if the source has no more. */
static int decode_all(j_decompress_ptr cinfo, struct handle *handle) {
    if (gather(cinfo, handle, 0) == JPEG_SUSPENDED || !decode(cinfo, handle)) return 0;
    cinfo->input_iMCU_row = cinfo->total_iMCU_rows;
    cinfo->output_scanline = 0;
    cinfo->output_iMCU_row = 0;
    handle->first_column = 0;
    cinfo->global_state = DSTATE_SCANNING;
    return 1;
}

boolean jpeg_start_decompress(j_decompress_ptr cinfo) {
    struct handle *handle = ours(cinfo);
    if (!handle) return own_jpeg_start_decompress(cinfo);
    if (!is_between(cinfo, DSTATE_READY, DSTATE_PRELOAD)) return FALSE;
    const char *feature = own_feature(cinfo);
    if (feature)
        return hand_on(cinfo, handle, feature) ? own_jpeg_start_decompress(cinfo) : FALSE;
    set_output(cinfo);
    if (cinfo->global_state == DSTATE_READY)
        cinfo->mem->realize_virt_arrays((j_common_ptr)cinfo); /* those of the program */
    if (cinfo->buffered_image) {
        cinfo->global_state = DSTATE_BUFIMAGE;
        return TRUE;
    }
    cinfo->global_state = DSTATE_PRELOAD;
    return decode_all(cinfo, handle);
}

boolean jpeg_start_output(j_decompress_ptr cinfo, int scan) {
    struct handle *handle = ours(cinfo);
    if (!handle) return own_jpeg_start_output(cinfo, scan);
    if (!is_between(cinfo, DSTATE_BUFIMAGE, DSTATE_BUFIMAGE)) return FALSE;
    if (!decode_all(cinfo, handle)) return FALSE;
    if (scan > cinfo->input_scan_number) scan = cinfo->input_scan_number;
    cinfo->output_scan_number = scan < 1 ? 1 : scan;
    return TRUE;
}

boolean jpeg_finish_output(j_decompress_ptr cinfo) {
    struct handle *handle = ours(cinfo);
    if (!handle) return own_jpeg_finish_output(cinfo);
    if (!cinfo->buffered_image || cinfo->global_state != DSTATE_SCANNING)
        return is_between(cinfo, DSTATE_BUFPOST, DSTATE_BUFPOST);
    cinfo->global_state = DSTATE_BUFIMAGE;
    return TRUE;
}

/* Copies `count` pixels of a decoded line, in the program's order. */
static void copy_pixels(const struct handle *handle, size_t y, size_t count, int samples,
                        JSAMPROW to) {
    size_t bytes = count * (size_t)samples, column = handle->first_column;
    const uint8_t *line = handle->pixels + y * handle->row_bytes;
    if (handle->change == INTERLEAVED) {
        for (size_t x = 0; x < count; x++)
            for (unsigned plane = 0; plane < handle->planes; plane++)
                *to++ = line[plane * (size_t)handle->width + column + x];
        return;
    }
    memcpy(to, line + column * (size_t)samples, bytes);
    if (handle->change == REVERSED) reverse_pixels(to, count);
    if (handle->change == COMPLEMENTED) complement_samples(to, bytes);
}

JDIMENSION jpeg_read_scanlines(j_decompress_ptr cinfo, JSAMPARRAY rows, JDIMENSION most) {
    struct handle *handle = ours(cinfo);
    if (!handle) return own_jpeg_read_scanlines(cinfo, rows, most);
    if (!is_between(cinfo, DSTATE_SCANNING, DSTATE_SCANNING)) return 0;
    JDIMENSION left = cinfo->output_height - cinfo->output_scanline;
    if (!left) {
        WARNMS(cinfo, JWRN_TOO_MUCH_DATA);
        return 0;
    }
    if (cinfo->progress) {
        cinfo->progress->pass_counter = (long)cinfo->output_scanline;
        cinfo->progress->pass_limit = (long)cinfo->output_height;
        cinfo->progress->progress_monitor((j_common_ptr)cinfo);
    }
    if (most > left) most = left;
    for (JDIMENSION i = 0; i < most; i++)
        copy_pixels(handle, cinfo->output_scanline + i, cinfo->output_width,
                    cinfo->out_color_components, rows[i]);
    cinfo->output_scanline += most;
    return most;
}

JDIMENSION jpeg_skip_scanlines(j_decompress_ptr cinfo, JDIMENSION count) {
    struct handle *handle = ours(cinfo);
    if (!handle) return own_jpeg_skip_scanlines(cinfo, count);
    if (!is_between(cinfo, DSTATE_SCANNING, DSTATE_SCANNING)) return 0;
    JDIMENSION left = cinfo->output_height - cinfo->output_scanline;
    if (count > left) count = left;
    cinfo->output_scanline += count;
    return count;
}

/* (Columns begin at a multiple of the same width as with libjpeg, which decodes whole blocks.) */
void jpeg_crop_scanline(j_decompress_ptr cinfo, JDIMENSION *column, JDIMENSION *width) {
    struct handle *handle = ours(cinfo);
    if (!handle) {
        own_jpeg_crop_scanline(cinfo, column, width);
        return;
    }
    if (!is_between(cinfo, DSTATE_SCANNING, DSTATE_SCANNING)) return;
    if (cinfo->output_scanline) ERREXIT1(cinfo, JERR_BAD_STATE, cinfo->global_state);
    if (!column || !width) {
        ERREXIT(cinfo, JERR_BAD_CROP_SPEC);
        return;
    }
    if (!*width || *width > cinfo->output_width || *column > cinfo->output_width - *width) {
        ERREXIT(cinfo, JERR_WIDTH_OVERFLOW);
        return;
    }
    if (*width == cinfo->output_width) return;
    int across = cinfo->num_components == 1 ? 1 : cinfo->max_h_samp_factor;
    JDIMENSION beyond = *column % (JDIMENSION)(cinfo->min_DCT_scaled_size * across);
    *column -= beyond;
    *width += beyond;
    handle->first_column = *column;
    cinfo->output_width = *width;
}

boolean jpeg_finish_decompress(j_decompress_ptr cinfo) {
    struct handle *handle = handle_of((j_common_ptr)cinfo);
    if (!handle || handle->is_own) {
        boolean is_done = own_jpeg_finish_decompress(cinfo);
        if (handle && is_done) clear_handle(handle);
        return is_done;
    }
    if (cinfo->global_state == DSTATE_SCANNING && !cinfo->buffered_image) {
        if (cinfo->output_scanline < cinfo->output_height) ERREXIT(cinfo, JERR_TOO_LITTLE_DATA);
        cinfo->global_state = DSTATE_STOPPING;
    } else if (cinfo->global_state == DSTATE_BUFIMAGE) {
        cinfo->global_state = DSTATE_STOPPING;
    } else if (!is_between(cinfo, DSTATE_STOPPING, DSTATE_STOPPING)) {
        return FALSE;
    }
    if (gather(cinfo, handle, 0) == JPEG_SUSPENDED) return FALSE;
    cinfo->src->term_source(cinfo);
    jpeg_abort((j_common_ptr)cinfo);
    return TRUE;
}

boolean jpeg_has_multiple_scans(j_decompress_ptr cinfo) {
    struct handle *handle = ours(cinfo);
    if (!handle) return own_jpeg_has_multiple_scans(cinfo);
    return is_between(cinfo, DSTATE_READY, DSTATE_STOPPING) &&
           (cinfo->progressive_mode || cinfo->comps_in_scan < cinfo->num_components);
}

boolean jpeg_input_complete(j_decompress_ptr cinfo) {
    struct handle *handle = ours(cinfo);
    if (!handle) return own_jpeg_input_complete(cinfo);
    return is_between(cinfo, DSTATE_START, DSTATE_STOPPING) && handle->has_ended;
}

/* Copies the ICC profile of the header, that is, up to the first scan. */
static zaxbriar_result profile_of(const struct handle *handle, JOCTET *profile, size_t *size) {
    return zaxbriar_metadata(handle->jpeg, handle->scan + handle->scan_size,
                             ZAXBRIAR_ICC | ZAXBRIAR_WHOLE_IMAGE, profile, *size, size);
}

boolean jpeg_read_icc_profile(j_decompress_ptr cinfo, JOCTET **profile, unsigned *size) {
    struct handle *handle = ours(cinfo);
    size_t length = 0;
    if (!handle) return own_jpeg_read_icc_profile(cinfo, profile, size);
    if (!is_between(cinfo, DSTATE_READY, DSTATE_STOPPING)) return FALSE;
    if (!profile || !size) {
        ERREXIT(cinfo, JERR_BUFFER_SIZE);
        return FALSE;
    }
    *profile = NULL;
    *size = 0;
    if (!handle->markers[2].limit || profile_of(handle, NULL, &length) != ZAXBRIAR_NO_ROOM)
        return FALSE;
    JOCTET *copy = malloc(length);
    if (!copy) {
        ERREXIT1(cinfo, JERR_OUT_OF_MEMORY, 4);
        return FALSE;
    }
    if (profile_of(handle, copy, &length) != ZAXBRIAR_OK) {
        free(copy);
        return FALSE;
    }
    *profile = copy;
    *size = (unsigned)length;
    return TRUE;
}
