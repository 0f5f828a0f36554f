/* What the segments of a stream say, in the members of a decompressor. */
#include "shim.h"

#include <jerror.h>
#include <string.h>

enum { JFIF_SIZE = 14, ADOBE_SIZE = 12, ADOBE = 14, COMMENT = 16 };

const int jpeg_natural_order[DCTSIZE2 + 16] = {
    0,  1,  8,  16, 9,  2,  3,  10, 17, 24, 32, 25, 18, 11, 4,  5,  12, 19, 26, 33,
    40, 48, 41, 34, 27, 20, 13, 6,  7,  14, 21, 28, 35, 42, 49, 56, 57, 50, 43, 36,
    29, 22, 15, 23, 30, 37, 44, 51, 58, 59, 52, 45, 38, 31, 39, 46, 53, 60, 61, 54,
    47, 55, 62, 63, 63, 63, 63, 63, 63, 63, 63, 63, 63, 63, 63, 63, 63, 63, 63, 63};

static unsigned number(const uint8_t *bytes) { return bytes[0] * 256u + bytes[1]; }

/* The place of a marker among those that a program can ask for, or -1. */
static int place_of(int marker) {
    if (marker == JPEG_COM) return COMMENT;
    return marker >= JPEG_APP0 && marker < JPEG_APP0 + COMMENT ? marker - JPEG_APP0 : -1;
}

int is_ignored(const struct handle *handle, int marker) {
    int place = place_of(marker);
    return place > 0 && place != ADOBE && !handle->markers[place].routine &&
           !handle->markers[place].limit;
}

static void begin(j_decompress_ptr cinfo) {
    cinfo->restart_interval = 0;
    cinfo->jpeg_color_space = JCS_UNKNOWN;
    cinfo->CCIR601_sampling = FALSE;
    cinfo->saw_JFIF_marker = FALSE;
    cinfo->JFIF_major_version = cinfo->JFIF_minor_version = 1;
    cinfo->density_unit = 0;
    cinfo->X_density = cinfo->Y_density = 1;
    cinfo->saw_Adobe_marker = FALSE;
    cinfo->Adobe_transform = 0;
}

static void see_quantization(j_decompress_ptr cinfo, struct handle *handle, const uint8_t *payload,
                             size_t size) {
    while (size) {
        unsigned bytes = payload[0] >> 4 ? 2 : 1, name = payload[0] & 15;
        if (size < 1 + 64 * bytes || name >= NUM_QUANT_TBLS) return;
        JQUANT_TBL **table = &cinfo->quant_tbl_ptrs[name];
        if (!*table) *table = OWN(jpeg_alloc_quant_table)((j_common_ptr)cinfo);
        for (unsigned i = 0; i < 64; i++)
            (*table)->quantval[jpeg_natural_order[i]] =
                (UINT16)(bytes == 2 ? number(payload + 1 + 2 * i) : payload[1 + i]);
        handle->tables[0] |= 1u << name;
        payload += 1 + 64 * bytes;
        size -= 1 + 64 * bytes;
    }
}

static void see_huffman(j_decompress_ptr cinfo, struct handle *handle, const uint8_t *payload,
                        size_t size) {
    while (size >= 17) {
        unsigned name = payload[0] & 15, kind = payload[0] >> 4, count = 0;
        for (int i = 1; i <= 16; i++) count += payload[i];
        if (name >= NUM_HUFF_TBLS || kind > 1 || count > 256 || size < 17 + count) return;
        JHUFF_TBL **table =
            kind ? &cinfo->ac_huff_tbl_ptrs[name] : &cinfo->dc_huff_tbl_ptrs[name];
        if (!*table) *table = OWN(jpeg_alloc_huff_table)((j_common_ptr)cinfo);
        memset(*table, 0, sizeof **table);
        memcpy((*table)->bits + 1, payload + 1, 16);
        memcpy((*table)->huffval, payload + 17, count);
        handle->tables[1 + kind] |= 1u << name;
        payload += 17 + count;
        size -= 17 + count;
    }
}

/* JFIF and Adobe segments, which tell of densities and colours. */
static void examine(j_decompress_ptr cinfo, int place, const uint8_t *payload, size_t size) {
    if (place == 0 && size >= JFIF_SIZE && !memcmp(payload, "JFIF", 5)) {
        cinfo->saw_JFIF_marker = TRUE;
        cinfo->JFIF_major_version = payload[5];
        cinfo->JFIF_minor_version = payload[6];
        cinfo->density_unit = payload[7];
        cinfo->X_density = (UINT16)number(payload + 8);
        cinfo->Y_density = (UINT16)number(payload + 10);
    } else if (place == ADOBE && size >= ADOBE_SIZE && !memcmp(payload, "Adobe", 5)) {
        cinfo->saw_Adobe_marker = TRUE;
        cinfo->Adobe_transform = payload[11];
    }
}

static void save(j_decompress_ptr cinfo, struct handle *handle, int marker, const uint8_t *payload,
                 size_t size) {
    unsigned limit = handle->markers[place_of(marker)].limit;
    unsigned kept = size < limit ? (unsigned)size : limit;
    jpeg_saved_marker_ptr saved = cinfo->mem->alloc_large((j_common_ptr)cinfo, JPOOL_IMAGE,
                                                          sizeof *saved + kept);
    saved->next = NULL;
    saved->marker = (UINT8)marker;
    saved->original_length = (unsigned)size;
    saved->data_length = kept;
    saved->data = (JOCTET *)(saved + 1);
    memcpy(saved->data, payload, kept);
    if (cinfo->marker_list && handle->last_saved) handle->last_saved->next = saved;
    else cinfo->marker_list = saved;
    handle->last_saved = saved;
}

/* Has a routine of the program's read a segment, from its length on, by the program's source. */
static int call_routine(j_decompress_ptr cinfo, int marker, jpeg_marker_parser_method routine,
                        const uint8_t *payload, size_t size) {
    struct jpeg_source_mgr *source = cinfo->src;
    const JOCTET *next = source->next_input_byte;
    size_t count = source->bytes_in_buffer;
    source->next_input_byte = payload - 2;
    source->bytes_in_buffer = size + 2;
    cinfo->unread_marker = marker;
    boolean is_read = routine(cinfo);
    cinfo->unread_marker = 0;
    source->next_input_byte = next;
    source->bytes_in_buffer = count;
    return is_read;
}

static int see_marker(j_decompress_ptr cinfo, struct handle *handle, int marker,
                      const uint8_t *payload, size_t size) {
    int place = place_of(marker);
    if (place < 0) return 1;
    if (handle->markers[place].routine)
        return call_routine(cinfo, marker, handle->markers[place].routine, payload, size);
    examine(cinfo, place, payload, size);
    if (handle->markers[place].limit) save(cinfo, handle, marker, payload, size);
    return 1;
}

/* Whether a marker is a frame header's. */
static int is_frame(int marker) {
    return marker >= 0xC0 && marker <= 0xCF && marker != DHT && marker != 0xC8 && marker != 0xCC;
}

int see_segment(j_decompress_ptr cinfo, struct handle *handle, const zaxbriar_segment *segment) {
    size_t place = handle->at + segment->offset;
    const uint8_t *payload = handle->jpeg + place;
    if (segment->marker == SOI && !handle->at) begin(cinfo);
    if (segment->marker == DQT) see_quantization(cinfo, handle, payload, segment->size);
    if (segment->marker == DHT) see_huffman(cinfo, handle, payload, segment->size);
    if (segment->marker == DRI && segment->size >= 2) cinfo->restart_interval = number(payload);
    if (is_frame(segment->marker) && !handle->frame) {
        handle->frame = place;
        handle->frame_size = segment->size;
    }
    if (segment->marker == SOS) {
        cinfo->input_scan_number++;
        if (!handle->scan) {
            handle->scan = place;
            handle->scan_size = segment->size;
        }
    }
    return see_marker(cinfo, handle, segment->marker, payload, segment->size);
}

static JDIMENSION quotient(uint64_t dividend, uint64_t divisor) {
    return (JDIMENSION)((dividend + divisor - 1) / divisor);
}

static void describe_components(j_decompress_ptr cinfo, const struct handle *handle) {
    size_t count = (size_t)cinfo->num_components;
    const uint8_t *frame = handle->jpeg + handle->frame;
    jpeg_component_info *all = cinfo->mem->alloc_small((j_common_ptr)cinfo, JPOOL_IMAGE,
                                                       count * sizeof *all);
    memset(all, 0, count * sizeof *all);
    cinfo->comp_info = all;
    cinfo->max_h_samp_factor = cinfo->max_v_samp_factor = 1;
    for (size_t i = 0; i < count; i++) {
        all[i].component_index = (int)i;
        all[i].h_samp_factor = handle->picture.sampling[i] >> 4;
        all[i].v_samp_factor = handle->picture.sampling[i] & 15;
        if (handle->frame_size >= 6 + 3 * (i + 1)) {
            all[i].component_id = frame[6 + 3 * i];
            all[i].quant_tbl_no = frame[8 + 3 * i];
        }
        if (all[i].h_samp_factor > cinfo->max_h_samp_factor)
            cinfo->max_h_samp_factor = all[i].h_samp_factor;
        if (all[i].v_samp_factor > cinfo->max_v_samp_factor)
            cinfo->max_v_samp_factor = all[i].v_samp_factor;
    }
    cinfo->total_iMCU_rows = quotient(cinfo->image_height, 8u * (unsigned)cinfo->max_v_samp_factor);
}

/* The scan header's components and parameters. */
static void describe_scan(j_decompress_ptr cinfo, const struct handle *handle) {
    const uint8_t *scan = handle->jpeg + handle->scan;
    unsigned count = handle->scan_size ? scan[0] : 0;
    cinfo->comps_in_scan = 0;
    if (count > MAX_COMPS_IN_SCAN || handle->scan_size < 4 + 2 * count) return;
    for (unsigned i = 0; i < count; i++)
        for (int j = 0; j < cinfo->num_components; j++)
            if (cinfo->comp_info[j].component_id == scan[1 + 2 * i]) {
                cinfo->comp_info[j].dc_tbl_no = scan[2 + 2 * i] >> 4;
                cinfo->comp_info[j].ac_tbl_no = scan[2 + 2 * i] & 15;
                cinfo->cur_comp_info[i] = &cinfo->comp_info[j];
            }
    cinfo->comps_in_scan = (int)count;
    cinfo->Ss = scan[1 + 2 * count];
    cinfo->Se = scan[2 + 2 * count];
    cinfo->Ah = scan[3 + 2 * count] >> 4;
    cinfo->Al = scan[3 + 2 * count] & 15;
}

static const J_COLOR_SPACE colours[] = {
    [ZAXBRIAR_TRANSFORM_NONE] = JCS_GRAYSCALE, [ZAXBRIAR_TRANSFORM_RGB] = JCS_RGB,
    [ZAXBRIAR_TRANSFORM_YCBCR] = JCS_YCbCr,    [ZAXBRIAR_TRANSFORM_CMYK] = JCS_CMYK,
    [ZAXBRIAR_TRANSFORM_YCCK] = JCS_YCCK,
};

/* What a program gets that asks for nothing. */
static void set_defaults(j_decompress_ptr cinfo) {
    cinfo->out_color_space = cinfo->num_components == 1   ? JCS_GRAYSCALE
                             : cinfo->num_components == 3 ? JCS_RGB
                                                          : JCS_CMYK;
    cinfo->scale_num = cinfo->scale_denom = 1;
    cinfo->output_gamma = 1;
    cinfo->buffered_image = cinfo->raw_data_out = FALSE;
    cinfo->dct_method = JDCT_DEFAULT;
    cinfo->do_fancy_upsampling = cinfo->do_block_smoothing = TRUE;
    cinfo->quantize_colors = FALSE;
    cinfo->dither_mode = JDITHER_FS;
    cinfo->two_pass_quantize = TRUE;
    cinfo->desired_number_of_colors = 256;
    cinfo->colormap = NULL;
    cinfo->enable_1pass_quant = cinfo->enable_external_quant = cinfo->enable_2pass_quant = FALSE;
}

void describe(j_decompress_ptr cinfo, struct handle *handle) {
    const zaxbriar_picture *picture = &handle->picture;
    cinfo->image_width = picture->width;
    cinfo->image_height = picture->height;
    cinfo->num_components = picture->components;
    cinfo->data_precision = BITS_IN_JSAMPLE;
    cinfo->progressive_mode = picture->process == ZAXBRIAR_PROGRESSIVE;
    cinfo->arith_code = FALSE;
    describe_components(cinfo, handle);
    describe_scan(cinfo, handle);
    cinfo->jpeg_color_space = handle->colours = colours[colours_of(picture)];
    set_defaults(cinfo);
    set_sizes(cinfo, DCTSIZE);
}

void set_sizes(j_decompress_ptr cinfo, int scaled_block) {
    unsigned most_across = (unsigned)cinfo->max_h_samp_factor;
    unsigned most_down = (unsigned)cinfo->max_v_samp_factor;
    cinfo->min_DCT_scaled_size = scaled_block;
    for (int i = 0; i < cinfo->num_components; i++) {
        jpeg_component_info *component = &cinfo->comp_info[i];
        unsigned across = (unsigned)component->h_samp_factor, size = (unsigned)scaled_block;
        unsigned down = (unsigned)component->v_samp_factor;
        uint64_t width = (uint64_t)cinfo->image_width * across;
        uint64_t height = (uint64_t)cinfo->image_height * down;
        /* (a component with fewer samples is scaled down less) */
        while (size < DCTSIZE && most_across * (unsigned)scaled_block % (across * size * 2) == 0 &&
               most_down * (unsigned)scaled_block % (down * size * 2) == 0)
            size *= 2;
        component->DCT_scaled_size = (int)size;
        component->width_in_blocks = quotient(width, most_across * DCTSIZE);
        component->height_in_blocks = quotient(height, most_down * DCTSIZE);
        component->downsampled_width = quotient(width * size, most_across * DCTSIZE);
        component->downsampled_height = quotient(height * size, most_down * DCTSIZE);
        component->component_needed = TRUE;
    }
}

/* Writes a DQT segment of a table, at most 133 bytes, and returns its size. */
static size_t quantization_segment(const JQUANT_TBL *table, int name, uint8_t *segment) {
    memcpy(segment, (uint8_t[]){0xFF, DQT, 0, 131, (uint8_t)(0x10 | name)}, 5);
    for (int i = 0; i < DCTSIZE2; i++) {
        segment[5 + 2 * i] = (uint8_t)(table->quantval[jpeg_natural_order[i]] >> 8);
        segment[6 + 2 * i] = (uint8_t)table->quantval[jpeg_natural_order[i]];
    }
    return 133;
}

/* Writes a DHT segment of a table, at most 277 bytes, and returns its size. */
static size_t huffman_segment(const JHUFF_TBL *table, int kind, int name, uint8_t *segment) {
    size_t count = 0;
    for (int i = 1; i <= 16; i++) count += table->bits[i];
    if (count > 256) return 0;
    segment[0] = 0xFF;
    segment[1] = DHT;
    segment[2] = (uint8_t)((19 + count) >> 8);
    segment[3] = (uint8_t)(19 + count);
    segment[4] = (uint8_t)(kind << 4 | name);
    memcpy(segment + 5, table->bits + 1, 16);
    memcpy(segment + 21, table->huffval, count);
    return 21 + count;
}

/* Writes the tables of the object that the stream's header lacks. */
static size_t lacking_tables(j_decompress_ptr cinfo, const struct handle *handle,
                             uint8_t *segments) {
    size_t size = 0;
    unsigned seen = handle->tables[0];
    for (int i = 0; i < cinfo->num_components; i++) {
        int name = cinfo->comp_info[i].quant_tbl_no;
        if (name >= NUM_QUANT_TBLS || seen >> name & 1 || !cinfo->quant_tbl_ptrs[name]) continue;
        size += quantization_segment(cinfo->quant_tbl_ptrs[name], name, segments + size);
        seen |= 1u << name;
    }
    for (int kind = 0; kind < 2; kind++)
        for (int name = 0; name < NUM_HUFF_TBLS; name++) {
            const JHUFF_TBL *table =
                kind ? cinfo->ac_huff_tbl_ptrs[name] : cinfo->dc_huff_tbl_ptrs[name];
            if (table && !(handle->tables[1 + kind] >> name & 1))
                size += huffman_segment(table, kind, name, segments + size);
        }
    return size;
}

size_t write_tables(j_decompress_ptr cinfo, const struct handle *handle, uint8_t *segments) {
    /* The usual Huffman tables are those of AVI files, which say by this segment that they have
     * none. */
    static const uint8_t avi[18] = {0xFF, JPEG_APP0, 0, 16, 'A', 'V', 'I', '1'};
    size_t size = lacking_tables(cinfo, handle, segments);
    if (handle->tables[1] || handle->tables[2] || cinfo->dc_huff_tbl_ptrs[0] ||
        cinfo->ac_huff_tbl_ptrs[0])
        return size;
    memcpy(segments + size, avi, sizeof avi);
    return size + sizeof avi;
}
