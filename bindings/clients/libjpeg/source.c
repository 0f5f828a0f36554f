/* The bytes of a decompressor: as they come from the program's source, and as they are given to the
 * system's library. */
#include "shim.h"

#include <jerror.h>
#include <stdlib.h>
#include <string.h>

enum { LEAST_PIECE = 1 << 16 };

static int make_room(j_decompress_ptr cinfo, struct handle *handle, size_t count) {
    if (count <= handle->room - handle->size) return 1;
    size_t room = 2 * handle->room + count;
    uint8_t *jpeg = realloc(handle->jpeg, room);
    if (!jpeg) {
        ERREXIT1(cinfo, JERR_OUT_OF_MEMORY, 1);
        return 0;
    }
    handle->jpeg = jpeg;
    handle->room = room;
    return 1;
}

/* Has the source fill its buffer. Returns 0 if it has nothing. Where a file ends too soon, a source
 * warns of that and gives an EOI; that isn't one of the file's bytes, and isn't taken. */
static int fill(j_decompress_ptr cinfo, struct handle *handle) {
    struct jpeg_source_mgr *source = cinfo->src;
    long warnings = cinfo->err->num_warnings;
    if (source->bytes_in_buffer) return 1;
    if (!source->fill_input_buffer(cinfo) || !source->bytes_in_buffer) return 0;
    if (cinfo->err->num_warnings > warnings && source->bytes_in_buffer == 2 &&
        source->next_input_byte[0] == 0xFF && source->next_input_byte[1] == EOI) {
        source->next_input_byte += 2;
        source->bytes_in_buffer = 0;
        handle->has_ended = 1;
    }
    return 1;
}

/* Takes bytes that the source has; no more than there are already, or than a first piece, since
 * many images may follow this one. Returns 0 if the source has none. */
static int take(j_decompress_ptr cinfo, struct handle *handle) {
    struct jpeg_source_mgr *source = cinfo->src;
    if (!fill(cinfo, handle)) return 0;
    size_t most = handle->size < LEAST_PIECE ? LEAST_PIECE : handle->size;
    size_t count = source->bytes_in_buffer < most ? source->bytes_in_buffer : most;
    if (!make_room(cinfo, handle, count)) return 0;
    memcpy(handle->jpeg + handle->size, source->next_input_byte, count);
    source->next_input_byte += count;
    source->bytes_in_buffer -= count;
    handle->size += count;
    handle->returnable = count;
    return 1;
}

/* Gives back to the source what was taken beyond the last segment, which came in the last piece. */
static void give_back(j_decompress_ptr cinfo, struct handle *handle) {
    size_t count = handle->size - handle->at;
    if (count > handle->returnable) count = handle->returnable;
    cinfo->src->next_input_byte -= count;
    cinfo->src->bytes_in_buffer += count;
    handle->size -= count;
    handle->returnable = 0;
    handle->wanted = handle->at + 1;
}

/* Sees to it that the rest of a segment comes, or is passed over where nobody wants it. */
static void want(j_decompress_ptr cinfo, struct handle *handle, const zaxbriar_segment *segment) {
    handle->at += segment->skipped;
    handle->wanted = handle->size + segment->needed;
    /* (with its length, which the first four bytes have, all that lacks is needed) */
    if (handle->size - handle->at < 4 || !is_ignored(handle, segment->marker)) return;
    handle->size = handle->at;
    handle->wanted = handle->at + 1;
    handle->returnable = 0;
    cinfo->src->skip_input_data(cinfo, (long)segment->needed);
}

/* An image begins with SOI, and nothing else is one. */
static int has_start(j_decompress_ptr cinfo, const struct handle *handle) {
    if (handle->at || (handle->jpeg[0] == 0xFF && handle->jpeg[1] == SOI)) return 1;
    ERREXIT2(cinfo, JERR_NO_SOI, handle->jpeg[0], handle->jpeg[1]);
    return 0;
}

/* Looks for the next segment in what has come. Returns its marker, or 0 if it isn't there yet; or a
 * negative number if a routine of the program's doesn't want it yet. */
static int next_marker(j_decompress_ptr cinfo, struct handle *handle) {
    zaxbriar_segment segment;
    zaxbriar_result answer = zaxbriar_next_segment(handle->jpeg + handle->at,
                                                   handle->size - handle->at, &segment);
    if (answer == ZAXBRIAR_TRUNCATED) {
        want(cinfo, handle, &segment);
        return 0;
    }
    if (answer != ZAXBRIAR_OK) {
        handle->is_malformed = 1;
        return EOI;
    }
    if (!see_segment(cinfo, handle, &segment)) return -1;
    handle->at += segment.end;
    handle->wanted = handle->at + 1;
    return segment.marker;
}

int gather(j_decompress_ptr cinfo, struct handle *handle, int is_header) {
    while (!handle->has_ended) {
        int marker = 0;
        if (handle->wanted < 2) handle->wanted = 2;
        if (handle->size >= handle->wanted) {
            if (!has_start(cinfo, handle)) return JPEG_SUSPENDED;
            marker = next_marker(cinfo, handle);
        } else if (!take(cinfo, handle)) {
            marker = -1;
        }
        if (marker < 0) {
            handle->returnable = 0;
            return JPEG_SUSPENDED;
        }
        if (marker == EOI) handle->has_ended = 1;
        int is_reached = marker == EOI || (marker == SOS && is_header);
        if (is_reached && !handle->is_malformed) give_back(cinfo, handle);
        if (marker == SOS && is_header) return JPEG_REACHED_SOS;
    }
    return JPEG_REACHED_EOI;
}

static void init_replay(j_decompress_ptr cinfo) { (void)cinfo; }

static boolean fill_replay(j_decompress_ptr cinfo) {
    static const JOCTET end[] = {0xFF, EOI};
    WARNMS(cinfo, JWRN_JPEG_EOF);
    cinfo->src->next_input_byte = end;
    cinfo->src->bytes_in_buffer = sizeof end;
    return TRUE;
}

static void skip_replay(j_decompress_ptr cinfo, long count) {
    struct jpeg_source_mgr *source = cinfo->src;
    if (count <= 0) return;
    if ((size_t)count > source->bytes_in_buffer) count = (long)source->bytes_in_buffer;
    source->next_input_byte += count;
    source->bytes_in_buffer -= (size_t)count;
}

/* The program's own source ends where all bytes have been read. */
static void end_replay(j_decompress_ptr cinfo) {
    return_source(cinfo);
    cinfo->src->term_source(cinfo);
    lend_source(cinfo);
}

void make_replay(struct handle *handle) {
    handle->replay = (struct jpeg_source_mgr){.next_input_byte = handle->jpeg,
                                              .bytes_in_buffer = handle->size,
                                              .init_source = init_replay,
                                              .fill_input_buffer = fill_replay,
                                              .skip_input_data = skip_replay,
                                              .resync_to_restart = jpeg_resync_to_restart,
                                              .term_source = end_replay};
}

void lend_source(j_decompress_ptr cinfo) {
    struct handle *handle = handle_of((j_common_ptr)cinfo);
    if (!handle || !handle->is_own || cinfo->src == &handle->replay) return;
    handle->source = cinfo->src;
    cinfo->src = &handle->replay;
}

void return_source(j_decompress_ptr cinfo) {
    struct handle *handle = handle_of((j_common_ptr)cinfo);
    if (handle && handle->is_own && cinfo->src == &handle->replay) cinfo->src = handle->source;
}
