/* The proved calls where the library has them twice, of the same proofs: compiled for processors of
 * the kind x86-64-v2, and for those of the kind x86-64-v3. Each call goes to the second where the
 * processor is of that kind. Where the library has them once (`make CPU=..`) this isn't linked. */
#include "processor.h"
#include "proved.h"

#define FOR_BOTH(call) \
    extern __typeof__(zaxbriar_checked_##call) zaxbriar_v2_##call, zaxbriar_v3_##call

FOR_BOTH(read_info);
FOR_BOTH(decode);
FOR_BOTH(decode_partial);
FOR_BOTH(decode_planes);
FOR_BOTH(metadata);
FOR_BOTH(joined_metadata);
FOR_BOTH(find_metadata);
FOR_BOTH(next_segment);
FOR_BOTH(rows_new);
FOR_BOTH(rows_next);
FOR_BOTH(rows_refusal);
FOR_BOTH(rows_free);
FOR_BOTH(fed_new);
FOR_BOTH(fed_feed);
FOR_BOTH(fed_info);
FOR_BOTH(fed_show);
FOR_BOTH(fed_rows);
FOR_BOTH(fed_next);
FOR_BOTH(fed_end);
FOR_BOTH(fed_refusal);
FOR_BOTH(fed_find_metadata);
FOR_BOTH(fed_free);

uint32_t zaxbriar_checked_read_info(const uint8_t *jpeg, size_t jpeg_size,
                                    const zaxbriar_options *options, zaxbriar_picture *picture) {
    if (zaxbriar_is_v3()) return zaxbriar_v3_read_info(jpeg, jpeg_size, options, picture);
    return zaxbriar_v2_read_info(jpeg, jpeg_size, options, picture);
}

uint32_t zaxbriar_checked_decode(const uint8_t *jpeg, size_t jpeg_size,
                                 const zaxbriar_options *options, uint8_t *pixels,
                                 size_t pixels_size, zaxbriar_picture *picture) {
    if (zaxbriar_is_v3())
        return zaxbriar_v3_decode(jpeg, jpeg_size, options, pixels, pixels_size, picture);
    return zaxbriar_v2_decode(jpeg, jpeg_size, options, pixels, pixels_size, picture);
}

uint32_t zaxbriar_checked_decode_partial(const uint8_t *jpeg, size_t jpeg_size,
                                         const zaxbriar_options *options, uint8_t *pixels,
                                         size_t pixels_size, zaxbriar_picture *picture) {
    if (zaxbriar_is_v3())
        return zaxbriar_v3_decode_partial(jpeg, jpeg_size, options, pixels, pixels_size, picture);
    return zaxbriar_v2_decode_partial(jpeg, jpeg_size, options, pixels, pixels_size, picture);
}

uint32_t zaxbriar_checked_decode_planes(const uint8_t *jpeg, size_t jpeg_size,
                                        const zaxbriar_options *options, uint8_t *samples,
                                        size_t samples_size, zaxbriar_picture *picture) {
    if (zaxbriar_is_v3())
        return zaxbriar_v3_decode_planes(jpeg, jpeg_size, options, samples, samples_size, picture);
    return zaxbriar_v2_decode_planes(jpeg, jpeg_size, options, samples, samples_size, picture);
}

uint32_t zaxbriar_checked_metadata(const uint8_t *jpeg, size_t jpeg_size, uint32_t kind,
                                   uint64_t max_passes, uint8_t *data, size_t data_size,
                                   uint64_t *length) {
    if (zaxbriar_is_v3())
        return zaxbriar_v3_metadata(jpeg, jpeg_size, kind, max_passes, data, data_size, length);
    return zaxbriar_v2_metadata(jpeg, jpeg_size, kind, max_passes, data, data_size, length);
}

uint32_t zaxbriar_checked_joined_metadata(const uint8_t *jpeg, size_t jpeg_size, uint32_t kind,
                                          uint8_t *data, size_t data_size, uint64_t *length) {
    if (zaxbriar_is_v3())
        return zaxbriar_v3_joined_metadata(jpeg, jpeg_size, kind, data, data_size, length);
    return zaxbriar_v2_joined_metadata(jpeg, jpeg_size, kind, data, data_size, length);
}

void zaxbriar_checked_find_metadata(const uint8_t *jpeg, size_t jpeg_size,
                                    zaxbriar_places *places) {
    if (zaxbriar_is_v3())
        zaxbriar_v3_find_metadata(jpeg, jpeg_size, places);
    else
        zaxbriar_v2_find_metadata(jpeg, jpeg_size, places);
}

uint32_t zaxbriar_checked_next_segment(const uint8_t *jpeg, size_t jpeg_size,
                                       zaxbriar_segment *segment) {
    if (zaxbriar_is_v3()) return zaxbriar_v3_next_segment(jpeg, jpeg_size, segment);
    return zaxbriar_v2_next_segment(jpeg, jpeg_size, segment);
}

uint32_t zaxbriar_checked_rows_new(const uint8_t *jpeg, size_t jpeg_size,
                                   const zaxbriar_options *options, zaxbriar_kept *kept,
                                   zaxbriar_picture *picture) {
    if (zaxbriar_is_v3()) return zaxbriar_v3_rows_new(jpeg, jpeg_size, options, kept, picture);
    return zaxbriar_v2_rows_new(jpeg, jpeg_size, options, kept, picture);
}

uint32_t zaxbriar_checked_rows_next(zaxbriar_kept *kept, uint8_t *line, size_t line_size) {
    if (zaxbriar_is_v3()) return zaxbriar_v3_rows_next(kept, line, line_size);
    return zaxbriar_v2_rows_next(kept, line, line_size);
}

uint32_t zaxbriar_checked_rows_refusal(zaxbriar_kept *kept, zaxbriar_picture *picture) {
    if (zaxbriar_is_v3()) return zaxbriar_v3_rows_refusal(kept, picture);
    return zaxbriar_v2_rows_refusal(kept, picture);
}

void zaxbriar_checked_rows_free(zaxbriar_kept *kept) {
    if (zaxbriar_is_v3())
        zaxbriar_v3_rows_free(kept);
    else
        zaxbriar_v2_rows_free(kept);
}

uint32_t zaxbriar_checked_fed_new(const zaxbriar_options *options, zaxbriar_kept *kept) {
    if (zaxbriar_is_v3()) return zaxbriar_v3_fed_new(options, kept);
    return zaxbriar_v2_fed_new(options, kept);
}

uint32_t zaxbriar_checked_fed_feed(zaxbriar_kept *kept, const uint8_t *bytes, size_t size) {
    if (zaxbriar_is_v3()) return zaxbriar_v3_fed_feed(kept, bytes, size);
    return zaxbriar_v2_fed_feed(kept, bytes, size);
}

uint32_t zaxbriar_checked_fed_info(zaxbriar_kept *kept, zaxbriar_picture *picture) {
    if (zaxbriar_is_v3()) return zaxbriar_v3_fed_info(kept, picture);
    return zaxbriar_v2_fed_info(kept, picture);
}

uint32_t zaxbriar_checked_fed_show(zaxbriar_kept *kept, uint8_t *pixels, size_t pixels_size,
                                   zaxbriar_picture *picture) {
    if (zaxbriar_is_v3()) return zaxbriar_v3_fed_show(kept, pixels, pixels_size, picture);
    return zaxbriar_v2_fed_show(kept, pixels, pixels_size, picture);
}

uint32_t zaxbriar_checked_fed_rows(zaxbriar_kept *kept, zaxbriar_picture *picture) {
    if (zaxbriar_is_v3()) return zaxbriar_v3_fed_rows(kept, picture);
    return zaxbriar_v2_fed_rows(kept, picture);
}

uint32_t zaxbriar_checked_fed_next(zaxbriar_kept *kept, uint8_t *line, size_t line_size) {
    if (zaxbriar_is_v3()) return zaxbriar_v3_fed_next(kept, line, line_size);
    return zaxbriar_v2_fed_next(kept, line, line_size);
}

uint32_t zaxbriar_checked_fed_end(zaxbriar_kept *kept) {
    if (zaxbriar_is_v3()) return zaxbriar_v3_fed_end(kept);
    return zaxbriar_v2_fed_end(kept);
}

uint32_t zaxbriar_checked_fed_refusal(zaxbriar_kept *kept, zaxbriar_picture *picture) {
    if (zaxbriar_is_v3()) return zaxbriar_v3_fed_refusal(kept, picture);
    return zaxbriar_v2_fed_refusal(kept, picture);
}

void zaxbriar_checked_fed_find_metadata(zaxbriar_kept *kept, zaxbriar_places *places) {
    if (zaxbriar_is_v3())
        zaxbriar_v3_fed_find_metadata(kept, places);
    else
        zaxbriar_v2_fed_find_metadata(kept, places);
}

void zaxbriar_checked_fed_free(zaxbriar_kept *kept) {
    if (zaxbriar_is_v3())
        zaxbriar_v3_fed_free(kept);
    else
        zaxbriar_v2_fed_free(kept);
}
