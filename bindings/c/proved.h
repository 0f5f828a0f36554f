/* The proved calls, of crates/zaxbriar. They take a slice as a pointer that isn't null and a
 * length. */
#ifndef ZAXBRIAR_PROVED_H
#define ZAXBRIAR_PROVED_H

#include "zaxbriar.h"

uint32_t zaxbriar_checked_read_info(const uint8_t *jpeg, size_t jpeg_size,
                                    const zaxbriar_options *options, zaxbriar_picture *picture);
uint32_t zaxbriar_checked_decode(const uint8_t *jpeg, size_t jpeg_size,
                                 const zaxbriar_options *options, uint8_t *pixels,
                                 size_t pixels_size, zaxbriar_picture *picture);
uint32_t zaxbriar_checked_decode_partial(const uint8_t *jpeg, size_t jpeg_size,
                                         const zaxbriar_options *options, uint8_t *pixels,
                                         size_t pixels_size, zaxbriar_picture *picture);
uint32_t zaxbriar_checked_decode_planes(const uint8_t *jpeg, size_t jpeg_size,
                                        const zaxbriar_options *options, uint8_t *samples,
                                        size_t samples_size, zaxbriar_picture *picture);

/* What the calls for lines keep between them, or those for a stream in pieces: all zeros before the
 * first, and then as the last call has left it. No copy of it is used after a call. */
typedef struct zaxbriar_kept {
    void *at;
    uint64_t used;
} zaxbriar_kept;

uint32_t zaxbriar_checked_rows_new(const uint8_t *jpeg, size_t jpeg_size,
                                   const zaxbriar_options *options, zaxbriar_kept *kept,
                                   zaxbriar_picture *picture);
uint32_t zaxbriar_checked_rows_next(zaxbriar_kept *kept, uint8_t *line, size_t line_size);
uint32_t zaxbriar_checked_rows_refusal(zaxbriar_kept *kept, zaxbriar_picture *picture);
void zaxbriar_checked_rows_free(zaxbriar_kept *kept);

uint32_t zaxbriar_checked_fed_new(const zaxbriar_options *options, zaxbriar_kept *kept);
uint32_t zaxbriar_checked_fed_feed(zaxbriar_kept *kept, const uint8_t *bytes, size_t size);
uint32_t zaxbriar_checked_fed_info(zaxbriar_kept *kept, zaxbriar_picture *picture);
uint32_t zaxbriar_checked_fed_show(zaxbriar_kept *kept, uint8_t *pixels, size_t pixels_size,
                                   zaxbriar_picture *picture);
uint32_t zaxbriar_checked_fed_rows(zaxbriar_kept *kept, zaxbriar_picture *picture);
uint32_t zaxbriar_checked_fed_next(zaxbriar_kept *kept, uint8_t *line, size_t line_size);
uint32_t zaxbriar_checked_fed_end(zaxbriar_kept *kept);
uint32_t zaxbriar_checked_fed_refusal(zaxbriar_kept *kept, zaxbriar_picture *picture);
void zaxbriar_checked_fed_find_metadata(zaxbriar_kept *kept, zaxbriar_places *places);
void zaxbriar_checked_fed_free(zaxbriar_kept *kept);

uint32_t zaxbriar_checked_metadata(const uint8_t *jpeg, size_t jpeg_size, uint32_t kind,
                                   uint64_t max_passes, uint8_t *data, size_t data_size,
                                   uint64_t *length);
uint32_t zaxbriar_checked_joined_metadata(const uint8_t *jpeg, size_t jpeg_size, uint32_t kind,
                                          uint8_t *data, size_t data_size, uint64_t *length);
void zaxbriar_checked_find_metadata(const uint8_t *jpeg, size_t jpeg_size, zaxbriar_places *places);
uint32_t zaxbriar_checked_next_segment(const uint8_t *jpeg, size_t jpeg_size,
                                       zaxbriar_segment *segment);

#endif
