/* What zaxbriar.h promises of one answer, whatever the bytes are. */
#ifndef ANSWERS_H
#define ANSWERS_H

#include "room.h"

/* What a call has returned, and what it says of the picture. */
struct answer {
    zaxbriar_result result;
    zaxbriar_picture picture;
};

/* Which call has answered. */
enum call { INFO, WHOLE, PART };

/* Whether there are pixels: OK and PARTIAL. */
int is_decoded(zaxbriar_result result);

/* Whether the picture is described: as well after NO_ROOM and TOO_LARGE. */
int is_described(zaxbriar_result result);

/* Whether the options request a part of the picture, and whether they let it fit within a size. */
int is_cropped(const zaxbriar_options *options);
int is_fitted(const zaxbriar_options *options);

/* Whether the options are ones that exist, apart from the stride and from where a part is. */
int are_known(const zaxbriar_options *options);

/* Whether a picture that is described exceeds a limit of the options. */
int is_above(const zaxbriar_options *options, const zaxbriar_picture *picture);

/* Whether the transform of the options is for pictures of other components, or for none whose luma
 * is asked for. */
int is_misfit(const zaxbriar_options *options, const zaxbriar_picture *picture);

/* The size of the stream's picture, at the scale of one that is described for the options. */
struct size {
    uint32_t width, height;
};
struct size stored_size(const zaxbriar_options *options, const zaxbriar_picture *picture);

/* Where a pixel of the stream's picture is in the upright one. */
struct place {
    uint32_t across, down;
};
struct place upright_place(const zaxbriar_picture *upright, uint32_t x, uint32_t y);

/* Checks that the answer is one of those that the call may give for so many bytes, and that the
 * members of the picture agree with it, with the options and with each other. */
void check_answer(enum call call, const struct answer *answer, const zaxbriar_options *options,
                  size_t size);

/* Checks the size of a picture that is described, whose size without options is that of `full`, and
 * what no option changes. */
void check_scale(const zaxbriar_picture *picture, const zaxbriar_options *options,
                 const zaxbriar_picture *full);

/* Checks that the picture has nothing but a text, a feature and the number of bytes. */
void check_cleared(const zaxbriar_picture *picture);

/* Returns the answer that zaxbriar_next_segment has to give for these bytes. */
zaxbriar_result first_segment(const unsigned char *bytes, size_t size, zaxbriar_segment *segment);

/* Checks that what was found lies in so many bytes. */
void check_places(const zaxbriar_places *places, size_t size);

#endif
