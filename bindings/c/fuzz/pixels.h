/* What zaxbriar.h says of pixels: what a layout makes of the samples that are stored, and a smaller
 * size of those of a larger one. */
#ifndef PIXELS_H
#define PIXELS_H

#include "room.h"

/* Checks that the pixels of a picture are those that its layout makes of the stored samples. Both
 * have no gaps, and are of the same size. */
void check_layout(const zaxbriar_picture *picture, const unsigned char *pixels,
                  const zaxbriar_picture *stored, const unsigned char *samples);

/* Checks that each sample of a picture is the mean of those of its box in a larger one. Both are as
 * they are stored, without gaps. */
void check_means(const zaxbriar_picture *smaller, const unsigned char *means,
                 const zaxbriar_picture *larger, const unsigned char *samples);

#endif
