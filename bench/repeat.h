/* A program that decodes a file so many times from memory, by the one function that it lacks. */
#include <stddef.h>

/* Decodes a picture at 1/`scale` of its size, in a layout, such as "RGBA", or as it is stored where
 * that is NULL. Returns its pixels, which the caller frees, or NULL where it can't. */
unsigned char *decode(const unsigned char *jpeg, size_t size, unsigned scale, const char *layout);
