/* What the libraries that take another's place (turbojpeg, libjpeg) share: decoding a picture as
 * far as its bytes go, the order of samples that the C library doesn't write, and the library of
 * the system, by its path. */
#ifndef DECODE_H
#define DECODE_H
#include <stddef.h>
#include <zaxbriar.h>

/* How many times the scans of a file may code the blocks of its picture. */
enum { MAX_PASSES = 100 };

/* Whether an answer is a fault of the stream's. */
int is_fault(zaxbriar_result answer);

/* Decodes a picture, or the part of one before a fault: then the answer is ZAXBRIAR_PARTIAL. */
zaxbriar_result decode_until_fault(const void *jpeg, size_t size, const zaxbriar_options *options,
                                   void *pixels, size_t room, zaxbriar_picture *picture);

/* Returns what the components of a stream are by its header, also of a lossless one; NONE for
 * grey. */
zaxbriar_transform colours_of(const zaxbriar_picture *picture);

/* Exchanges two samples. */
void swap_samples(unsigned char *a, unsigned char *b);

/* Reverses the bytes of each of `count` pixels of four bytes. */
void reverse_pixels(unsigned char *pixels, size_t count);

/* Replaces each of `count` samples by its complement. */
void complement_samples(unsigned char *samples, size_t count);

typedef void function(void);

/* Returns a function of a library, or null. */
function *function_of(void *library, const char *name);

/* Opens the library at a path, whose own calls stay in it; returns null if there is none, or if it
 * is this one, installed in its place: if its function `name` is `ours`. */
void *open_other(const char *path, const char *name, function *ours);
#endif
