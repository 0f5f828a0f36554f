/* What the fuzz target has of its own: checks that end the process, counters that guide the fuzzer,
 * bytes before a page that can't be touched, and an allocator that counts. */
#ifndef ROOM_H
#define ROOM_H

#include <stddef.h>
#include <stdint.h>

#include "zaxbriar.h"

/* Ends the process, and says what isn't so, unless the condition holds. */
#define CHECK(condition) ((condition) ? (void)0 : fail(__FILE__, __LINE__, #condition))

_Noreturn void fail(const char *file, int line, const char *condition);

/* Tells the fuzzer of something that a run has shown: of which kind it is, and what. The proved
 * code has no counters of its own, so that an input that shows something new is kept for this. */
void note(unsigned kind, uint64_t shown);

/* The same of a text, whose numbers don't count. */
void note_text(unsigned kind, const char *text);

/* Returns how many bits a number has. */
unsigned bits_of(uint64_t number);

/* Pages that are kept from one input to the next, before one that can't be touched. */
struct fenced {
    unsigned char *base;
    size_t size;
};

/* Returns room for so many bytes right before the page that can't be touched. The bytes of an
 * earlier call are lost. */
unsigned char *room_in(struct fenced *fenced, size_t size);

/* Lets the bytes be written, or only read. */
void allow_writing(struct fenced *fenced, int is_allowed);

/* What the calls with `counted_memory` have taken since `begin_counting`. */
struct counts {
    size_t live_blocks, live_bytes, peak_bytes;
    long allocations;
};
extern struct counts counts;

/* An allocator that counts, and sees whether bytes around its blocks were written. */
extern const zaxbriar_memory counted_memory;

/* Counts from zero; the allocation of this number is refused, 0 for none. */
void begin_counting(long refused);

/* Fails unless all blocks were released, and tells the fuzzer what was taken. */
void end_counting(unsigned kind);

int is_all(const unsigned char *start, size_t size, unsigned char byte);

/* Returns a block of so many bytes, at least one. */
void *block(size_t size);

#endif
