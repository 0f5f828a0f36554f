/* Whose memory the allocator of the proved code takes. */
#ifndef ZAXBRIAR_HEAP_H
#define ZAXBRIAR_HEAP_H

#include "zaxbriar.h"

/* Takes memory from these functions from now on in this thread, or from malloc where they are null.
 * Returns those of before. */
const zaxbriar_memory *zaxbriar_exchange_memory(const zaxbriar_memory *memory);

/* Takes a block of that memory, as malloc does, and gives it back. */
void *zaxbriar_take_block(size_t size);
void zaxbriar_give_block(void *block);

#endif
