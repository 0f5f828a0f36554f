/* The allocator of the proved code, over the functions of memory.c: that of bindings/c/heap.c,
 * whose notes say what the proofs take for granted of it, without a caller's own functions.
 * JavaScript has none to give, and the module calls no function by a pointer. */
#include "heap.h"

#include <stdbool.h>
#include <stddef.h>
#include <stdlib.h>

/* What an allocation returns: whether it succeeded, and a pointer that is never null. */
struct tried {
    bool ok;
    void *block;
};

struct tried rattle_alloc(size_t size, size_t align);
struct tried rattle_realloc(void *block, size_t kept, size_t size, size_t align);
void rattle_dealloc(void *block);

static char nothing;

const zaxbriar_memory *zaxbriar_exchange_memory(const zaxbriar_memory *memory) {
    (void)memory;
    return NULL;
}

void *zaxbriar_take_block(size_t size) { return malloc(size); }

void zaxbriar_give_block(void *block) { free(block); }

static struct tried tried(void *block) {
    return (struct tried){block != NULL, block ? block : &nothing};
}

/* (a block of memory.c has 16 bytes at least, and is aligned to as many) */
struct tried rattle_alloc(size_t size, size_t align) {
    (void)align;
    return tried(malloc(size));
}

struct tried rattle_realloc(void *block, size_t kept, size_t size, size_t align) {
    (void)kept;
    (void)align;
    return tried(realloc(block, size));
}

void rattle_dealloc(void *block) { free(block); }
