/* The allocator of the proved code, over malloc, realloc and free, or over the functions of a
 * caller while a call with these runs.
 *
 * The proofs take for granted that
 * - the three functions belong to one allocator, the same for all of a call;
 * - a block is aligned to each power of two up to 16 that divides its size, which C's malloc and
 *   realloc guarantee where alignof(max_align_t) is 16, and which zaxbriar.h asks of a caller's;
 * - a refused allocation is reported, and leaves a block that was to be resized as it was.
 *
 * `align` is 1, 2, 4, 8 or 16. `kept` bytes of a block have to stay as they are when it is resized;
 * realloc keeps them all. A block of no bytes is a block too: malloc(0) may return a null pointer,
 * so such a block is given `align` bytes.
 *
 * On Linux a large block is given large pages where the system has them, since its first touch then
 * costs less: 24 megapixels take 0.89 of their time if they are progressive, 0.92 at 4:4:4 and 1.01
 * at 4:2:0. */
#define _DEFAULT_SOURCE /* for madvise */
#include <stdalign.h>
#include <stdbool.h>
#include <stddef.h>
#include <stdint.h>
#include <stdlib.h>
#ifdef __linux__
#include <sys/mman.h>
#endif

#include "heap.h"

/* What an allocation returns: whether it succeeded, and a pointer that is never null. */
struct tried {
    bool ok;
    void *block;
};

struct tried rattle_alloc(size_t size, size_t align);
struct tried rattle_realloc(void *block, size_t kept, size_t size, size_t align);
void rattle_dealloc(void *block);

_Static_assert(alignof(max_align_t) >= 16, "blocks are aligned to 16 bytes");

static char nothing;

/* The functions of the caller whose call this thread runs, if it gave any. */
static _Thread_local const zaxbriar_memory *in_use;

const zaxbriar_memory *zaxbriar_exchange_memory(const zaxbriar_memory *memory) {
    const zaxbriar_memory *before = in_use;
    in_use = memory;
    return before;
}

void *zaxbriar_take_block(size_t size) {
    return in_use ? in_use->allocate(in_use->context, size) : malloc(size);
}

void zaxbriar_give_block(void *block) {
    if (in_use)
        in_use->release(in_use->context, block);
    else
        free(block);
}

static struct tried tried(void *block) {
    return (struct tried){block != NULL, block ? block : &nothing};
}

/* Asks for large pages for the whole pages of a block, if it is large. A system that refuses them
 * says so here, which changes nothing. */
static void ask_for_large_pages(void *block, size_t size) {
#ifdef MADV_HUGEPAGE
    enum { LEAST = 8 << 20, PAGE = 4096 };
    if (!block || size < LEAST) return;
    uintptr_t first = ((uintptr_t)block + PAGE - 1) / PAGE * PAGE;
    uintptr_t end = ((uintptr_t)block + size) / PAGE * PAGE;
    (void)madvise((void *)first, end - first, MADV_HUGEPAGE);
#else
    (void)block;
    (void)size;
#endif
}

struct tried rattle_alloc(size_t size, size_t align) {
    if (in_use) return tried(in_use->allocate(in_use->context, size ? size : align));
    void *block = malloc(size ? size : align);
    ask_for_large_pages(block, size);
    return tried(block);
}

struct tried rattle_realloc(void *block, size_t kept, size_t size, size_t align) {
    (void)kept;
    if (in_use) return tried(in_use->resize(in_use->context, block, size ? size : align));
    return tried(realloc(block, size ? size : align));
}

void rattle_dealloc(void *block) { zaxbriar_give_block(block); }
