/* malloc, realloc and free of the module's memory, for heap.c and for JavaScript, and the
 * functions of string.h that compiled code calls. For one thread: nothing here is locked.
 *
 * The memory from __heap_base on is blocks without gaps, each a header and its bytes. The free ones
 * are a list by address, in which no two touch. The first that is large enough is taken: a decoding
 * has some dozen blocks at a time. */
#include <stddef.h>
#include <stdint.h>
#include <stdlib.h>
#include <string.h>

#define PAGE ((size_t)65536)
#define HEADER sizeof(struct block)
#define MOST_BYTES ((size_t)PTRDIFF_MAX - 2 * PAGE)

struct block {
    size_t size;        /* the bytes after the header: a multiple of 16, and at least 16 */
    struct block *next; /* of a free block: the next free one */
};

_Static_assert(sizeof(struct block) == 16, "blocks begin at multiples of 16");

extern unsigned char __heap_base;

static struct block *free_blocks;  /* the one at the lowest address */
static size_t end;                 /* where the last block ends; 0: there is none yet */
static size_t most_pages = 65536;  /* the limit of the whole memory */

static unsigned char *bytes_of(struct block *block) { return (unsigned char *)block + HEADER; }

static int touches(struct block *left, struct block *right) {
    return bytes_of(left) + left->size == (unsigned char *)right;
}

/* Joins a block to the one after it, where the two touch. */
static void join(struct block *block) {
    struct block *after = block->next;
    if (after && touches(block, after)) {
        block->size += HEADER + after->size;
        block->next = after->next;
    }
}

/* Puts a block into the list. */
static void give(struct block *block) {
    struct block *before = NULL, *after = free_blocks;
    while (after && after < block) before = after, after = after->next;
    block->next = after;
    join(block);
    if (!before) {
        free_blocks = block;
        return;
    }
    before->next = block;
    join(before);
}

/* Gives back what a block in use has beyond `size` bytes. */
static void trim(struct block *block, size_t size) {
    if (block->size - size < HEADER + 16) return;
    struct block *rest = (struct block *)(bytes_of(block) + size);
    rest->size = block->size - size - HEADER;
    block->size = size;
    give(rest);
}

/* Makes a free block of at least `size` bytes at the end of the memory. */
static int grow(size_t size) {
    if (!end) end = ((size_t)&__heap_base + 15) & ~(size_t)15;
    size_t pages = __builtin_wasm_memory_size(0);
    size_t spare = pages * PAGE - end; /* of the pages that are there */
    size_t more = 0;
    if (spare < size + HEADER) {
        more = (size + HEADER - spare + PAGE - 1) / PAGE;
        if (pages > most_pages || more > most_pages - pages) return 0;
        if (__builtin_wasm_memory_grow(0, more) == SIZE_MAX) return 0;
    }
    struct block *block = (struct block *)end;
    block->size = spare + more * PAGE - HEADER;
    end += spare + more * PAGE;
    give(block);
    return 1;
}

/* Takes the first free block that is large enough out of the list. */
static struct block *take(size_t size) {
    struct block **link = &free_blocks;
    while (*link && (*link)->size < size) link = &(*link)->next;
    struct block *block = *link;
    if (block) *link = block->next;
    return block;
}

/* Returns how many bytes a free block at the end of the memory lacks to have `size`. */
static size_t lacking(size_t size) {
    struct block *last = free_blocks;
    while (last && last->next) last = last->next;
    if (!last || (size_t)(bytes_of(last) + last->size) != end) return size;
    return size > last->size + HEADER ? size - last->size - HEADER : 16;
}

static size_t rounded(size_t size) { return size ? (size + 15) & ~(size_t)15 : 16; }

__attribute__((export_name("zaxbriar_malloc"))) void *malloc(size_t size) {
    if (size > MOST_BYTES) return NULL;
    size = rounded(size);
    struct block *block = take(size);
    if (!block && grow(lacking(size))) block = take(size);
    if (!block) return NULL;
    trim(block, size);
    return bytes_of(block);
}

__attribute__((export_name("zaxbriar_free"))) void free(void *bytes) {
    if (bytes) give((struct block *)((unsigned char *)bytes - HEADER));
}

/* Adds the block after a block in use to it, where that is free and the two have `size` bytes. */
static int extend(struct block *block, size_t size) {
    struct block **link = &free_blocks;
    while (*link && *link < block) link = &(*link)->next;
    struct block *after = *link;
    if (!after || !touches(block, after) || block->size + HEADER + after->size < size) return 0;
    *link = after->next;
    block->size += HEADER + after->size;
    return 1;
}

void *realloc(void *bytes, size_t size) {
    if (!bytes) return malloc(size);
    if (size > MOST_BYTES) return NULL;
    struct block *block = (struct block *)((unsigned char *)bytes - HEADER);
    size = rounded(size);
    if (block->size < size && !extend(block, size)) {
        void *moved = malloc(size);
        if (!moved) return NULL;
        memcpy(moved, bytes, block->size);
        free(bytes);
        return moved;
    }
    trim(block, size);
    return bytes;
}

/* Sets how many bytes the whole memory may have, rounded down to pages of 65,536. */
__attribute__((export_name("zaxbriar_limit_memory"))) void limit_memory(uint64_t bytes);
void limit_memory(uint64_t bytes) { most_pages = bytes / PAGE; }

/* Each of the three is one instruction. */
void *memcpy(void *restrict to, const void *restrict from, size_t size) {
    return __builtin_memcpy(to, from, size);
}

void *memmove(void *to, const void *from, size_t size) { return __builtin_memmove(to, from, size); }

void *memset(void *to, int byte, size_t size) { return __builtin_memset(to, byte, size); }

int memcmp(const void *left, const void *right, size_t size) {
    const unsigned char *l = left, *r = right;
    for (; size; size--, l++, r++)
        if (*l != *r) return *l < *r ? -1 : 1;
    return 0;
}

char *strcpy(char *restrict to, const char *restrict from) {
    char *start = to;
    while ((*to++ = *from++)) {}
    return start;
}
