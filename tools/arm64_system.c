/* What proved programs call of C beside the C library, where the kit has no C of its own for the
 * processor: the program's arguments, and errno. The kit's crate `os` states what each does, which
 * the proofs take for granted. bindings/c/heap.c has the three functions of memory. */
#include <errno.h>
#include <stddef.h>
#include <stdint.h>
#include <sys/types.h>

int32_t rattle_errno(void);
void rattle_set_errno(int32_t error);
ssize_t rattle_arg(size_t index, uint8_t *buffer, size_t size);

static size_t count;
static char **words;

/* (The C library gives these to what runs before main.) */
__attribute__((constructor)) static void keep_arguments(int given, char **arguments) {
    count = (size_t)given;
    words = arguments;
}

int32_t rattle_errno(void) { return errno; }

void rattle_set_errno(int32_t error) { errno = error; }

/* Puts an argument at the start of the buffer and returns its length, -1 where there is no such
 * argument, or -2 where it doesn't fit, and then the buffer is full. */
ssize_t rattle_arg(size_t index, uint8_t *buffer, size_t size) {
    if (index >= count) return -1;
    size_t length = 0;
    for (; words[index][length]; length++) {
        if (length == size) return -2;
        buffer[length] = (uint8_t)words[index][length];
    }
    return (ssize_t)length;
}
