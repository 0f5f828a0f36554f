/* Runs the target over files, where no fuzzing engine has a `main` of its own: over those that it
 * is given, or over standard input. A file that shows a fault ends it, and is the last one named
 * with --name. */
#include <stdint.h>
#include <stdio.h>
#include <stdlib.h>
#include <string.h>

int LLVMFuzzerTestOneInput(const uint8_t *data, size_t size);

/* Runs the target over what a file has, or returns 0 where it can't be read. */
static int run(FILE *file) {
    size_t size = 0, room = 1 << 20, count;
    if (!file) return 0;
    uint8_t *data = malloc(room), *more;
    while (data && (count = fread(data + size, 1, room - size, file)) > 0) {
        size += count;
        if (size < room) continue;
        more = realloc(data, room *= 2);
        if (!more) free(data);
        data = more;
    }
    if (!data || ferror(file)) return 0;
    LLVMFuzzerTestOneInput(data, size);
    free(data);
    return 1;
}

int main(int argc, char **argv) {
    int is_named = argc > 1 && strcmp(argv[1], "--name") == 0, first = 1 + is_named;
    for (int i = first; i < argc; i++) {
        FILE *file = fopen(argv[i], "rb");
        if (is_named) printf("%s\n", argv[i]), fflush(stdout);
        if (!run(file)) return perror(argv[i]), 2;
        fclose(file);
    }
    if (first == argc && !run(stdin)) return perror("standard input"), 2;
    printf("fuzz: %d inputs\n", first == argc ? 1 : argc - first);
    return 0;
}
