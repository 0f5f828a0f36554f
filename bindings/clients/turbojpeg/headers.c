/* headers LIST: for each file that LIST names, a line with its name, and with the width, height,
 * sampling and colours that tjDecompressHeader3 gives, or - if it refuses the file. */
#include <stdio.h>
#include <string.h>
#include <turbojpeg.h>

static unsigned char jpeg[1 << 22];

int main(int argc, char **argv) {
    char name[4096];
    FILE *list = argc == 2 ? fopen(argv[1], "r") : NULL;
    if (!list) return 2;
    while (fgets(name, sizeof name, list)) {
        int width, height, sampling, colours;
        name[strcspn(name, "\n")] = 0;
        FILE *file = fopen(name, "rb");
        if (!file) return 2;
        size_t size = fread(jpeg, 1, sizeof jpeg, file);
        fclose(file);
        /* (libturbojpeg's handle can't be used again after a refusal) */
        tjhandle handle = tjInitDecompress();
        if (!handle) return 2;
        if (tjDecompressHeader3(handle, jpeg, size, &width, &height, &sampling, &colours))
            printf("%s -\n", name);
        else printf("%s %d,%d,%d,%d\n", name, width, height, sampling, colours);
        tjDestroy(handle);
    }
    fclose(list);
    return 0;
}
