/* partial WHOLE CUT..: decompresses the file WHOLE, and each file CUT, which is a beginning of it.
 * Prints for each what tjDecompress2 returns, the code, whether there is a text, how many rows from
 * the top are those of WHOLE, and what the call returns with TJFLAG_STOPONWARNING. */
#include <stdio.h>
#include <stdlib.h>
#include <string.h>
#include <turbojpeg.h>

static unsigned char jpeg[1 << 24];
static int width, height;

static size_t read_file(const char *name) {
    FILE *file = fopen(name, "rb");
    if (!file) exit(2);
    size_t size = fread(jpeg, 1, sizeof jpeg, file);
    fclose(file);
    return size;
}

/* Decompresses to RGB, and says how that went. */
static int decompress(tjhandle handle, size_t size, unsigned char *pixels, int flags, int *code) {
    int answer = tjDecompress2(handle, jpeg, size, pixels, width, 0, height, TJPF_RGB, flags);
    *code = answer ? tjGetErrorCode(handle) : -1;
    return answer;
}

static void of_cut(const char *name, const unsigned char *whole) {
    int w, h, sampling, colours, code, stopped_code, rows = 0;
    size_t size = read_file(name), row = 3 * (size_t)width;
    tjhandle handle = tjInitDecompress();
    unsigned char *pixels = calloc((size_t)height, row);
    if (!pixels || !handle) exit(2);
    if (tjDecompressHeader3(handle, jpeg, size, &w, &h, &sampling, &colours)) {
        printf("%s: header %d, code %d\n", name, -1, tjGetErrorCode(handle));
    } else {
        int answer = decompress(handle, size, pixels, 0, &code);
        int has_text = answer && tjGetErrorStr2(handle)[0];
        while (rows < height && !memcmp(pixels + rows * row, whole + rows * row, row)) rows++;
        int stopped = decompress(handle, size, pixels, TJFLAG_STOPONWARNING, &stopped_code);
        printf("%s: %d, code %d%s, %d of %d rows; stopping %d, code %d\n", name, answer, code,
               has_text ? ", a text" : "", rows, height, stopped, stopped_code);
    }
    free(pixels);
    tjDestroy(handle);
}

int main(int argc, char **argv) {
    int sampling, colours, code;
    if (argc < 2) return 2;
    size_t size = read_file(argv[1]);
    tjhandle handle = tjInitDecompress();
    if (tjDecompressHeader3(handle, jpeg, size, &width, &height, &sampling, &colours)) return 2;
    unsigned char *whole = malloc(3 * (size_t)width * (size_t)height);
    if (!whole || decompress(handle, size, whole, 0, &code)) return 2;
    for (int i = 1; i < argc; i++) of_cut(argv[i], whole);
    free(whole);
    tjDestroy(handle);
    return 0;
}
