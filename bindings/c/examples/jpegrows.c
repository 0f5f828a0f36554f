/* jpegrows FILE > PICTURE: writes the picture as PGM (grey), PPM (red, green and blue) or PAM
 * (cyan, magenta, yellow and black), line by line as the file is read: of most files two rows of
 * MCUs are in memory at most. It isn't turned upright. The status is 0 only if the file has no
 * fault: until then nobody knows whether what was written is right. */
#include <stdio.h>
#include <stdlib.h>

#include "zaxbriar.h"

/* Returns the bytes of a file, or a null pointer. */
static unsigned char *read_file(const char *name, size_t *size) {
    FILE *file = fopen(name, "rb");
    unsigned char *bytes = NULL;
    long length = -1;
    if (!file) return NULL;
    if (fseek(file, 0, SEEK_END) == 0 && (length = ftell(file)) >= 0 &&
        fseek(file, 0, SEEK_SET) == 0 && (bytes = malloc((size_t)length + 1)) != NULL &&
        fread(bytes, 1, (size_t)length, file) != (size_t)length) {
        free(bytes);
        bytes = NULL;
    }
    fclose(file);
    *size = (size_t)length;
    return bytes;
}

static void write_header(const zaxbriar_picture *picture) {
    unsigned most = (1u << picture->precision) - 1;
    if (picture->components == 4)
        printf("P7\nWIDTH %u\nHEIGHT %u\nDEPTH 4\nMAXVAL %u\nTUPLTYPE CMYK\nENDHDR\n",
               picture->width, picture->height, most);
    else
        printf("P%c\n%u %u\n%u\n", picture->components == 1 ? '5' : '6', picture->width,
               picture->height, most);
}

/* Writes a line. In netpbm's formats the higher byte of a sample is first. */
static int write_line(const zaxbriar_picture *picture, unsigned char *line) {
    size_t size = picture->row_bytes;
    if (picture->sample_bytes == 2)
        for (size_t i = 0; i + 1 < size; i += 2) {
            unsigned char lower = line[i];
            line[i] = line[i + 1];
            line[i + 1] = lower;
        }
    return fwrite(line, 1, size, stdout) == size;
}

/* Writes all lines. Returns the answer after the last, or ZAXBRIAR_OK if one can't be written. */
static zaxbriar_result write_lines(zaxbriar_rows *rows, const zaxbriar_picture *picture) {
    unsigned char *line = malloc(picture->row_bytes);
    zaxbriar_result answer = line ? ZAXBRIAR_OK : ZAXBRIAR_NO_MEMORY;
    int is_written = 1;
    write_header(picture);
    while (answer == ZAXBRIAR_OK && is_written) {
        answer = zaxbriar_rows_next(rows, line, picture->row_bytes);
        if (answer == ZAXBRIAR_OK) is_written = write_line(picture, line);
    }
    free(line);
    return answer;
}

int main(int argc, char **argv) {
    if (argc != 2) {
        fprintf(stderr, "usage: jpegrows FILE > PICTURE\n");
        return 2;
    }
    size_t size;
    unsigned char *jpeg = read_file(argv[1], &size);
    if (!jpeg) {
        perror(argv[1]);
        return 1;
    }
    zaxbriar_rows *rows;
    zaxbriar_picture picture;
    zaxbriar_result answer = zaxbriar_rows_new(jpeg, size, NULL, &rows, &picture);
    if (answer == ZAXBRIAR_OK) {
        answer = write_lines(rows, &picture);
        if (answer == ZAXBRIAR_END && fflush(stdout) != 0) answer = ZAXBRIAR_OK;
        zaxbriar_rows_refusal(rows, &picture);
    }
    const char *fault = picture.text[0] ? picture.text : zaxbriar_answer_name(answer);
    if (answer == ZAXBRIAR_OK)
        perror("jpegrows");
    else if (answer != ZAXBRIAR_END)
        fprintf(stderr, "jpegrows: %s: %s\n", argv[1], fault);
    zaxbriar_rows_free(rows);
    free(jpeg);
    return answer != ZAXBRIAR_END;
}
