/* jpegpipe < FILE > PICTURE: writes the picture of a file while it arrives, by a pipe say, as PGM
 * (grey) or PPM (red, green and blue), each line as soon as its bytes are there, and to standard
 * error how many there are. Of most files two rows of MCUs are in memory at most, and few bytes of
 * the file. The status is 0 only if the file has no fault: until then nobody knows whether what was
 * written is right. */
#include <stdio.h>
#include <stdlib.h>
#include <unistd.h>

#include "zaxbriar.h"

/* The lines of a picture: room for one, and how many were written. */
struct lines {
    zaxbriar_picture picture;
    unsigned char *line;
    unsigned count;
};

/* Begins with the lines, once the header has arrived. */
static zaxbriar_result begin(zaxbriar_fed *fed, struct lines *lines) {
    zaxbriar_picture *picture = &lines->picture;
    zaxbriar_result answer = zaxbriar_fed_rows(fed, picture);
    if (answer != ZAXBRIAR_OK) return answer;
    if (picture->components == 4 || picture->sample_bytes == 2) return ZAXBRIAR_UNSUPPORTED;
    lines->line = malloc(picture->row_bytes);
    if (!lines->line) return ZAXBRIAR_NO_MEMORY;
    printf("P%c\n%u %u\n%u\n", picture->components == 1 ? '5' : '6', picture->width,
           picture->height, (1u << picture->precision) - 1);
    return ZAXBRIAR_OK;
}

/* Writes all lines that have arrived. Returns the answer after them, or ZAXBRIAR_OK if one can't be
 * written. */
static zaxbriar_result write_lines(zaxbriar_fed *fed, struct lines *lines) {
    size_t size = lines->picture.row_bytes;
    zaxbriar_result answer;
    while ((answer = zaxbriar_fed_next(fed, lines->line, size)) == ZAXBRIAR_OK) {
        if (fwrite(lines->line, 1, size, stdout) != size) return answer;
        lines->count++;
    }
    return fflush(stdout) == 0 ? answer : ZAXBRIAR_OK;
}

/* Feeds what standard input brings, and writes the lines. Returns the last answer. */
static zaxbriar_result write_input(zaxbriar_fed *fed, struct lines *lines) {
    static unsigned char piece[65536];
    size_t arrived = 0;
    zaxbriar_result answer = ZAXBRIAR_WAITING;
    for (ssize_t size = 1; size > 0 && answer == ZAXBRIAR_WAITING;) {
        size = read(STDIN_FILENO, piece, sizeof piece);
        arrived += size > 0 ? (size_t)size : 0;
        answer = zaxbriar_fed_feed(fed, piece, size > 0 ? (size_t)size : 0);
        if (answer == ZAXBRIAR_OK && !lines->line) answer = begin(fed, lines);
        if (answer == ZAXBRIAR_TRUNCATED && size > 0) answer = ZAXBRIAR_WAITING;
        if (answer != ZAXBRIAR_OK) continue;
        if (size <= 0) (void)zaxbriar_fed_end(fed);
        answer = write_lines(fed, lines);
        fprintf(stderr, "%zu bytes: %u of %u lines\n", arrived, lines->count,
                lines->picture.height);
    }
    return answer;
}

int main(void) {
    struct lines lines = {0};
    zaxbriar_fed *fed;
    zaxbriar_result answer = zaxbriar_fed_new(NULL, &fed);
    if (answer == ZAXBRIAR_OK) answer = write_input(fed, &lines);
    if (lines.line) (void)zaxbriar_fed_refusal(fed, &lines.picture);
    const char *fault =
        lines.picture.text[0] ? lines.picture.text : zaxbriar_answer_name(answer);
    if (answer == ZAXBRIAR_OK)
        perror("jpegpipe");
    else if (answer != ZAXBRIAR_END)
        fprintf(stderr, "jpegpipe: %s\n", fault);
    zaxbriar_fed_free(fed);
    free(lines.line);
    return answer != ZAXBRIAR_END;
}
