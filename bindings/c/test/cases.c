/* Makes the calls that a case file on standard input names, and writes what each answers.
 *
 * test/cases/NAME.answers is the expected output for NAME.case; tests/model/calls.py makes it from
 * an independent model. Empty lines and lines that begin with `#` are skipped. A case is a few
 * lines:
 *
 *     case NAME
 *     stream WORDS                    the bytes of its stream in hex, more of them on each further
 *                                     line; a star and a number after a word repeat its bytes
 *     CALL ..                         one or more calls, each over the whole stream
 *
 * The calls are those of zaxbriar.h, after zaxbriar_:
 *
 *     read_info OPTION=NUMBER ..
 *     decode ROOM OPTION=NUMBER ..    into ROOM bytes, each 07 before the call
 *     decode_partial ROOM OPTION=NUMBER ..
 *     decode_planes ROOM OPTION=NUMBER ..
 *     metadata KIND ROOM OPTION=NUMBER ..     into ROOM bytes, as above
 *     joined_metadata KIND ROOM               into ROOM bytes, as above
 *     find_metadata
 *     next_segment AT                 of the bytes from this place on
 *
 * An option is a member of zaxbriar_options, and 0 unless it is named. reserved_byte=N makes
 * reserved_bytes[N] 1, and so reserved_half=N and reserved_word=N. With options, metadata is
 * metadata_within.
 *
 * A case's name is written as it stands, and a call with its answer after a colon: the name of what
 * it returned, and the members of the struct that are not 0. `text` is 1 unless it is empty, and
 * `stream_bytes` is left out after refusals and parts, where the header doesn't say which bytes
 * count. The sizes of the planes follow the sampling factors, unless there are none. The memory of
 * a call follows in hex. Any other line ends the program with status 2. */
#include "common.h"

static struct bytes stream;

static void fail(const char *line) {
    fprintf(stderr, "not a line of a case: %s\n", line);
    exit(2);
}

static uint64_t number_of(const char *word) {
    char *end;
    if (!word || *word < '0' || *word > '9') fail(word ? word : "a number lacks");
    unsigned long long number = strtoull(word, &end, 10);
    if (*end) fail(word);
    return number;
}

static int digit_of(char digit) {
    static const char digits[] = "0123456789ABCDEF";
    const char *found = digit ? strchr(digits, digit) : NULL;
    return found ? (int)(found - digits) : -1;
}

/* Appends the bytes of a word of hex digits. */
static void append_once(const char *digits, size_t count) {
    if (count == 0 || count % 2) fail(digits);
    /* (just as many, so that a read past the stream is seen) */
    stream.start = realloc(stream.start, stream.size + count / 2);
    if (!stream.start) exit(2);
    for (size_t i = 0; i < count; i += 2) {
        int high = digit_of(digits[i]), low = digit_of(digits[i + 1]);
        if (high < 0 || low < 0) fail(digits);
        stream.start[stream.size++] = (unsigned char)(16 * high + low);
    }
}

/* Appends the bytes of the words of a line. */
static void append(char *words) {
    for (char *word = strtok(words, " "); word; word = strtok(NULL, " ")) {
        char *star = strchr(word, '*');
        size_t count = star ? (size_t)(star - word) : strlen(word);
        uint64_t times = star ? number_of(star + 1) : 1;
        for (uint64_t i = 0; i < times; i++) append_once(word, count);
    }
}

/* Sets the option that a word NAME=NUMBER names. */
static void set(zaxbriar_options *options, char *word) {
    char *is = strchr(word, '=');
    if (!is) fail(word);
    *is = 0;
    uint64_t number = number_of(is + 1);
#define SET(member) else if (!strcmp(word, #member)) options->member = number
#define SET16(member) else if (!strcmp(word, #member)) options->member = (uint16_t)number
#define SET8(member) else if (!strcmp(word, #member)) options->member = (uint8_t)number
    if (!strcmp(word, "reserved_byte") && number < 6) options->reserved_bytes[number] = 1;
    else if (!strcmp(word, "reserved_half") && number < 4) options->reserved_half[number] = 1;
    else if (!strcmp(word, "reserved_word") && number < 6) options->reserved_words[number] = 1;
    SET(max_samples);
    SET(stride);
    SET(max_bytes);
    SET(max_passes);
    SET16(min_width);
    SET16(min_height);
    SET16(crop_left);
    SET16(crop_top);
    SET16(crop_width);
    SET16(crop_height);
    SET16(most_width);
    SET16(most_height);
    SET8(transform);
    SET8(layout);
    SET8(scale);
    SET8(bottom_up);
    SET8(upright);
    SET8(luma);
    else fail(word);
    *is = '=';
}

static zaxbriar_options options_of(void) {
    zaxbriar_options options = {0};
    for (char *word; (word = strtok(NULL, " "));) set(&options, word);
    return options;
}

static void write_result(zaxbriar_result result) {
    static const char *const names[] = {"OK",        "MALFORMED", "UNSUPPORTED",  "TRUNCATED",
                                        "NO_MEMORY", "NO_ROOM",   "BAD_ARGUMENT", "NO_DATA",
                                        "TOO_LARGE", "PARTIAL",   "TOO_MANY_PASSES"};
    printf(": %s", (unsigned)result < 11 ? names[result] : "?");
}

static void write_member(const char *name, uint64_t number) {
    if (number) printf(" %s %llu", name, (unsigned long long)number);
}

static void write_hex(const unsigned char *start, size_t size) {
    for (size_t i = 0; i < size; i++) printf("%02X", start[i]);
}

static void write_memory(const unsigned char *memory, size_t room) {
    printf(", memory ");
    write_hex(memory, room);
}

static void write_picture(zaxbriar_result result, const zaxbriar_picture *picture) {
    int is_counted = result == ZAXBRIAR_OK || result == ZAXBRIAR_NO_ROOM ||
                     result == ZAXBRIAR_TOO_LARGE;
    write_result(result);
#define MEMBER(name) write_member(#name, picture->name)
    MEMBER(size);
    MEMBER(row_bytes);
    MEMBER(decoding_bytes);
    if (is_counted) MEMBER(stream_bytes);
    MEMBER(width);
    MEMBER(height);
    MEMBER(whole_rows);
    MEMBER(pixel_bytes);
    MEMBER(layout);
    MEMBER(components);
    MEMBER(precision);
    MEMBER(sample_bytes);
    MEMBER(process);
    MEMBER(orientation);
    MEMBER(format);
    MEMBER(feature);
    MEMBER(feature_argument);
    MEMBER(fault);
    MEMBER(density_unit);
    MEMBER(horizontal_density);
    MEMBER(vertical_density);
    MEMBER(transform);
    MEMBER(planes_size);
    write_member("text", picture->text[0] != 0);
    printf(", sampling ");
    write_hex(picture->sampling, sizeof picture->sampling);
    if (picture->planes_size) {
        printf(", planes");
        for (int i = 0; i < 4; i++)
            printf(" %dx%d", picture->plane_width[i], picture->plane_height[i]);
    }
    CHECK(picture->reserved_byte == 0);
    CHECK(is_all(picture->reserved_bytes, sizeof picture->reserved_bytes, 0));
    CHECK(is_all(picture->reserved, sizeof picture->reserved, 0));
}

static void read_info(void) {
    zaxbriar_options options = options_of();
    zaxbriar_picture picture;
    zaxbriar_result result = zaxbriar_read_info(stream.start, stream.size, &options, &picture);
    write_picture(result, &picture);
}

typedef zaxbriar_result decoding(const void *, size_t, const zaxbriar_options *, void *, size_t,
                                 zaxbriar_picture *);

static unsigned char *memory_of(size_t room) { return memset(block(room), 7, room); }

static void decode_by(decoding *call) {
    size_t room = number_of(strtok(NULL, " "));
    zaxbriar_options options = options_of();
    zaxbriar_picture picture;
    unsigned char *memory = memory_of(room);
    zaxbriar_result result = call(stream.start, stream.size, &options, memory, room, &picture);
    write_picture(result, &picture);
    write_memory(memory, room);
    free(memory);
}

static void metadata(void) {
    int kind = (int)number_of(strtok(NULL, " "));
    size_t room = number_of(strtok(NULL, " ")), length = 0;
    zaxbriar_options options = {0}, none = {0};
    for (char *word; (word = strtok(NULL, " "));) set(&options, word);
    unsigned char *memory = memory_of(room);
    write_result(memcmp(&options, &none, sizeof none)
                     ? zaxbriar_metadata_within(stream.start, stream.size, &options, kind, memory,
                                                room, &length)
                     : zaxbriar_metadata(stream.start, stream.size, kind, memory, room, &length));
    write_member("length", length);
    write_memory(memory, room);
    free(memory);
}

static void joined_metadata(void) {
    int kind = (int)number_of(strtok(NULL, " "));
    size_t room = number_of(strtok(NULL, " ")), length = 0;
    unsigned char *memory = memory_of(room);
    write_result(zaxbriar_joined_metadata(stream.start, stream.size, NULL, kind, memory, room,
                                          &length));
    write_member("length", length);
    write_memory(memory, room);
    free(memory);
}

static void find_metadata(void) {
    static zaxbriar_places places;
    write_result(zaxbriar_find_metadata(stream.start, stream.size, &places));
    write_member("exif.offset", places.exif.offset);
    write_member("exif.size", places.exif.size);
    write_member("xmp.offset", places.xmp.offset);
    write_member("xmp.size", places.xmp.size);
    write_member("stream_bytes", places.stream_bytes);
    write_member("icc_parts", places.icc_parts);
    write_member("ended", places.ended);
    for (int i = 0; i < 255; i++)
        if (places.icc[i].size)
            printf(", %llu %llu", (unsigned long long)places.icc[i].offset,
                   (unsigned long long)places.icc[i].size);
}

static void next_segment(void) {
    uint64_t at = number_of(strtok(NULL, " "));
    zaxbriar_segment segment;
    if (at > stream.size) fail("a place in the stream");
    write_result(zaxbriar_next_segment(stream.start + at, stream.size - at, &segment));
    write_member("offset", segment.offset);
    write_member("size", segment.size);
    write_member("end", segment.end);
    write_member("needed", segment.needed);
    write_member("skipped", segment.skipped);
    printf(", marker %02X", segment.marker);
    CHECK(is_all(segment.reserved, sizeof segment.reserved, 0));
}

/* Writes a call with its answer. */
static void answer(char *line) {
    printf("%s", line);
    char *name = strtok(line, " ");
    if (!strcmp(name, "read_info")) read_info();
    else if (!strcmp(name, "decode")) decode_by(zaxbriar_decode);
    else if (!strcmp(name, "decode_partial")) decode_by(zaxbriar_decode_partial);
    else if (!strcmp(name, "decode_planes")) decode_by(zaxbriar_decode_planes);
    else if (!strcmp(name, "metadata")) metadata();
    else if (!strcmp(name, "joined_metadata")) joined_metadata();
    else if (!strcmp(name, "find_metadata")) find_metadata();
    else if (!strcmp(name, "next_segment")) next_segment();
    else fail(name);
    printf("\n");
}

int main(void) {
    static char line[65536];
    while (fgets(line, sizeof line, stdin)) {
        line[strcspn(line, "\n")] = 0;
        if (!*line || *line == '#') continue;
        if (!strncmp(line, "case ", 5)) {
            printf("%s\n", line);
            stream.size = 0;
        } else if (!strncmp(line, "stream ", 7)) {
            append(line + 7);
        } else {
            answer(line);
        }
    }
    return faults > 0;
}
