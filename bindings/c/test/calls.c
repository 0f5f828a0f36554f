/* calls FILE: what the calls return for null pointers, sizes and options that don't exist. */
#include "common.h"

static struct bytes jpeg;
static zaxbriar_picture picture;

static void null_pointers(void) {
    unsigned char pixel;
    size_t length = 1;
    CHECK(zaxbriar_read_info(NULL, 0, NULL, NULL) == ZAXBRIAR_BAD_ARGUMENT);
    CHECK(zaxbriar_read_info(jpeg.start, jpeg.size, NULL, NULL) == ZAXBRIAR_BAD_ARGUMENT);
    memset(&picture, 1, sizeof picture);
    CHECK(zaxbriar_read_info(NULL, 1, NULL, &picture) == ZAXBRIAR_BAD_ARGUMENT);
    CHECK(picture.size == 0 && picture.width == 0 && picture.text[0] != 0);
    CHECK(zaxbriar_read_info(NULL, 0, NULL, &picture) == ZAXBRIAR_TRUNCATED);
    CHECK(zaxbriar_decode(NULL, 1, NULL, &pixel, 1, &picture) == ZAXBRIAR_BAD_ARGUMENT);
    CHECK(zaxbriar_decode(NULL, 0, NULL, NULL, 0, NULL) == ZAXBRIAR_TRUNCATED);
    CHECK(zaxbriar_decode(jpeg.start, jpeg.size, NULL, NULL, 1, &picture) == ZAXBRIAR_BAD_ARGUMENT);
    CHECK(zaxbriar_decode(jpeg.start, jpeg.size, NULL, NULL, 0, &picture) == ZAXBRIAR_NO_ROOM);
    CHECK(picture.size > 0 && strstr(picture.text, "too small"));
    CHECK(zaxbriar_decode_partial(NULL, 1, NULL, &pixel, 1, &picture) == ZAXBRIAR_BAD_ARGUMENT);
    CHECK(zaxbriar_decode_partial(NULL, 0, NULL, NULL, 0, NULL) == ZAXBRIAR_TRUNCATED);
    CHECK(zaxbriar_decode_partial(jpeg.start, jpeg.size, NULL, NULL, 1, NULL) ==
          ZAXBRIAR_BAD_ARGUMENT);
    CHECK(zaxbriar_decode_planes(NULL, 1, NULL, &pixel, 1, &picture) == ZAXBRIAR_BAD_ARGUMENT);
    CHECK(zaxbriar_decode_planes(NULL, 0, NULL, NULL, 0, NULL) == ZAXBRIAR_TRUNCATED);
    CHECK(zaxbriar_decode_planes(jpeg.start, jpeg.size, NULL, NULL, 1, NULL) ==
          ZAXBRIAR_BAD_ARGUMENT);
    CHECK(zaxbriar_decode_planes(jpeg.start, jpeg.size, NULL, NULL, 0, NULL) == ZAXBRIAR_NO_ROOM);
    CHECK(zaxbriar_metadata(NULL, 1, ZAXBRIAR_EXIF, NULL, 0, &length) == ZAXBRIAR_BAD_ARGUMENT &&
          length == 0);
    CHECK(zaxbriar_metadata(jpeg.start, jpeg.size, ZAXBRIAR_EXIF, NULL, 1, NULL) ==
          ZAXBRIAR_BAD_ARGUMENT);
    CHECK(zaxbriar_metadata(NULL, 0, ZAXBRIAR_EXIF, NULL, 0, NULL) != ZAXBRIAR_OK);
}

static zaxbriar_result joined(const void *start, size_t size, void *data, size_t data_size,
                              size_t *length) {
    return zaxbriar_joined_metadata(start, size, NULL, ZAXBRIAR_EXIF, data, data_size, length);
}

static void null_joined(void) {
    unsigned char byte = 7;
    size_t length = 1;
    CHECK(joined(NULL, 1, &byte, 1, &length) == ZAXBRIAR_BAD_ARGUMENT && length == 0);
    length = 1;
    CHECK(joined(jpeg.start, jpeg.size, NULL, 1, &length) == ZAXBRIAR_BAD_ARGUMENT && length == 0);
    length = 1;
    CHECK(joined(NULL, 0, NULL, 0, &length) == ZAXBRIAR_NO_DATA && length == 0);
    CHECK(joined(NULL, 0, &byte, 1, NULL) == ZAXBRIAR_NO_DATA);
    CHECK(joined(jpeg.start, SIZE_MAX, &byte, 1, NULL) == ZAXBRIAR_BAD_ARGUMENT);
    CHECK(joined(jpeg.start, jpeg.size, &byte, SIZE_MAX, NULL) == ZAXBRIAR_BAD_ARGUMENT);
    CHECK(byte == 7);
}

static void null_segments(void) {
    zaxbriar_segment segment;
    zaxbriar_places places;
    memset(&segment, 1, sizeof segment);
    CHECK(zaxbriar_next_segment(NULL, 1, &segment) == ZAXBRIAR_BAD_ARGUMENT);
    CHECK(is_all((unsigned char *)&segment, sizeof segment, 0));
    CHECK(zaxbriar_next_segment(jpeg.start, SIZE_MAX, &segment) == ZAXBRIAR_BAD_ARGUMENT);
    CHECK(zaxbriar_next_segment(jpeg.start, jpeg.size, NULL) == ZAXBRIAR_BAD_ARGUMENT);
    CHECK(zaxbriar_next_segment(NULL, 0, &segment) == ZAXBRIAR_TRUNCATED && segment.needed == 2);
    memset(&places, 1, sizeof places);
    CHECK(zaxbriar_find_metadata(NULL, 1, &places) == ZAXBRIAR_BAD_ARGUMENT);
    CHECK(is_all((unsigned char *)&places, sizeof places, 0));
    CHECK(zaxbriar_find_metadata(jpeg.start, SIZE_MAX, &places) == ZAXBRIAR_BAD_ARGUMENT);
    CHECK(zaxbriar_find_metadata(jpeg.start, jpeg.size, NULL) == ZAXBRIAR_BAD_ARGUMENT);
    memset(&places, 1, sizeof places);
    CHECK(zaxbriar_find_metadata(NULL, 0, &places) == ZAXBRIAR_OK);
    CHECK(is_all((unsigned char *)&places, sizeof places, 0));

    /* Places that are asked for by options stay as they were after a bad argument. */
    zaxbriar_options options = {.layout = ZAXBRIAR_RGB16 + 1, .places = &places};
    memset(&places, 1, sizeof places);
    CHECK(zaxbriar_read_info(jpeg.start, jpeg.size, &options, &picture) == ZAXBRIAR_BAD_ARGUMENT);
    CHECK(zaxbriar_decode(NULL, 1, &options, NULL, 0, NULL) == ZAXBRIAR_BAD_ARGUMENT);
    CHECK(is_all((unsigned char *)&places, sizeof places, 1));
}

static void sizes(void) {
    unsigned char pixel;
    CHECK(zaxbriar_read_info(jpeg.start, SIZE_MAX, NULL, &picture) == ZAXBRIAR_BAD_ARGUMENT);
    CHECK(zaxbriar_decode(jpeg.start, (size_t)PTRDIFF_MAX + 1, NULL, &pixel, 1, NULL) ==
          ZAXBRIAR_BAD_ARGUMENT);
    CHECK(zaxbriar_decode(jpeg.start, jpeg.size, NULL, &pixel, SIZE_MAX, NULL) ==
          ZAXBRIAR_BAD_ARGUMENT);
    CHECK(zaxbriar_metadata(jpeg.start, SIZE_MAX, ZAXBRIAR_EXIF, NULL, 0, NULL) ==
          ZAXBRIAR_BAD_ARGUMENT);
}

static void unknown_options(void) {
    size_t length;
    for (int which = 0; which < 9; which++) {
        zaxbriar_options options = {0};
        if (which == 0) options.layout = ZAXBRIAR_RGB16 + 1;
        if (which == 1) options.transform = ZAXBRIAR_TRANSFORM_YCCK + 1;
        if (which == 2) options.layout = UINT8_MAX;
        if (which == 3) options.layout = ZAXBRIAR_RGB, options.transform = ZAXBRIAR_TRANSFORM_NONE;
        if (which == 4) options.bottom_up = 2;
        if (which == 5) options.upright = 2;
        if (which == 6) options.upright = 1, options.transform = ZAXBRIAR_TRANSFORM_NONE;
        if (which == 7) options.luma = 2;
        if (which == 8) {
            options.crop_width = options.crop_height = 1;
            options.transform = ZAXBRIAR_TRANSFORM_NONE;
        }
        CHECK(zaxbriar_read_info(jpeg.start, jpeg.size, &options, &picture) ==
              ZAXBRIAR_BAD_ARGUMENT);
        CHECK(picture.text[0] != 0 && picture.stream_bytes == 0);
        CHECK(zaxbriar_decode(jpeg.start, jpeg.size, &options, NULL, 0, &picture) ==
              ZAXBRIAR_BAD_ARGUMENT);
        CHECK(picture.stream_bytes == 0);
        CHECK(zaxbriar_decode_partial(jpeg.start, jpeg.size, &options, NULL, 0, &picture) ==
              ZAXBRIAR_BAD_ARGUMENT);
        CHECK(picture.stream_bytes == 0);
        /* Also where the stream's header would be refused. */
        CHECK(zaxbriar_read_info("GIF89a", 6, &options, &picture) == ZAXBRIAR_BAD_ARGUMENT);
        CHECK(zaxbriar_decode("GIF89a", 6, &options, NULL, 0, NULL) == ZAXBRIAR_BAD_ARGUMENT);
    }
    for (int scale = 0; scale <= UINT8_MAX; scale++) {
        zaxbriar_options scaled = {.scale = (uint8_t)scale};
        int is_there = scale == 0 || scale == 1 || scale == 2 || scale == 4 || scale == 8;
        CHECK(zaxbriar_read_info(jpeg.start, jpeg.size, &scaled, &picture) ==
              (is_there ? ZAXBRIAR_OK : ZAXBRIAR_BAD_ARGUMENT));
    }
    for (int value = 0; value <= UINT8_MAX; value++) {
        zaxbriar_options from_bottom = {.bottom_up = (uint8_t)value};
        zaxbriar_options turned = {.upright = (uint8_t)value};
        zaxbriar_options without_colours = {.luma = (uint8_t)value};
        zaxbriar_result wanted = value <= 1 ? ZAXBRIAR_OK : ZAXBRIAR_BAD_ARGUMENT;
        CHECK(zaxbriar_read_info(jpeg.start, jpeg.size, &from_bottom, &picture) == wanted);
        CHECK(zaxbriar_read_info(jpeg.start, jpeg.size, &turned, &picture) == wanted);
        CHECK(zaxbriar_read_info(jpeg.start, jpeg.size, &without_colours, &picture) == wanted);
    }
    zaxbriar_options narrow = {.stride = 1};
    CHECK(zaxbriar_read_info(jpeg.start, jpeg.size, &narrow, &picture) == ZAXBRIAR_BAD_ARGUMENT);
    zaxbriar_options wide = {.stride = ((uint64_t)1 << 32) + 1};
    CHECK(zaxbriar_read_info(jpeg.start, jpeg.size, &wide, &picture) == ZAXBRIAR_BAD_ARGUMENT);
    /* The greatest stride, and one that takes more than 16 bits. */
    for (wide.stride = (uint64_t)1 << 32; wide.stride >= 70000; wide.stride >>= 15) {
        CHECK(zaxbriar_read_info(jpeg.start, jpeg.size, &wide, &picture) == ZAXBRIAR_OK);
        CHECK(picture.size == wide.stride * (picture.height - 1) + picture.row_bytes);
    }
    for (int kind = -40; kind < 40; kind++) {
        int alone = kind & ~ZAXBRIAR_WHOLE_IMAGE;
        int is_there = alone >= ZAXBRIAR_EXIF && alone <= ZAXBRIAR_ICC;
        CHECK((zaxbriar_metadata(jpeg.start, jpeg.size, kind, NULL, 0, &length) ==
               ZAXBRIAR_BAD_ARGUMENT) == !is_there);
        is_there = kind >= ZAXBRIAR_EXIF && kind <= ZAXBRIAR_THUMBNAIL && kind != ZAXBRIAR_ICC;
        CHECK((zaxbriar_joined_metadata(jpeg.start, jpeg.size, NULL, kind, NULL, 0, &length) ==
               ZAXBRIAR_BAD_ARGUMENT) == !is_there);
    }
}

/* Whether a byte of the options is of a part of the picture, or of a size to fit within. */
static int is_of_size(size_t at) {
    return at >= offsetof(zaxbriar_options, crop_left) &&
           at < offsetof(zaxbriar_options, reserved_half);
}

/* Each reserved byte of the options has to be zero, and those of a picture become zero. */
static void reserved_bytes(void) {
    int count = 0;
    for (size_t at = offsetof(zaxbriar_options, reserved_bytes); at < sizeof(zaxbriar_options);
         at++) {
        if (is_of_size(at)) continue;
        zaxbriar_options options = {0};
        ((unsigned char *)&options)[at] = 1;
        count++;
        memset(&picture, 1, sizeof picture);
        CHECK(zaxbriar_read_info(jpeg.start, jpeg.size, &options, &picture) ==
              ZAXBRIAR_BAD_ARGUMENT);
        CHECK(picture.text[0] != 0 && is_all(picture.reserved, sizeof picture.reserved, 0));
        CHECK(zaxbriar_decode(jpeg.start, jpeg.size, &options, NULL, 0, NULL) ==
              ZAXBRIAR_BAD_ARGUMENT);
        CHECK(zaxbriar_decode_partial(jpeg.start, jpeg.size, &options, NULL, 0, NULL) ==
              ZAXBRIAR_BAD_ARGUMENT);
        CHECK(zaxbriar_decode_planes(jpeg.start, jpeg.size, &options, NULL, 0, NULL) ==
              ZAXBRIAR_BAD_ARGUMENT);
    }
    CHECK(count == 58 && sizeof picture.reserved == 112);
    memset(&picture, 1, sizeof picture);
    CHECK(zaxbriar_read_info(jpeg.start, jpeg.size, NULL, &picture) == ZAXBRIAR_OK);
    CHECK(is_all(picture.reserved, sizeof picture.reserved, 0) && picture.reserved_byte == 0);
    CHECK(is_all(picture.reserved_bytes, sizeof picture.reserved_bytes, 0));
}

/* Counts its blocks, and refuses the allocation of a number. */
struct counts {
    long live, allocations, refused;
};

static int is_refused(struct counts *counts) { return ++counts->allocations == counts->refused; }

static void *allocate(void *context, size_t size) {
    struct counts *counts = context;
    if (is_refused(counts)) return NULL;
    void *start = malloc(size);
    counts->live += start != NULL;
    return start;
}

static void *resize(void *context, void *start, size_t size) {
    return is_refused(context) ? NULL : realloc(start, size);
}

static void release(void *context, void *start) {
    struct counts *counts = context;
    counts->live--;
    free(start);
}

/* A part that isn't inside the picture is refused with the size of the picture. */
static void parts_outside(void) {
    char size[24];
    zaxbriar_picture whole;
    CHECK(zaxbriar_read_info(jpeg.start, jpeg.size, NULL, &whole) == ZAXBRIAR_OK);
    uint16_t width = (uint16_t)whole.width, height = (uint16_t)whole.height;
    snprintf(size, sizeof size, "%ux%u", whole.width, whole.height);
    for (int which = 0; which < 5; which++) {
        zaxbriar_options options = {.crop_width = width, .crop_height = height};
        CHECK(zaxbriar_read_info(jpeg.start, jpeg.size, &options, &picture) == ZAXBRIAR_OK);
        CHECK(picture.width == whole.width && picture.size == whole.size);
        if (which == 0) options.crop_width++;
        if (which == 1) options.crop_height++;
        if (which == 2) options.crop_left = 1;
        if (which == 3) options.crop_top = 1;
        if (which == 4) options.crop_height = 0;
        CHECK(zaxbriar_read_info(jpeg.start, jpeg.size, &options, &picture) ==
              ZAXBRIAR_BAD_ARGUMENT);
        CHECK(strstr(picture.text, size) != NULL);
        CHECK(zaxbriar_decode(jpeg.start, jpeg.size, &options, NULL, 0, &picture) ==
              ZAXBRIAR_BAD_ARGUMENT);
        CHECK(strstr(picture.text, size) != NULL && picture.stream_bytes > 0);
    }
}

/* With the refusal of each allocation in turn a picture, as it is stored, upright, a part of it or
 * made smaller, is decoded or leaves all as it was. */
static void refused_memory(int is_part, zaxbriar_options options) {
    struct counts counts = {0};
    zaxbriar_memory memory = {allocate, resize, release, &counts};
    CHECK(zaxbriar_read_info(jpeg.start, jpeg.size, &options, &picture) == ZAXBRIAR_OK);
    size_t size = picture.size;
    long all = 1;
    unsigned char *whole = block(size), *own = block(size);
    CHECK(zaxbriar_decode(jpeg.start, jpeg.size, &options, whole, size, NULL) == ZAXBRIAR_OK);
    options.memory = &memory;
    for (long refused = 0; refused < all; refused++) {
        counts = (struct counts){.refused = refused};
        memset(own, 0x5A, size);
        zaxbriar_result answer = (is_part ? zaxbriar_decode_partial : zaxbriar_decode)(
            jpeg.start, jpeg.size, &options, own, size, &picture);
        CHECK(counts.live == 0);
        CHECK(answer == (refused ? ZAXBRIAR_NO_MEMORY : ZAXBRIAR_OK));
        CHECK(refused ? is_all(own, size, 0x5A) : !memcmp(own, whole, size));
        if (!refused) all = counts.allocations + 1;
    }
    free(whole);
    free(own);
}

static void own_memory(void) {
    struct counts counts = {0};
    zaxbriar_memory memory = {allocate, resize, release, &counts};
    zaxbriar_options options = {.memory = &memory};
    size_t length = 1;
    CHECK(zaxbriar_read_info(jpeg.start, jpeg.size, &options, &picture) == ZAXBRIAR_OK);
    CHECK(counts.allocations > 0 && counts.live == 0);
    size_t size = picture.size;
    unsigned char *own = block(size);
    for (int way = 0; way < 2; way++) {
        zaxbriar_options ways[] = {
            {0}, {.upright = 1}, {.crop_width = 1, .crop_height = 1}, {.most_width = 5}};
        for (int i = 0; i < 4; i++) refused_memory(way, ways[i]);
    }
    counts = (struct counts){0};
    CHECK(zaxbriar_metadata_within(jpeg.start, jpeg.size, &options,
                                   ZAXBRIAR_EXIF | ZAXBRIAR_WHOLE_IMAGE, NULL, 0,
                                   &length) != ZAXBRIAR_BAD_ARGUMENT);
    CHECK(counts.allocations > 0 && counts.live == 0);
    /* The calls without them take no memory from these. */
    long before = counts.allocations;
    CHECK(zaxbriar_read_info(jpeg.start, jpeg.size, NULL, &picture) == ZAXBRIAR_OK);
    CHECK(counts.allocations == before);
    for (int which = 0; which < 3; which++) {
        memory = (zaxbriar_memory){allocate, resize, release, &counts};
        if (which == 0) memory.allocate = NULL;
        if (which == 1) memory.resize = NULL;
        if (which == 2) memory.release = NULL;
        CHECK(zaxbriar_read_info(jpeg.start, jpeg.size, &options, &picture) ==
              ZAXBRIAR_BAD_ARGUMENT);
        CHECK(picture.size == 0 && picture.text[0] != 0);
        CHECK(zaxbriar_decode(jpeg.start, jpeg.size, &options, own, size, &picture) ==
              ZAXBRIAR_BAD_ARGUMENT);
        CHECK(zaxbriar_metadata_within(jpeg.start, jpeg.size, &options, ZAXBRIAR_EXIF, NULL, 0,
                                       &length) == ZAXBRIAR_BAD_ARGUMENT);
    }
    free(own);
}

/* Appends a segment: its marker, and a payload of a text with what follows its zero, and some
 * bytes. */
static void put_segment(struct bytes *stream, int marker, const char *name, size_t name_size,
                        const void *data, size_t size) {
    size_t length = 2 + name_size + size;
    stream->start = realloc(stream->start, stream->size + 2 + length);
    if (!stream->start) exit(2);
    unsigned char *at = stream->start + stream->size;
    at[0] = 0xFF, at[1] = (unsigned char)marker;
    at[2] = (unsigned char)(length >> 8), at[3] = (unsigned char)length;
    memcpy(at + 4, name, name_size);
    memcpy(at + 4 + name_size, data, size);
    stream->size += 2 + length;
}

#define PUT(marker, name, data, size) put_segment(&stream, marker, name, sizeof name, data, size)

#define GUID "0123456789ABCDEF0123456789ABCDEF"

/* A stream with data of each kind, all but the main packet in two segments. */
static struct bytes stream_of_all(void) {
    static const char exif_name[] = "Exif\0", xmp_name[] = "http://ns.adobe.com/xap/1.0/";
    static const char part_name[] = "http://ns.adobe.com/xmp/extension/";
    static const char resources_name[] = "Photoshop 3.0";
    static const char exif[] = "MM\0*\0\0\0\10"                   /* the first directory is at 8 */
                               "\0\0\0\0\0\16"                    /* the second at 14 */
                               "\0\2\2\1\0\4\0\0\0\1\0\0\0\54"    /* a thumbnail at 44 */
                               "\2\2\0\4\0\0\0\1\0\0\0\3\0\0\0\0" /* of three bytes */
                               "abc";
    static const char packet[] = "xmpNote:HasExtendedXMP='" GUID "'";
    static const char first[] = GUID "\0\0\0\5\0\0\0\0"
                                     "de";
    static const char second[] = GUID "\0\0\0\5\0\0\0\2"
                                      "fgh";
    static const char resources[] = "8BIM\4\4\0\0\0\0\0\4"
                                    "ijkl";
    struct bytes stream = {0};
    PUT(0xE1, exif_name, exif, 20);
    PUT(0xE1, part_name, second, sizeof second - 1);
    PUT(0xED, resources_name, resources, 9);
    PUT(0xE1, xmp_name, packet, sizeof packet - 1);
    PUT(0xE1, exif_name, exif + 20, sizeof exif - 1 - 20);
    PUT(0xE1, part_name, first, sizeof first - 1);
    PUT(0xED, resources_name, resources + 9, sizeof resources - 1 - 9);
    return stream;
}

/* Metadata are joined, and with the refusal of each allocation in turn all stays as it was. */
static void refused_joining(const struct bytes *stream, int kind, const char *wanted) {
    struct counts counts = {0};
    zaxbriar_memory memory = {allocate, resize, release, &counts};
    zaxbriar_options options = {.memory = &memory};
    size_t size = strlen(wanted), length = 1;
    unsigned char *data = block(size);
    CHECK(zaxbriar_joined_metadata(stream->start, stream->size, NULL, kind, NULL, 0, &length) ==
          ZAXBRIAR_NO_ROOM);
    CHECK(length >= size);
    long all = 1;
    for (long refused = 0; refused < all; refused++) {
        counts = (struct counts){.refused = refused};
        memset(data, 0x5A, size);
        length = 1;
        zaxbriar_result answer = zaxbriar_joined_metadata(stream->start, stream->size, &options,
                                                          kind, data, size, &length);
        CHECK(counts.live == 0);
        CHECK(answer == (refused ? ZAXBRIAR_NO_MEMORY : ZAXBRIAR_OK));
        CHECK(length == (refused ? 0 : size));
        CHECK(refused ? is_all(data, size, 0x5A) : !memcmp(data, wanted, size));
        if (!refused) all = counts.allocations + 1;
    }
    CHECK(all > 5);
    free(data);
}

static void joined_metadata(void) {
    struct bytes stream = stream_of_all();
    refused_joining(&stream, ZAXBRIAR_THUMBNAIL, "abc");
    refused_joining(&stream, ZAXBRIAR_EXTENDED_XMP, "defgh");
    refused_joining(&stream, ZAXBRIAR_IPTC, "ijkl");
    refused_joining(&stream, ZAXBRIAR_XMP, "xmpNote:HasExtendedXMP='" GUID "'");
    /* The other options are ignored, and a function of memory has to be there. */
    zaxbriar_memory incomplete = {allocate, NULL, release, NULL};
    zaxbriar_options unknown = {.layout = UINT8_MAX, .max_samples = 1};
    size_t length = 1;
    CHECK(zaxbriar_joined_metadata(stream.start, stream.size, &unknown, ZAXBRIAR_EXIF, NULL, 0,
                                   &length) == ZAXBRIAR_NO_ROOM &&
          length == 47);
    unknown.memory = &incomplete;
    CHECK(zaxbriar_joined_metadata(stream.start, stream.size, &unknown, ZAXBRIAR_EXIF, NULL, 0,
                                   &length) == ZAXBRIAR_BAD_ARGUMENT &&
          length == 0);
    free(stream.start);
}

/* Metadata of a whole image are read within the limits, at full size. */
static void limited_metadata(void) {
    size_t length = 1, same = 1;
    zaxbriar_options options = {.scale = 8};
    CHECK(zaxbriar_read_info(jpeg.start, jpeg.size, NULL, &picture) == ZAXBRIAR_OK);
    uint64_t samples = (uint64_t)picture.width * picture.height * picture.components;
    for (int which = 0; which < 2; which++)
        for (int less = 0; less < 2; less++)
            for (int kind = ZAXBRIAR_EXIF; kind <= ZAXBRIAR_ICC; kind++) {
                int whole = kind | ZAXBRIAR_WHOLE_IMAGE;
                options.max_samples = which ? 0 : samples - less;
                options.max_bytes = which ? picture.decoding_bytes - less : 0;
                zaxbriar_result answer =
                    zaxbriar_metadata(jpeg.start, jpeg.size, whole, NULL, 0, &same);
                CHECK(zaxbriar_metadata_within(jpeg.start, jpeg.size, &options, whole, NULL, 0,
                                               &length) ==
                      (less ? ZAXBRIAR_TOO_LARGE : answer));
                CHECK(length == (less ? 0 : same));
                answer = zaxbriar_metadata(jpeg.start, jpeg.size, kind, NULL, 0, &same);
                CHECK(zaxbriar_metadata_within(jpeg.start, jpeg.size, &options, kind, NULL, 0,
                                               &length) == answer &&
                      length == same);
            }
    CHECK(zaxbriar_metadata_within(NULL, 1, &options, ZAXBRIAR_EXIF, NULL, 0, &length) ==
              ZAXBRIAR_BAD_ARGUMENT &&
          length == 0);
    zaxbriar_options unknown = {.layout = UINT8_MAX}; /* which the call ignores */
    for (int with = 0; with < 2; with++)
        CHECK(zaxbriar_metadata_within(jpeg.start, jpeg.size, with ? &unknown : NULL, ZAXBRIAR_EXIF,
                                       NULL, 0, NULL) ==
              zaxbriar_metadata(jpeg.start, jpeg.size, ZAXBRIAR_EXIF, NULL, 0, NULL));
}

/* A partial picture is limited as the whole one is, and takes no more. */
static void limited_part(void) {
    zaxbriar_picture part;
    CHECK(zaxbriar_read_info(jpeg.start, jpeg.size, NULL, &picture) == ZAXBRIAR_OK);
    CHECK(zaxbriar_decode_partial(jpeg.start, jpeg.size, NULL, NULL, 0, &part) == ZAXBRIAR_NO_ROOM);
    CHECK(part.decoding_bytes == picture.decoding_bytes);
    size_t size = picture.size;
    unsigned char *pixels = block(size);
    zaxbriar_options options = {.max_bytes = part.decoding_bytes - 1};
    CHECK(zaxbriar_decode(jpeg.start, jpeg.size, &options, pixels, size, NULL) ==
          ZAXBRIAR_TOO_LARGE);
    CHECK(zaxbriar_decode_partial(jpeg.start, jpeg.size, &options, pixels, size, &picture) ==
          ZAXBRIAR_TOO_LARGE);
    CHECK(picture.decoding_bytes == part.decoding_bytes && strstr(picture.text, "limit"));
    options.max_bytes = part.decoding_bytes;
    CHECK(zaxbriar_decode_partial(jpeg.start, jpeg.size, &options, pixels, size, &picture) ==
          ZAXBRIAR_OK);
    CHECK(picture.decoding_bytes == part.decoding_bytes);
    free(pixels);
}

static void names(void) {
    for (int answer = ZAXBRIAR_OK; answer <= ZAXBRIAR_WAITING; answer++) {
        CHECK(zaxbriar_answer_name(answer)[0] != 0);
        for (int other = ZAXBRIAR_OK; other <= ZAXBRIAR_WAITING + 1; other++)
            CHECK(other == answer ||
                  strcmp(zaxbriar_answer_name(answer), zaxbriar_answer_name(other)) != 0);
    }
    CHECK(strcmp(zaxbriar_answer_name(-1), zaxbriar_answer_name(1000)) == 0);
    CHECK(zaxbriar_version() == ZAXBRIAR_VERSION);
    char version[12];
    snprintf(version, sizeof version, "%d.%d.%d", ZAXBRIAR_VERSION >> 16,
             ZAXBRIAR_VERSION >> 8 & 0xff, ZAXBRIAR_VERSION & 0xff);
    CHECK(strcmp(version, ZAXBRIAR_VERSION_TEXT) == 0);
}

int main(int argc, char **argv) {
    if (argc != 2) return 2;
    subject = argv[1];
    jpeg = read_file(argv[1]);
    null_pointers();
    null_segments();
    null_joined();
    sizes();
    unknown_options();
    reserved_bytes();
    parts_outside();
    own_memory();
    joined_metadata();
    limited_metadata();
    limited_part();
    names();
    free(jpeg.start);
    printf("calls: null pointers, sizes, options, memory and names; %d faults\n", faults);
    return faults != 0;
}
