/* segments LIST: lists the segments of each file that LIST names, a name in each line, and compares
 * the places of its metadata with what zaxbriar_metadata copies.
 *
 * The segments are also read piece by piece, as the calls ask for bytes: of a good image never one
 * after its end. */
#include "common.h"

static struct bytes jpeg;
static long files, good, segments, exif, xmp, profiles;

/* Where the next marker begins, or how many bytes there are. */
static size_t marker_after(size_t start) {
    for (; start + 1 < jpeg.size; start++)
        if (jpeg.start[start] == 0xff && jpeg.start[start + 1] && jpeg.start[start + 1] != 0xff)
            return start;
    return jpeg.size;
}

static int has_length(uint8_t marker) { return marker != 1 && (marker < 0xd0 || marker > 0xd9); }

/* The answer for the bytes after these is the one that the standard gives. */
static zaxbriar_result listed(size_t start, zaxbriar_segment *segment) {
    zaxbriar_result answer = zaxbriar_next_segment(jpeg.start + start, jpeg.size - start, segment);
    size_t first = marker_after(start), left = jpeg.size - first;
    if (left == 0) {
        int begun = jpeg.size > start && jpeg.start[jpeg.size - 1] == 0xff;
        CHECK(answer == ZAXBRIAR_TRUNCATED && segment->marker == 0);
        CHECK(segment->needed == (begun ? 1 : 2));
        CHECK(segment->skipped == jpeg.size - start - begun);
        return answer;
    }
    CHECK(segment->marker == jpeg.start[first + 1]);
    size_t size = 0;
    if (has_length(segment->marker)) {
        size_t high = left > 2 ? jpeg.start[first + 2] : 0;
        if (left < 4) {
            size_t least = high ? 256 * high : 2;
            CHECK(answer == ZAXBRIAR_TRUNCATED && segment->needed == least + 2 - left);
            CHECK(segment->skipped == first - start);
            return answer;
        }
        size = 256 * high + jpeg.start[first + 3];
        if (size < 2) {
            CHECK(answer == ZAXBRIAR_MALFORMED);
            return answer;
        }
        if (size + 2 > left) {
            CHECK(answer == ZAXBRIAR_TRUNCATED && segment->needed == size + 2 - left);
            CHECK(segment->skipped == first - start);
            return answer;
        }
    }
    CHECK(answer == ZAXBRIAR_OK && segment->end == first + 2 + size - start);
    CHECK(segment->size == (size ? size - 2 : 0));
    CHECK(segment->offset == segment->end - segment->size);
    return answer;
}

/* Lists all segments up to the end of the image, and returns where that is or where they end. */
static size_t all_listed(void) {
    zaxbriar_segment segment;
    size_t start = 0;
    while (listed(start, &segment) == ZAXBRIAR_OK) {
        segments++;
        start += segment.end;
        if (segment.marker == 0xd9) return start;
    }
    return start;
}

/* Reads an image as the calls ask for bytes, and keeps none that they can do without. Returns how
 * many bytes it has asked for. */
static size_t fed(void) {
    zaxbriar_segment part, whole;
    size_t start = 0, there = 0;
    for (;;) {
        zaxbriar_result answer = zaxbriar_next_segment(jpeg.start + start, there - start, &part);
        if (answer == ZAXBRIAR_TRUNCATED) {
            CHECK(part.needed > 0 && part.skipped <= there - start);
            start += part.skipped;
            there += part.needed;
            if (there > jpeg.size || part.needed == 0) return there;
            continue;
        }
        CHECK(zaxbriar_next_segment(jpeg.start + start, jpeg.size - start, &whole) == answer);
        CHECK(!memcmp(&part, &whole, sizeof part));
        if (answer != ZAXBRIAR_OK) return there;
        start += part.end;
        if (part.marker == 0xd9) return there;
    }
}

/* The metadata of a kind that the whole image has, or a null pointer. */
static unsigned char *copied(int kind, size_t *size) {
    zaxbriar_result answer =
        zaxbriar_metadata(jpeg.start, jpeg.size, kind | ZAXBRIAR_WHOLE_IMAGE, NULL, 0, size);
    if (answer == ZAXBRIAR_NO_DATA) return NULL;
    unsigned char *data = block(*size);
    CHECK(zaxbriar_metadata(jpeg.start, jpeg.size, kind | ZAXBRIAR_WHOLE_IMAGE, data, *size,
                            size) == ZAXBRIAR_OK);
    return data;
}

static long is_copied(int kind, const zaxbriar_place *place) {
    size_t size;
    unsigned char *data = copied(kind, &size);
    if (!data) {
        CHECK(place->offset == 0 && place->size == 0);
        return 0;
    }
    CHECK(place->size == size && place->offset <= jpeg.size - size);
    CHECK(place->size == size && !memcmp(jpeg.start + place->offset, data, size));
    free(data);
    return 1;
}

/* The place of the part of a profile that has this number, or a null pointer. */
static const zaxbriar_place *part_of(const zaxbriar_places *places, int number) {
    for (uint32_t i = 0; i < places->icc_parts && i < 255; i++)
        if (jpeg.start[places->icc[i].offset - 2] == number) return &places->icc[i];
    return NULL;
}

/* The parts of a profile, by their numbers, are the profile. */
static long is_profile(const zaxbriar_places *places) {
    size_t size, joined = 0;
    unsigned char *data = copied(ZAXBRIAR_ICC, &size);
    if (!data) return 0;
    for (uint32_t i = 1; i <= places->icc_parts; i++) {
        const zaxbriar_place *part = part_of(places, (int)i);
        CHECK(part && part->size <= size - joined);
        if (!part || part->size > size - joined) break;
        CHECK(jpeg.start[part->offset - 1] == places->icc_parts);
        CHECK(!memcmp(jpeg.start + part->offset, data + joined, part->size));
        joined += part->size;
    }
    CHECK(joined == size);
    free(data);
    return 1;
}

static void within(const zaxbriar_places *places, size_t size) {
    CHECK(places->stream_bytes <= size);
    CHECK(places->exif.offset + places->exif.size <= places->stream_bytes);
    CHECK(places->xmp.offset + places->xmp.size <= places->stream_bytes);
    for (uint32_t i = 0; i < 255; i++) {
        CHECK(places->icc[i].offset + places->icc[i].size <= places->stream_bytes);
        CHECK((places->icc[i].size > 0) == (i < places->icc_parts));
    }
}

/* The other calls find the same places if the options ask for them. */
static void by_options(const zaxbriar_places *places) {
    zaxbriar_places found;
    zaxbriar_picture picture;
    zaxbriar_options options = {.places = &found};
    for (int call = 0; call < 3; call++) {
        zaxbriar_result answer;
        memset(&found, 0xA5, sizeof found);
        if (call == 0)
            answer = zaxbriar_read_info(jpeg.start, jpeg.size, &options, &picture);
        else if (call == 1)
            answer = zaxbriar_decode(jpeg.start, jpeg.size, &options, NULL, 0, &picture);
        else
            answer = zaxbriar_decode_partial(jpeg.start, jpeg.size, &options, NULL, 0, &picture);
        CHECK(answer != ZAXBRIAR_BAD_ARGUMENT && !memcmp(&found, places, sizeof found));
    }
}

/* An image without a fault ends at `stream_bytes`. */
static void of_image(const zaxbriar_picture *picture, const zaxbriar_places *places) {
    good++;
    CHECK(places->ended == 1 && places->stream_bytes == picture->stream_bytes);
    CHECK(fed() == picture->stream_bytes);
    exif += is_copied(ZAXBRIAR_EXIF, &places->exif);
    xmp += is_copied(ZAXBRIAR_XMP, &places->xmp);
    profiles += is_profile(places);
}

static void of_file(void) {
    static zaxbriar_places places, half;
    zaxbriar_picture picture;
    files++;
    CHECK(zaxbriar_find_metadata(jpeg.start, jpeg.size, &places) == ZAXBRIAR_OK);
    CHECK(places.stream_bytes == all_listed());
    CHECK(zaxbriar_find_metadata(jpeg.start, jpeg.size / 2, &half) == ZAXBRIAR_OK);
    within(&places, jpeg.size);
    within(&half, jpeg.size / 2);
    by_options(&places);
    if (zaxbriar_read_info(jpeg.start, jpeg.size, NULL, &picture) != ZAXBRIAR_OK) return;
    unsigned char *pixels = block(picture.size);
    if (zaxbriar_decode(jpeg.start, jpeg.size, NULL, pixels, picture.size, &picture) == ZAXBRIAR_OK)
        of_image(&picture, &places);
    free(pixels);
}

int main(int argc, char **argv) {
    static char name[4096];
    FILE *list = argc == 2 ? fopen(argv[1], "r") : NULL;
    if (!list) return 2;
    while (fgets(name, sizeof name, list)) {
        name[strcspn(name, "\n")] = 0;
        subject = name;
        jpeg = read_file(name);
        of_file();
        free(jpeg.start);
    }
    fclose(list);
    subject = argv[1];
    CHECK(good > 0 && exif > 0);
    printf("segments: %ld in %ld files, %ld of them good, with %ld Exif data, %ld XMP data and "
           "%ld profiles; %d faults\n",
           segments, files, good, exif, xmp, profiles, faults);
    return faults != 0;
}
