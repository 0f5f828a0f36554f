/* What the parts of this library share. A decompressor is an object of the system's library from
 * its creation on, so that it has that library's memory manager, sources and errors; beside it this
 * library keeps a handle, and reads and decodes the bytes until the object is handed on. */
#ifndef SHIM_H
#define SHIM_H
#include "../decode.h"

#include <stdio.h>

#define JPEG_INTERNALS
#include <jpeglib.h>

enum { DHT = 0xC4, SOI = 0xD8, EOI = 0xD9, SOS = 0xDA, DQT = 0xDB, DRI = 0xDD };

/* The markers that a program can ask for: APP0 to APP15, and COM. */
enum { MARKERS = 17 };

/* How a line of the decoded picture becomes one of the program's. */
typedef enum {
    AS_IT_IS,
    REVERSED,     /* the bytes of each pixel in the opposite order */
    COMPLEMENTED, /* each sample */
    FIRST_PLANE,  /* of the components, one after the other, only the first */
    INTERLEAVED   /* the components, one after the other, pixel by pixel */
} change;

/* What this library keeps of a decompressor. */
struct handle {
    struct handle *next;
    const struct jpeg_memory_mgr *memory; /* the object's, by which the handle is found */
    int is_own;                           /* whether the system's library has the object */

    /* What a program wants to be told of each kind of marker. */
    struct {
        jpeg_marker_parser_method routine;
        unsigned limit;
    } markers[MARKERS];

    /* The bytes that came, but for segments that nobody wants; where the next segment begins, how
     * many there have to be before it is looked for, and how many can be given back. */
    uint8_t *jpeg;
    size_t size, room, at, wanted, returnable;
    int has_ended;    /* whether they have an end of the image, or go no further */
    int is_malformed; /* whether they have a segment that can't be followed */

    jpeg_saved_marker_ptr last_saved; /* in the object's list, or null */

    /* What the header has. */
    size_t frame, frame_size, scan, scan_size; /* where the payloads of SOF and SOS are */
    unsigned tables[3];                        /* bits of the tables: quantization, DC, AC */
    zaxbriar_picture picture;
    J_COLOR_SPACE colours;   /* the stream's own */
    const char *own_feature; /* why the system's library has to read the header, or null */

    /* The decoded picture. */
    uint8_t *pixels;
    size_t row_bytes;
    unsigned planes;
    JDIMENSION width, first_column;
    change change;

    /* The source that gives the bytes to the system's library, and the program's meanwhile. */
    struct jpeg_source_mgr replay, *source;
};

/* The calls of the system's library that are made. */
#define OWN_CALLS(CALL)                                                                            \
    CALL(jcopy_block_row) CALL(jcopy_sample_rows) CALL(jdiv_round_up) CALL(jpeg_CreateCompress)    \
    CALL(jpeg_CreateDecompress) CALL(jpeg_abort) CALL(jpeg_abort_compress)                         \
    CALL(jpeg_add_quant_table) CALL(jpeg_alloc_huff_table) CALL(jpeg_alloc_quant_table)            \
    CALL(jpeg_calc_output_dimensions) CALL(jpeg_consume_input)                                     \
    CALL(jpeg_copy_critical_parameters) CALL(jpeg_crop_scanline) CALL(jpeg_default_colorspace)     \
    CALL(jpeg_destroy) CALL(jpeg_destroy_compress) CALL(jpeg_finish_compress)                      \
    CALL(jpeg_finish_decompress) CALL(jpeg_finish_output) CALL(jpeg_has_multiple_scans)            \
    CALL(jpeg_input_complete) CALL(jpeg_mem_dest) CALL(jpeg_mem_src) CALL(jpeg_new_colormap)       \
    CALL(jpeg_quality_scaling) CALL(jpeg_read_coefficients) CALL(jpeg_read_header)                 \
    CALL(jpeg_read_icc_profile) CALL(jpeg_read_raw_data) CALL(jpeg_read_scanlines)                 \
    CALL(jpeg_resync_to_restart) CALL(jpeg_save_markers) CALL(jpeg_set_colorspace)                 \
    CALL(jpeg_set_defaults) CALL(jpeg_set_linear_quality) CALL(jpeg_set_marker_processor)          \
    CALL(jpeg_set_quality) CALL(jpeg_simple_progression) CALL(jpeg_skip_scanlines)                 \
    CALL(jpeg_start_compress) CALL(jpeg_start_decompress) CALL(jpeg_start_output)                  \
    CALL(jpeg_std_error) CALL(jpeg_stdio_dest) CALL(jpeg_stdio_src) CALL(jpeg_suppress_tables)     \
    CALL(jpeg_write_coefficients) CALL(jpeg_write_icc_profile) CALL(jpeg_write_m_byte)             \
    CALL(jpeg_write_m_header) CALL(jpeg_write_marker) CALL(jpeg_write_raw_data)                    \
    CALL(jpeg_write_scanlines) CALL(jpeg_write_tables) CALL(jround_up) CALL(jzero_far)
#define NUMBER(name) OWN_##name,
typedef enum { OWN_CALLS(NUMBER) OWN_COUNT } own_name;

/* objects.c */

/* Returns the handle of an object, or null for one of which this library knows nothing. */
struct handle *handle_of(j_common_ptr cinfo);

/* Returns the handle of a decompressor that hasn't been handed on, or null. */
struct handle *ours(j_decompress_ptr cinfo);

/* Forgets the bytes and the picture. */
void clear_handle(struct handle *handle);

/* Has the object's error manager end the call, with a text of this library's; returns 0 if that
 * returns. */
int fail(j_decompress_ptr cinfo, const char *text);

/* Has the object's error manager show a text as a warning. */
void warn(j_decompress_ptr cinfo, const char *text);

/* Writes a line about a picture to the file that ZAXBRIAR_TRACE names. */
void trace(const char *done, const char *what, unsigned width, unsigned height);

/* Returns a function of the system's library; ends the program if there is none. */
function *own_function(own_name name);
#define OWN(name) ((__typeof__(&name))own_function(OWN_##name))

/* source.c */

/* Takes bytes from the source up to the end of the header of the first scan (`is_header`) or of the
 * image. Returns JPEG_REACHED_SOS or JPEG_REACHED_EOI, or JPEG_SUSPENDED if the source has no more.
 */
int gather(j_decompress_ptr cinfo, struct handle *handle, int is_header);

/* Makes a source of the gathered bytes for the system's library. */
void make_replay(struct handle *handle);

/* Puts that source into the place of the program's while a call is handed on, and back. */
void lend_source(j_decompress_ptr cinfo);
void return_source(j_decompress_ptr cinfo);

/* header.c */

/* Stores what a segment says. Returns 0 if a routine of the program's doesn't want it yet. */
int see_segment(j_decompress_ptr cinfo, struct handle *handle, const zaxbriar_segment *segment);

/* Whether a segment of a marker would be ignored. */
int is_ignored(const struct handle *handle, int marker);

/* Stores what the header says of the picture, and what a program gets that asks for nothing. */
void describe(j_decompress_ptr cinfo, struct handle *handle);

/* Stores the sizes of the components where a block of 8 x 8 samples becomes so many each way. */
void set_sizes(j_decompress_ptr cinfo, int scaled_block);

/* Writes segments of the tables that the stream lacks, those of the object or the usual ones, and
 * returns their size. */
enum { TABLES_ROOM = 4 * 133 + 8 * 277 + 18 };
size_t write_tables(j_decompress_ptr cinfo, const struct handle *handle, uint8_t *segments);

/* own.c */

/* Gives the object and all its bytes to the system's library, which reads the header again.
 * Returns 0 if the source has no more, or if that is forbidden. */
int hand_on(j_decompress_ptr cinfo, struct handle *handle, const char *feature);

/* Defines own_NAME, the call NAME of an object that has been handed on. */
#define HANDED_ON(type, name, parameters, arguments)                                               \
    static type own_##name parameters {                                                            \
        lend_source(cinfo);                                                                        \
        type answer = OWN(name) arguments;                                                         \
        return_source(cinfo);                                                                      \
        return answer;                                                                             \
    }
#define HANDED_ON_VOID(name, parameters, arguments)                                                \
    static void own_##name parameters {                                                            \
        lend_source(cinfo);                                                                        \
        OWN(name) arguments;                                                                       \
        return_source(cinfo);                                                                      \
    }

#endif
