/* The objects of this library, its errors, and the library of the system. */
#define _GNU_SOURCE /* secure_getenv */
#include "shim.h"

#include <fcntl.h>
#include <pthread.h>
#include <stdlib.h>
#include <string.h>
#include <unistd.h>

/* The functions of the system's library, and its messages with one of this library's after them. */
#define NAME(name) #name,
static const char *const names[] = {OWN_CALLS(NAME)};
static function *functions[OWN_COUNT];
static const char *messages[512];
static int last_message;

/* The handles, by the memory managers of their objects, which stay where they are. */
static struct {
    pthread_mutex_t lock;
    struct handle *first;
} table[64];

static void end_without(const char *path, const char *name) {
    fprintf(stderr, "zaxbriar's libjpeg.so.62: no %s in %s\n", name, path);
    exit(EXIT_FAILURE);
}

/* Loads the system's library by its path, since its name is this library's, too. */
static void load(void) {
    const char *given = secure_getenv("ZAXBRIAR_LIBJPEG");
    const char *path = given && *given ? given : OWN_LIBRARY;
    void *library = open_other(path, "jpeg_std_error", (function *)jpeg_std_error);
    struct jpeg_error_mgr errors;
    if (!library) end_without(path, "libjpeg");
    for (int i = 0; i < OWN_COUNT; i++)
        if (!(functions[i] = function_of(library, names[i]))) end_without(path, names[i]);
    ((__typeof__(&jpeg_std_error))functions[OWN_jpeg_std_error])(&errors);
    last_message = errors.last_jpeg_message + 1;
    if (last_message >= (int)(sizeof messages / sizeof *messages)) end_without(path, "room");
    memcpy(messages, errors.jpeg_message_table, (size_t)last_message * sizeof *messages);
    messages[last_message] = "zaxbriar: %s";
    for (size_t i = 0; i < sizeof table / sizeof *table; i++)
        pthread_mutex_init(&table[i].lock, NULL);
}

function *own_function(own_name name) {
    static pthread_once_t is_loaded = PTHREAD_ONCE_INIT;
    pthread_once(&is_loaded, load);
    return functions[name];
}

struct jpeg_error_mgr *jpeg_std_error(struct jpeg_error_mgr *errors) {
    OWN(jpeg_std_error)(errors);
    errors->jpeg_message_table = messages;
    errors->last_jpeg_message = last_message;
    return errors;
}

static void set_text(struct jpeg_error_mgr *errors, const char *text) {
    errors->msg_code = last_message;
    snprintf(errors->msg_parm.s, sizeof errors->msg_parm.s, "%s", text);
}

int fail(j_decompress_ptr cinfo, const char *text) {
    set_text(cinfo->err, text);
    cinfo->err->error_exit((j_common_ptr)cinfo);
    return 0;
}

void warn(j_decompress_ptr cinfo, const char *text) {
    set_text(cinfo->err, text);
    cinfo->err->emit_message((j_common_ptr)cinfo, -1);
}

void trace(const char *done, const char *what, unsigned width, unsigned height) {
    const char *name = secure_getenv("ZAXBRIAR_TRACE");
    int file = name && *name ? open(name, O_WRONLY | O_APPEND | O_CREAT | O_CLOEXEC, 0644) : -1;
    if (file < 0) return;
    dprintf(file, "%s %u x %u %s\n", done, width, height, what);
    close(file);
}

static size_t place_of(const struct jpeg_memory_mgr *memory) {
    return ((uintptr_t)memory >> 4 ^ (uintptr_t)memory >> 12) % (sizeof table / sizeof *table);
}

struct handle *handle_of(j_common_ptr cinfo) {
    size_t place = place_of(cinfo->mem);
    pthread_mutex_lock(&table[place].lock);
    struct handle *handle = table[place].first;
    while (handle && handle->memory != cinfo->mem) handle = handle->next;
    pthread_mutex_unlock(&table[place].lock);
    return handle;
}

struct handle *ours(j_decompress_ptr cinfo) {
    struct handle *handle = handle_of((j_common_ptr)cinfo);
    return handle && !handle->is_own ? handle : NULL;
}

static void add_handle(struct handle *handle) {
    size_t place = place_of(handle->memory);
    pthread_mutex_lock(&table[place].lock);
    handle->next = table[place].first;
    table[place].first = handle;
    pthread_mutex_unlock(&table[place].lock);
}

static void remove_handle(const struct handle *handle) {
    size_t place = place_of(handle->memory);
    pthread_mutex_lock(&table[place].lock);
    struct handle **link = &table[place].first;
    while (*link != handle) link = &(*link)->next;
    *link = handle->next;
    pthread_mutex_unlock(&table[place].lock);
}

void clear_handle(struct handle *handle) {
    struct handle kept = *handle;
    free(handle->jpeg);
    free(handle->pixels);
    *handle = (struct handle){.next = kept.next, .memory = kept.memory};
    memcpy(handle->markers, kept.markers, sizeof kept.markers);
}

void jpeg_CreateDecompress(j_decompress_ptr cinfo, int version, size_t size) {
    OWN(jpeg_CreateDecompress)(cinfo, version, size);
    struct handle *handle = calloc(1, sizeof *handle);
    if (!handle) {
        ERREXIT1(cinfo, JERR_OUT_OF_MEMORY, 0);
        return;
    }
    handle->memory = cinfo->mem;
    add_handle(handle);
}

/* (The program's source may be gone by now: nothing but its address is looked at.) */
static struct handle *taken_back(j_common_ptr cinfo) {
    struct handle *handle = cinfo->mem ? handle_of(cinfo) : NULL;
    if (handle) return_source((j_decompress_ptr)cinfo);
    return handle;
}

void jpeg_abort(j_common_ptr cinfo) {
    struct handle *handle = taken_back(cinfo);
    if (handle) clear_handle(handle);
    OWN(jpeg_abort)(cinfo);
}

void jpeg_destroy(j_common_ptr cinfo) {
    struct handle *handle = taken_back(cinfo);
    if (handle) {
        remove_handle(handle);
        clear_handle(handle);
        free(handle);
    }
    OWN(jpeg_destroy)(cinfo);
}

void jpeg_abort_decompress(j_decompress_ptr cinfo) { jpeg_abort((j_common_ptr)cinfo); }
void jpeg_destroy_decompress(j_decompress_ptr cinfo) { jpeg_destroy((j_common_ptr)cinfo); }
