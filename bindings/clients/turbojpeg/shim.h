/* What the decoding calls (shim.c) and those that are handed on (own.c) share. */
#ifndef SHIM_H
#define SHIM_H
#include "../decode.h"

#include <turbojpeg.h>

/* What a handle of this library points to. */
struct handle {
    const void *mark; /* handle_mark, by which it is told from a handle of libturbojpeg's */
    enum { COMPRESSOR, DECOMPRESSOR, TRANSFORMER } kind;
    tjhandle own;     /* libturbojpeg's handle, to which calls are handed on; null until then */
    int is_own_error; /* whether the last call was handed on */

    /* Otherwise why that failed, and whether that is a warning (TJERR_WARNING: there is a picture
     * all the same) or not (TJERR_FATAL). */
    char text[sizeof((zaxbriar_picture *)0)->text];
    int code;
};

extern const char handle_mark;

/* The handle of this library that a program gives, or null where it isn't one: a null pointer, or a
 * handle that code of libturbojpeg's has made. */
struct handle *handle_of(tjhandle given);

/* Stores why a call failed, and returns -1. `handle` may be null. */
int fail(struct handle *handle, const char *text);

/* libturbojpeg's function of a name, or null where there is no libturbojpeg beside this library. */
function *own_function(const char *name);

/* libturbojpeg's handle for one that a program gives, for a call that is handed on. */
tjhandle own_handle(tjhandle given);

/* Hands a call on: OWN(tjTransform)(..). */
#define OWN(name) ((__typeof__(&name))own_function(#name))
#endif
