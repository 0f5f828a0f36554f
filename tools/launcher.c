/* A program of a release, in front of its builds for two kinds of processor: runs
 * ../libexec/zaxbriar/x86-64-v3/NAME beside its own folder where the processor is of that kind, and
 * otherwise ../libexec/zaxbriar/x86-64-v2/NAME, with the same arguments. NAME is its own name, also
 * where a link with another name led to it. */
#include <stdio.h>
#include <stdlib.h>
#include <string.h>
#include <sys/auxv.h>
#include <unistd.h>

#include "processor.h"

enum { ROOM = 4096 };

/* Writes the program's own path: the one that the system tells, or, where /proc isn't mounted, as
 * in many sandboxes, the one that it was started by. (That isn't argv[0], which the caller is free
 * to choose.) Returns 0 if neither is known. */
static int find_own(char own[ROOM]) {
    ssize_t length = readlink("/proc/self/exe", own, ROOM - 1);
    if (length > 0 && length < ROOM - 1) {
        own[length] = 0;
        return 1;
    }
    const char *started_by = (const char *)getauxval(AT_EXECFN);
    char *resolved = started_by ? realpath(started_by, NULL) : NULL;
    int written = resolved ? snprintf(own, ROOM, "%s", resolved) : -1;
    free(resolved);
    return written > 0 && written < ROOM;
}

int main(int count, char **words) {
    (void)count;
    char own[ROOM], path[2 * ROOM];
    char *name = find_own(own) ? strrchr(own, '/') : NULL;
    if (!name) {
        fputs("zaxbriar: the program's own folder isn't known: is /proc mounted?\n", stderr);
        return 127;
    }
    *name++ = 0;
    const char *const kinds[] = {"x86-64-v3", "x86-64-v2"};
    for (int kind = zaxbriar_is_v3() ? 0 : 1; kind < 2; kind++) {
        snprintf(path, sizeof path, "%s/../libexec/zaxbriar/%s/%s", own, kinds[kind], name);
        execv(path, words);
    }
    perror(path);
    return 127;
}
