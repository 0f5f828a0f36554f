/* The text of one of the system's errors, for a reader that has failed. Bytes in memory never fail
 * to be read, so this is linked and not called. */
#include <stddef.h>
#include <string.h>

int __xpg_strerror_r(int error, char *text, size_t size);

int __xpg_strerror_r(int error, char *text, size_t size) {
    (void)error;
    if (size < sizeof "error") return 34; /* ERANGE */
    strcpy(text, "error");
    return 0;
}
