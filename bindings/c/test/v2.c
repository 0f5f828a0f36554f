/* In place of processor.c: a processor that isn't of the kind x86-64-v3. */
#include "processor.h"

int zaxbriar_is_v3(void) { return 0; }
