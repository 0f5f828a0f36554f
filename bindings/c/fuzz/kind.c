/* In place of processor.c, whose zaxbriar_is_v3 is compiled under the name zaxbriar_has_v3. */
#include "kind.h"

#include "processor.h"

int zaxbriar_has_v3(void);

static int may_be_v3 = 1;

void allow_v3(int is_allowed) { may_be_v3 = is_allowed; }

#ifdef FUZZ_ONE_KIND
int zaxbriar_is_v3(void) { return may_be_v3; }
#else
int zaxbriar_is_v3(void) { return may_be_v3 && zaxbriar_has_v3(); }
#endif
