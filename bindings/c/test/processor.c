/* processor: says which kind of processor this is, "v3" or "v2". Each time it is asked it has to be
 * the same. */
#include "common.h"
#include "processor.h"

int main(void) {
    int is_v3 = zaxbriar_is_v3();
    CHECK(zaxbriar_is_v3() == is_v3 && zaxbriar_is_v3() == is_v3);
    puts(is_v3 ? "v3" : "v2");
    return faults != 0;
}
