/* Asks the processor itself (CPUID) which kind it is.
 *
 * __builtin_cpu_supports would need less code. But it reads a variable of libgcc.a, which programs
 * in Rust don't link, and not every compiler knows "x86-64-v3"; and a choice by the linker (ifunc)
 * would need more of a C library than musl has. */
#include "processor.h"

#include <cpuid.h>
#include <stdatomic.h>

enum {
    /* CPUID 1, ECX: FMA, MOVBE, OSXSAVE, AVX, F16C. */
    OF_1 = 1 << 12 | 1 << 22 | 1 << 27 | 1 << 28 | 1 << 29,
    /* CPUID 7, EBX: BMI1, AVX2, BMI2. */
    OF_7 = 1 << 3 | 1 << 5 | 1 << 8,
    /* CPUID 80000001, ECX: LZCNT. */
    OF_80000001 = 1 << 5,
    /* XCR0: the system keeps XMM and YMM for each thread. */
    OF_XCR0 = 1 << 1 | 1 << 2,
};

static int has(unsigned found, unsigned wanted) { return (found & wanted) == wanted; }

/* (XGETBV is there where OSXSAVE is.) */
static int keeps_vectors(void) {
    unsigned low, high;
    __asm__ volatile("xgetbv" : "=a"(low), "=d"(high) : "c"(0));
    return has(low, OF_XCR0);
}

static int ask(void) {
    unsigned a, b, c, d;
    if (!__get_cpuid(1, &a, &b, &c, &d) || !has(c, OF_1) || !keeps_vectors()) return 0;
    if (!__get_cpuid_count(7, 0, &a, &b, &c, &d) || !has(b, OF_7)) return 0;
    return __get_cpuid(0x80000001, &a, &b, &c, &d) && has(c, OF_80000001);
}

int zaxbriar_is_v3(void) {
    /* The answer is kept, since a virtual machine may take microseconds for CPUID. Threads that ask
     * at the same time find the same. */
    enum { UNKNOWN, NO, YES };
    static atomic_uchar kept = UNKNOWN;
    unsigned char known = atomic_load_explicit(&kept, memory_order_relaxed);
    if (known == UNKNOWN) {
        known = ask() ? YES : NO;
        atomic_store_explicit(&kept, known, memory_order_relaxed);
    }
    return known == YES;
}
