/* The processor time of this process, and what its decodings took of it. */
#include <stdio.h>
#include <stdlib.h>
#include <time.h>

enum { MOST_TIMES = 1 << 16 };

static double kept_times[MOST_TIMES];
static size_t kept;

/* The milliseconds of processor time that this process has had, of the user and of the system. */
static inline double process_ms(void) {
    struct timespec time;
    clock_gettime(CLOCK_PROCESS_CPUTIME_ID, &time);
    return 1e3 * time.tv_sec + 1e-6 * time.tv_nsec;
}

/* Keeps how many milliseconds a decoding took. The clock of a process of several threads may stand
 * still, which is no time. */
static inline void keep_time(double ms) {
    if (ms > 0 && kept < MOST_TIMES) kept_times[kept++] = ms;
}

static int compare_times(const void *one, const void *other) {
    double a = *(const double *)one, b = *(const double *)other;
    return (a > b) - (a < b);
}

/* Prints the least and the median of the times that are kept, if there are any. The least one in a
 * hundred is left out: where the system interrupts a short decoding, its time may come out too
 * small. */
static inline void print_times(void) {
    if (kept == 0) return;
    qsort(kept_times, kept, sizeof *kept_times, compare_times);
    fprintf(stderr, "process time: best %.6f ms, median %.6f ms\n", kept_times[kept / 100],
            kept_times[kept / 2]);
}
