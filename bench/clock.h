/* Time for the benches: the processor's for this program, a round of so many runs. */
#ifndef CLOCK_H
#define CLOCK_H
#include <stdint.h>
#include <time.h>

static inline double nanoseconds(void) {
    struct timespec t;
    clock_gettime(CLOCK_PROCESS_CPUTIME_ID, &t);
    return (double)t.tv_sec * 1e9 + (double)t.tv_nsec;
}

/* What one run takes, in a round of so many. */
static inline double once(int (*side)(void), uint32_t times) {
    double from = nanoseconds();
    for (uint32_t i = 0; i < times; i++) side();
    return (nanoseconds() - from) / times;
}

/* So many times that a round takes some 10 ms. */
static inline uint32_t times_for(int (*side)(void)) {
    uint32_t times = 1;
    while (times < 1u << 20 && once(side, times) * times < 1e7) times *= 2;
    return times;
}

#endif
