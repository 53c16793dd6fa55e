/* Processor time of this process. */
#ifndef BENCH_CLOCK_H
#define BENCH_CLOCK_H

#include <time.h>

static inline double now_ns(void)
{
    struct timespec t;
    clock_gettime(CLOCK_PROCESS_CPUTIME_ID, &t);
    return 1e9 * (double)t.tv_sec + (double)t.tv_nsec;
}

/* Keeps the least of the times seen. */
static inline void keep_least(double *least, double ns)
{
    if (*least == 0 || ns < *least)
        *least = ns;
}

#endif
