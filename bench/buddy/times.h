/* Times and their medians. */
#ifndef TIMES_H
#define TIMES_H

#include <stdio.h>
#include <stdlib.h>
#include <time.h>

static inline void stop(const char *what) {
    fprintf(stderr, "bench/buddy: %s\n", what);
    exit(1);
}

/* In ns. */
static inline double now(void) {
    struct timespec t;
    clock_gettime(CLOCK_MONOTONIC, &t);
    return 1e9 * (double)t.tv_sec + (double)t.tv_nsec;
}

static inline int by_size(const void *a, const void *b) {
    double x = *(const double *)a, y = *(const double *)b;
    return (x > y) - (x < y);
}

static inline double median(double *times, size_t n) {
    qsort(times, n, sizeof *times, by_size);
    return times[n / 2];
}

#endif
