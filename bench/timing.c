#define _POSIX_C_SOURCE 200809L
#include "timing.h"
#include <stdlib.h>
#include <time.h>

double now(void)
{
    struct timespec t;
    clock_gettime(CLOCK_PROCESS_CPUTIME_ID, &t);
    return 1e9 * (double)t.tv_sec + (double)t.tv_nsec;
}

static int by_value(const void *a, const void *b)
{
    double x = *(const double *)a, y = *(const double *)b;
    return (x > y) - (x < y);
}

void in_order(double times[ROUNDS])
{
    qsort(times, ROUNDS, sizeof *times, by_value);
}
