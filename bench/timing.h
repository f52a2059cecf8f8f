/* How long a rendering takes: one way for the proved block and for what it is held against, so that their ratio is one of like with like. */
#ifndef TIMING_H
#define TIMING_H

#include <stdlib.h>
#include <time.h>

/* The processor's time and not the clock's, so that other programs on the machine disturb less. */
static double now(void)
{
    struct timespec time;
    clock_gettime(CLOCK_PROCESS_CPUTIME_ID, &time);
    return (double)time.tv_sec + 1e-9 * (double)time.tv_nsec;
}

static int ascending(const void *one, const void *other)
{
    double a = *(const double *)one, b = *(const double *)other;
    return (a > b) - (a < b);
}

/* Seconds that a rendering takes, over as many as make a tenth of a second. */
static double run(void (*render)(void *), void *circuit)
{
    double start = now(), spent;
    long renderings = 0;
    do {
        render(circuit);
        renderings++;
        spent = now() - start;
    } while (spent < 0.1);
    return spent / (double)renderings;
}

/* The median of so many runs. */
static inline double median(size_t runs, void (*render)(void *), void *circuit)
{
    double *seconds = malloc(runs * sizeof *seconds);
    if (!seconds)
        exit(1);
    for (size_t i = 0; i < runs; i++)
        seconds[i] = run(render, circuit);
    qsort(seconds, runs, sizeof *seconds, ascending);
    double middle = seconds[runs / 2];
    free(seconds);
    return middle;
}

#endif
