/* Medians of samples that are long enough for the clock, one sample of each contender after the other. */
#include "timing.h"

#include <stdlib.h>
#include <time.h>

static double now(void)
{
    struct timespec t;
    clock_gettime(CLOCK_MONOTONIC, &t);
    return (double)t.tv_sec + 1e-9 * (double)t.tv_nsec;
}

/* Seconds that so many rounds take. */
static double sample(rounds_of *run, int contender, const void *work, size_t rounds)
{
    double start = now();
    run(contender, work, rounds);
    return now() - start;
}

/* So many rounds that a sample is long enough. */
static size_t enough_rounds(rounds_of *run, int contender, const void *work)
{
    const double least = 1e-3 * LEAST_SAMPLE_MS;
    size_t rounds = 1;
    for (double t = sample(run, contender, work, rounds); t < least; t = sample(run, contender, work, rounds))
        rounds = t < least / 8 ? 2 * rounds : (size_t)((double)rounds * 1.1 * least / t) + 1;
    return rounds;
}

static int by_size(const void *x, const void *y)
{
    double u = *(const double *)x, v = *(const double *)y;
    return (u > v) - (u < v);
}

void measure(rounds_of *run, int contenders, const void *work, size_t calls, double *medians)
{
    double times[MOST_CONTENDERS][SAMPLES];
    size_t rounds[MOST_CONTENDERS];
    for (int c = 0; c < contenders; c++)
        rounds[c] = enough_rounds(run, c, work);
    for (int s = 0; s < SAMPLES; s++)
        for (int c = 0; c < contenders; c++)
            times[c][s] = 1e9 * sample(run, c, work, rounds[c]) / (double)(rounds[c] * calls);
    for (int c = 0; c < contenders; c++) {
        qsort(times[c], SAMPLES, sizeof times[c][0], by_size);
        medians[c] = times[c][SAMPLES / 2];
    }
}
