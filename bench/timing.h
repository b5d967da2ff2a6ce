/* Time of several contenders over the same work, taken in turn: whatever else the machine does falls on all alike. */
#ifndef TIMING_H
#define TIMING_H

#include <stddef.h>

enum { SAMPLES = 15, LEAST_SAMPLE_MS = 20, MOST_CONTENDERS = 6 };

/* Does the work so many rounds by one contender. */
typedef void rounds_of(int contender, const void *work, size_t rounds);

/* Each contender's median time of one call, in nanoseconds, where a round has so many calls. */
void measure(rounds_of *run, int contenders, const void *work, size_t calls, double *medians);

#endif
