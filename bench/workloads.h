/* What is timed: each workload is a name and one or more inputs that the library accepts. */
#ifndef WORKLOADS_H
#define WORKLOADS_H

#include "formula.h"

enum { MOST_INPUTS = 16, MOST_WORKLOADS = 32 };

struct input {
    struct formula formula;
    size_t atoms, instants;
    uint8_t cells[PASTUREQUILL_MOST_ATOMS * PASTUREQUILL_MOST_INSTANTS];
    int value; /* what the whole formula is worth at instant 0, -1 where that was not worked out beforehand */
};

struct workload {
    const char *name;
    size_t inputs;
    struct input input[MOST_INPUTS];
};

extern struct workload workloads[MOST_WORKLOADS];

/* Builds them all and gives their number. */
size_t build_workloads(void);

#endif
