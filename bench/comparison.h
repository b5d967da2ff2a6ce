/* The library beside its peers over the workloads of one service: a table of times and of factors, library over peer,
 * with the factors' geometric means and the worst; and for each peer a line that starts with `summary`, which bench/run
 * gathers. */
#ifndef COMPARISON_H
#define COMPARISON_H

#include "timing.h"

struct comparison {
    const char *service;
    const char *workload, *sizes; /* the headings of a workload's name and of its sizes */
    int contenders;               /* the peers and the library, which is the last */
    const char *names[MOST_CONTENDERS];
    const char *against[MOST_CONTENDERS]; /* what the summary calls each peer */
    rounds_of *run;

    /* what was found, at first nothing */
    size_t workloads;
    struct {
        double logarithms, worst; /* the sum of the factors' logarithms, and the greatest factor */
        const char *where;        /* the workload of the greatest */
    } found[MOST_CONTENDERS];
};

/* The table's heading. */
void begin_table(const struct comparison *c);

/* One line: a workload with its sizes, of so many calls a round. */
void compare(struct comparison *c, const char *workload, const char *sizes, const void *work, size_t calls);

/* The means and the worst, and the lines for the summary. */
void end_table(const struct comparison *c);

#endif
