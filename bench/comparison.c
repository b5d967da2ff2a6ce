/* The tables that compare the library with its peers. */
#include "comparison.h"

#include <math.h>
#include <stdio.h>
#include <string.h>

enum { NAME_WIDTH = 34, TIME_WIDTH = 9, FACTOR_WIDTH = 9, SUMMARY_WIDTH = 6 };

/* What stands before a peer's name above its factors. */
static const char over[] = "lib/";

static int peers_of(const struct comparison *c) { return c->contenders - 1; }

static int factor_width(const struct comparison *c, int peer)
{
    int width = (int)(strlen(over) + strlen(c->names[peer]));
    return width < FACTOR_WIDTH ? FACTOR_WIDTH : width;
}

/* A factor with its digits that matter. */
static void print_factor(int width, double factor)
{
    printf(" %*.*f", width, factor < 1 ? 3 : 2, factor);
}

static double mean_of(const struct comparison *c, int peer)
{
    return exp(c->found[peer].logarithms / (double)c->workloads);
}

static double worst_of(const struct comparison *c, int peer) { return c->found[peer].worst; }

void begin_table(const struct comparison *c)
{
    printf("Nanoseconds a call, medians of %d samples of %d ms or more, taken in turn; then library over peer:\n\n",
           SAMPLES, LEAST_SAMPLE_MS);
    printf("%-*s %s", NAME_WIDTH, c->workload, c->sizes);
    for (int i = 0; i < c->contenders; i++)
        printf(" %*s", TIME_WIDTH, c->names[i]);
    for (int i = 0; i < peers_of(c); i++)
        printf(" %*s%s", factor_width(c, i) - (int)strlen(c->names[i]), over, c->names[i]);
    printf("\n");
}

void compare(struct comparison *c, const char *workload, const char *sizes, const void *work, size_t calls)
{
    double medians[MOST_CONTENDERS];
    measure(c->run, c->contenders, work, calls, medians);
    printf("%-*s %s", NAME_WIDTH, workload, sizes);
    for (int i = 0; i < c->contenders; i++)
        printf(" %*.0f", TIME_WIDTH, medians[i]);
    for (int i = 0; i < peers_of(c); i++) {
        double factor = medians[peers_of(c)] / medians[i];
        print_factor(factor_width(c, i), factor);
        c->found[i].logarithms += log(factor);
        if (c->workloads == 0 || factor > c->found[i].worst) {
            c->found[i].worst = factor;
            c->found[i].where = workload;
        }
    }
    printf("\n");
    fflush(stdout);
    c->workloads++;
}

/* A line that has factors alone. */
static void print_factors(const struct comparison *c, const char *label,
                          double (*factor_of)(const struct comparison *c, int peer))
{
    int times = c->contenders * (TIME_WIDTH + 1);
    printf("%-*s %*s", NAME_WIDTH, label, (int)strlen(c->sizes) + times, "");
    for (int i = 0; i < peers_of(c); i++)
        print_factor(factor_width(c, i), factor_of(c, i));
    printf("\n");
}

void end_table(const struct comparison *c)
{
    print_factors(c, "geometric mean", mean_of);
    print_factors(c, "worst", worst_of);
    for (int i = 0; i < peers_of(c); i++) {
        printf("summary %-10s %-44s", c->service, c->against[i]);
        print_factor(SUMMARY_WIDTH, mean_of(c, i));
        print_factor(SUMMARY_WIDTH, worst_of(c, i));
        printf("  %s\n", c->found[i].where);
    }
}
