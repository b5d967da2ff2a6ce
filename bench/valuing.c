/* The time of one call of pasturequill_value, beside that of five valuers in C, over the workloads: all in one run and
 * in turn, so that whatever else the machine does falls on all alike. The library's time includes its checks; the
 * valuers in C have none. */
#include <stdio.h>
#include <stdlib.h>
#include <string.h>

#include "comparison.h"
#include "valuers.h"
#include "workloads.h"

enum { MOST_TABLE = MOST_RECORDS * PASTUREQUILL_MOST_INSTANTS };

/* ---- the six */
enum { PLAIN, ROWS, BITS, ROWS_BEST, BITS_BEST, LIBRARY, CONTENDERS };

static valuer *const valuers[LIBRARY] = {value_plain, value_rows, value_bits, value_rows_best, value_bits_best};

static uint8_t by_library(const struct input *in, uint8_t *table)
{
    pasturequill_valued got =
        pasturequill_value(in->formula.records, size_of(&in->formula), in->atoms, in->instants, in->cells,
                           in->atoms * in->instants, table, in->formula.n * in->instants);
    return got.refusal == 0 ? got.value : 100 + got.refusal;
}

static uint8_t value(int contender, const struct input *in, uint8_t *table)
{
    struct task task = {in->formula.records, in->formula.n, in->atoms, in->instants, in->cells, table};
    return contender == LIBRARY ? by_library(in, table) : value_by(valuers[contender], &task);
}

/* So many rounds over a workload's inputs. */
static void run(int contender, const void *work, size_t rounds)
{
    static uint8_t table[MOST_TABLE];
    const struct workload *w = work;
    for (size_t i = 0; i < rounds; i++)
        for (size_t j = 0; j < w->inputs; j++)
            value(contender, &w->input[j], table);
}

static struct comparison comparison = {
    .service = "value",
    .workload = "workload",
    .sizes = "records   L",
    .contenders = CONTENDERS,
    .names = {"plain", "rows", "bits", "rows+", "bits+", "library"},
    .against = {"plain loops, checked input", "rows, checked input", "bits, checked input",
                "rows with all short ways, checked input", "bits with all short ways, checked input"},
    .run = run,
};

/* ---- the same answers */
/* Stops unless all give the same value and the same table, and the value is the one that is known. */
static void agree(const struct workload *w)
{
    static uint8_t tables[CONTENDERS][MOST_TABLE];
    for (size_t i = 0; i < w->inputs; i++) {
        const struct input *in = &w->input[i];
        size_t size = in->formula.n * in->instants;
        uint8_t values[CONTENDERS];
        for (int c = 0; c < CONTENDERS; c++) {
            memset(tables[c], 0xc0 + c, sizeof tables[c]);
            values[c] = value(c, in, tables[c]);
        }
        if (in->value != -1 && values[LIBRARY] != in->value) {
            fprintf(stderr, "%s, input %zu: value %d, expected %d\n", w->name, i, values[LIBRARY], in->value);
            exit(1);
        }
        for (int c = 0; c < LIBRARY; c++)
            if (values[c] != values[LIBRARY] || memcmp(tables[c], tables[LIBRARY], size) != 0) {
                fprintf(stderr, "%s, input %zu: %s differs from the library\n", w->name, i, comparison.names[c]);
                exit(1);
            }
    }
}

int main(void)
{
    size_t workload_count = build_workloads();
    for (size_t i = 0; i < workload_count; i++)
        agree(&workloads[i]);
    printf("\nValue: plain, rows and bits are valuers in C that take checked input; rows+ and bits+ are the last two\n"
           "with every short way that the library takes; library is pasturequill_value, which takes any input. The\n"
           "six agree on every byte.\n");
    begin_table(&comparison);
    for (size_t i = 0; i < workload_count; i++) {
        const struct workload *w = &workloads[i];
        char sizes[16];
        snprintf(sizes, sizeof sizes, "%7zu %3zu", w->input[0].formula.n, w->input[0].instants);
        compare(&comparison, w->name, sizes, w, w->inputs);
    }
    end_table(&comparison);
    return 0;
}
