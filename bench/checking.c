/* The time of one call of pasturequill_check, beside that of a checker in C with the same refusals: both in one run and
 * in turn. The formulas are those that valuing is measured with, of every shape and from short rules to 255 records,
 * and a long one with one byte damaged, so that it is refused early or late. */
#include <stdio.h>
#include <stdlib.h>

#include "checker.h"
#include "comparison.h"
#include "damage.h"
#include "shapes.h"
#include "workloads.h"

struct work {
    const char *name;
    size_t inputs;
    const struct input *input;
    uint8_t refusal;
};

/* ---- the two */
enum { CHECKER, LIBRARY, CONTENDERS };

static uint8_t check(int contender, const struct formula *f, size_t atoms)
{
    return (contender == LIBRARY ? pasturequill_check : check_core)(f->records, size_of(f), atoms);
}

static void run(int contender, const void *work, size_t rounds)
{
    const struct work *w = work;
    for (size_t i = 0; i < rounds; i++)
        for (size_t j = 0; j < w->inputs; j++)
            check(contender, &w->input[j].formula, w->input[j].atoms);
}

static struct comparison comparison = {
    .service = "check",
    .workload = "formula",
    .sizes = "records refusal",
    .contenders = CONTENDERS,
    .names = {"checker", "library"},
    .against = {"one pass, same refusals"},
    .run = run,
};

/* ---- damaged formulas */
/* The last records of a sequence of moves under a diamond are the last sequence, the atom and the diamond. */
enum { FIRST = 0, ATOM = MOST_RECORDS - 2, LAST = MOST_RECORDS - 1 };

static const struct damaged {
    const char *name;
    size_t record, byte;
    uint8_t value, refusal;
} damaged[] = {
    {"unknown kind, first record", FIRST, KIND, PASTUREQUILL_NOT, PASTUREQUILL_UNKNOWN_KIND},
    {"unknown kind, last record", LAST, KIND, PASTUREQUILL_NOT, PASTUREQUILL_UNKNOWN_KIND},
    {"zero byte, first record", FIRST, ZERO, 1, PASTUREQUILL_NOT_ZERO},
    {"zero byte, last record", LAST, ZERO, 1, PASTUREQUILL_NOT_ZERO},
    {"late child, last record", LAST, FIELD_A + HIGH, 1, PASTUREQUILL_LATE_CHILD},
    {"no such atom, last atom", ATOM, FIELD_A, 1, PASTUREQUILL_NO_SUCH_ATOM},
    {"wrong sort, last record", LAST, KIND, PASTUREQUILL_SEQUENCE, PASTUREQUILL_WRONG_SORT},
    {"not a tree, last record", LAST, FIELD_A, FIRST, PASTUREQUILL_NOT_A_TREE},
};

enum { DAMAGED = sizeof damaged / sizeof *damaged };

static void build_damaged(const struct damaged *d, struct input *in)
{
    in->atoms = 1;
    moves_in_sequence(&in->formula);
    in->formula.records[RECORD_SIZE * d->record + d->byte] = d->value;
}

/* ---- the same answers */
static void stop(const char *name, uint8_t checker, uint8_t library)
{
    fprintf(stderr, "%s: the checker gives %d, the library %d\n", name, checker, library);
    exit(1);
}

/* Stops unless both give the refusal that is expected, and the same for the formulas with bytes changed. */
static void agree(const struct work *w)
{
    for (size_t i = 0; i < w->inputs; i++) {
        const struct input *in = &w->input[i];
        uint8_t checker = check(CHECKER, &in->formula, in->atoms), library = check(LIBRARY, &in->formula, in->atoms);
        if (checker != w->refusal || library != w->refusal)
            stop(w->name, checker, library);
        for (int change = 0; change < DAMAGES; change++) {
            struct formula f = in->formula;
            damage(&f);
            checker = check(CHECKER, &f, in->atoms);
            library = check(LIBRARY, &f, in->atoms);
            if (checker != library)
                stop(w->name, checker, library);
        }
    }
}

static void agree_and_compare(const struct work *w)
{
    char sizes[16];
    agree(w);
    snprintf(sizes, sizeof sizes, "%7zu %7d", w->input[0].formula.n, w->refusal);
    compare(&comparison, w->name, sizes, w, w->inputs);
}

int main(void)
{
    static struct input inputs[DAMAGED];
    size_t workload_count = build_workloads();

    seed = 29;
    printf("\nCheck: checker is a checker in C with the same refusals; library is pasturequill_check. The two agree,\n"
           "for damaged records too.\n");
    begin_table(&comparison);
    for (const struct workload *w = workloads; w < workloads + workload_count; w++)
        agree_and_compare(&(struct work){w->name, w->inputs, w->input, PASTUREQUILL_ACCEPTED});
    for (size_t i = 0; i < DAMAGED; i++) {
        build_damaged(&damaged[i], &inputs[i]);
        agree_and_compare(&(struct work){damaged[i].name, 1, &inputs[i], damaged[i].refusal});
    }
    end_table(&comparison);
    return 0;
}
