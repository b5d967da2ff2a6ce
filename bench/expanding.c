/* The time of one call of pasturequill_expand, beside that of an expander in C with the same refusals: both in one run
 * and in turn. The formulas have core records alone, or one shorthand as often as 255 records out allow, or all of them
 * at random; or are too long. */
#include <stdio.h>
#include <stdlib.h>
#include <string.h>

#include "comparison.h"
#include "damage.h"
#include "expander.h"
#include "shapes.h"
#include "shorthands.h"

enum { ATOMS = PASTUREQUILL_MOST_ATOMS, MOST_FORMULAS = 16 };

struct work {
    const char *name;
    size_t formulas;
    struct formula formula[MOST_FORMULAS];
};

/* ---- the two */
enum { EXPANDER, LIBRARY, CONTENDERS };

static pasturequill_counted expand(int contender, const struct formula *f, uint8_t *out)
{
    return (contender == LIBRARY ? pasturequill_expand : expand_checked)(f->records, size_of(f), ATOMS, out,
                                                                         MOST_BYTES);
}

static void run(int contender, const void *work, size_t rounds)
{
    static uint8_t out[MOST_BYTES];
    const struct work *w = work;
    for (size_t i = 0; i < rounds; i++)
        for (size_t j = 0; j < w->formulas; j++)
            expand(contender, &w->formula[j], out);
}

static struct comparison comparison = {
    .service = "expand",
    .workload = "formula",
    .sizes = "records out refusal",
    .contenders = CONTENDERS,
    .names = {"expander", "library"},
    .against = {"from the root down, same refusals"},
    .run = run,
};

/* ---- shorthands */
/* The shorthand around a formula, an atom being its other argument; one without arguments stands beside the formula. */
static size_t around(struct formula *f, const struct shorthand *s, size_t g)
{
    switch (s->arguments) {
    case 0:
        return add(f, PASTUREQUILL_AND, add(f, s->kind, 0, 0), g);
    case 1:
        return add(f, s->kind, g, 0);
    default:
        return add(f, s->kind, g, atom(f, f->n % ATOMS));
    }
}

/* How many records come out for one more. */
static size_t around_size(const struct shorthand *s)
{
    enum { AND_OWN = 2 };
    return s->own + (s->arguments == 0 ? AND_OWN : s->arguments - 1);
}

/* One around the other, as often as so many records out, or 255 in, allow. */
static void nest(struct formula *f, const struct shorthand *s, size_t most)
{
    size_t g = atom(f, 0);
    for (size_t out = 1; out + around_size(s) <= most && left(f) >= 2; out += around_size(s))
        g = around(f, s, g);
}

/* Shorthands at random, in as many records out as there is room for, or somewhat fewer. */
static size_t at_random(struct formula *f, size_t room)
{
    const struct shorthand *s = &shorthands[below(SHORTHANDS)];
    if (room < s->own + s->arguments)
        return atom(f, below(ATOMS));
    if (s->arguments == 0)
        return room > 2 * s->own ? at_random(f, room) : add(f, s->kind, 0, 0);
    size_t rest = room - s->own, first = s->arguments == 1 ? rest : 1 + below(rest - 1);
    size_t a = at_random(f, first), b = s->arguments == 1 ? 0 : at_random(f, rest - first);
    return add(f, s->kind, a, b);
}

/* Always, p implies eventually q. */
static void response(struct formula *f)
{
    size_t asked = atom(f, 0), answered = add(f, PASTUREQUILL_EVENTUALLY, atom(f, 1), 0);
    add(f, PASTUREQUILL_ALWAYS, add(f, PASTUREQUILL_IMPLIES, asked, answered), 0);
}

/* ---- the same answers */
static int same(pasturequill_counted x, pasturequill_counted y) { return x.refusal == y.refusal && x.count == y.count; }

/* What both give for a formula; stops unless they give and write the same. */
static pasturequill_counted expand_both(const char *name, const struct formula *f)
{
    static uint8_t out[CONTENDERS][MOST_BYTES];
    pasturequill_counted got[CONTENDERS];
    memset(out, UINT8_MAX, sizeof out);
    for (int c = 0; c < CONTENDERS; c++)
        got[c] = expand(c, f, out[c]);
    if (!same(got[EXPANDER], got[LIBRARY]) || memcmp(out[EXPANDER], out[LIBRARY], MOST_BYTES) != 0) {
        fprintf(stderr, "%s: the expander gives refusal %d and %zu records, the library %d and %zu, or other ones\n",
                name, got[EXPANDER].refusal, (size_t)got[EXPANDER].count, got[LIBRARY].refusal,
                (size_t)got[LIBRARY].count);
        exit(1);
    }
    return got[LIBRARY];
}

/* Stops unless both give the refusal that is expected, and the same for the formulas with bytes changed. */
static void agree(const struct work *w, uint8_t refusal)
{
    for (size_t i = 0; i < w->formulas; i++) {
        pasturequill_counted got = expand_both(w->name, &w->formula[i]);
        if (got.refusal != refusal) {
            fprintf(stderr, "%s: refusal %d, expected %d\n", w->name, got.refusal, refusal);
            exit(1);
        }
        for (int change = 0; change < DAMAGES; change++) {
            struct formula f = w->formula[i];
            damage(&f);
            expand_both(w->name, &f);
        }
    }
}

static void agree_and_compare(const struct work *w, uint8_t refusal)
{
    char sizes[32];
    agree(w, refusal);
    size_t out = expand_both(w->name, &w->formula[0]).count;
    snprintf(sizes, sizeof sizes, "%7zu %3zu %7d", w->formula[0].n, out, refusal);
    compare(&comparison, w->name, sizes, w, w->formulas);
}

/* A workload of one formula that is built so. */
static void compare_built(const char *name, void (*build)(struct formula *f))
{
    struct work w = {.name = name, .formulas = 1};
    build(&w.formula[0]);
    agree_and_compare(&w, PASTUREQUILL_ACCEPTED);
}

/* One shorthand around the other, up to so many records out. */
static void compare_nested(const char *name, const struct shorthand *s, size_t most, uint8_t refusal)
{
    struct work w = {.name = name, .formulas = 1};
    nest(&w.formula[0], s, most);
    agree_and_compare(&w, refusal);
}

static void compare_random(const char *name)
{
    struct work w = {.name = name, .formulas = MOST_FORMULAS};
    for (size_t i = 0; i < MOST_FORMULAS; i++)
        at_random(&w.formula[i], MOST_RECORDS);
    agree_and_compare(&w, PASTUREQUILL_ACCEPTED);
}

int main(void)
{
    seed = 31;
    printf("\nExpand: expander is an expander in C with the same refusals; library is pasturequill_expand. The two\n"
           "agree on every byte, for damaged records too.\n");
    begin_table(&comparison);
    compare_built("core, one long sequence", moves_in_sequence);
    compare_built("core, one long choice", moves_in_choice);
    compare_built("core, stars inside stars", stars_of_stars);
    compare_built("core, tests inside tests", negations);
    compare_built("core, p until q", until);
    compare_built("always p implies eventually q", response);
    for (size_t i = 0; i < SHORTHANDS; i++)
        compare_nested(shorthands[i].name, &shorthands[i], MOST_RECORDS, PASTUREQUILL_ACCEPTED);
    compare_random("shorthands at random");
    compare_nested("too long", &shorthands[SHORTHANDS - 1], SIZE_MAX, PASTUREQUILL_TOO_LONG);
    end_table(&comparison);
    return 0;
}
