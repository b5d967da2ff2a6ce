/* The time of one call of pasturequill_translate, beside that of a plain translator in C without and with the refusals:
 * all in one run and in turn. The formulas are the longest there are, each of another shape, and small ones as they are
 * written in practice. */
#include <stdio.h>
#include <stdlib.h>
#include <string.h>

#include "comparison.h"
#include "damage.h"
#include "rules.h"
#include "shapes.h"
#include "translator.h"

enum { ATOMS = PASTUREQUILL_MOST_ATOMS };

struct work {
    const char *name;
    void (*build)(struct formula *f);
    struct formula formula;
    size_t rules;
};

/* ---- formulas of 255 records */
static void choice_of_steps(struct formula *f)
{
    size_t path = joined(f, choice, step);
    box(f, path, yes(f));
}

static void choice_of_tests(struct formula *f)
{
    size_t path = step(f);
    for (size_t i = 0; left(f) > 2; i++)
        path = choice(f, path, test(f, atom(f, i % ATOMS)));
    box(f, path, yes(f));
}

/* Tests and steps in a row under one star, and eventually an atom after it. */
static void long_until(struct formula *f)
{
    size_t path = go(f, 0);
    for (size_t i = 1; left(f) > 6; i++)
        path = sequence(f, path, go(f, i % ATOMS));
    path = star(f, path);
    size_t on = star(f, step(f));
    diamond(f, path, diamond(f, on, atom(f, 0)));
}

static void stars_in_stars(struct formula *f)
{
    size_t path = star(f, step(f));
    while (left(f) > 4)
        path = star(f, sequence(f, path, step(f)));
    path = sequence(f, path, step(f));
    box(f, path, yes(f));
}

/* Each formula is tested by the next: not, not, and so on. */
static void tests_in_tests(struct formula *f)
{
    size_t path = step(f);
    negated(f, diamond(f, path, atom(f, 0)));
}

static void modalities_in_a_row(struct formula *f)
{
    size_t so = atom(f, 0);
    for (int i = 0; left(f) > 1; i++) {
        size_t path = i % 2 ? step(f) : back(f);
        so = (i % 3 ? diamond : box)(f, path, so);
    }
}

/* ---- small ones */
static void next(struct formula *f)
{
    size_t path = step(f);
    diamond(f, path, atom(f, 0));
}

/* Always, p implies eventually q. */
static void response(struct formula *f)
{
    size_t always = star(f, step(f)), asked = test(f, atom(f, 0)), on = star(f, step(f));
    size_t answered = diamond(f, on, atom(f, 1));
    box(f, always, box(f, asked, answered));
}

/* The elevator's path of source 004, which moves but for its last part: ((up? ; step)* ; serve? ; step)* ; (wait? ;
 * step)*. */
static void elevator(struct formula *f)
{
    size_t up = star(f, go(f, 0)), serve = go(f, 1), wait = star(f, go(f, 2));
    size_t rides = star(f, sequence(f, up, serve));
    size_t path = sequence(f, rides, wait), further = step(f);
    diamond(f, path, box(f, further, no(f)));
}

static struct work works[] = {
    {.name = "choice of 127 steps", .build = choice_of_steps},
    {.name = "choice of 84 tests", .build = choice_of_tests},
    {.name = "127 steps in a row", .build = steps_in_a_row},
    {.name = "long until", .build = long_until},
    {.name = "stars in stars", .build = stars_in_stars},
    {.name = "tests in tests", .build = tests_in_tests},
    {.name = "127 modalities", .build = modalities_in_a_row},
    {.name = "elevator", .build = elevator},
    {.name = "always p answered by q", .build = response},
    {.name = "p until q", .build = until},
    {.name = "p next", .build = next},
};

enum { WORKS = sizeof works / sizeof *works };

/* ---- the three */
enum { PLAIN, CHECKED, LIBRARY, CONTENDERS };

static pasturequill_counted translate(int contender, const struct formula *f, uint16_t *rules)
{
    if (contender == PLAIN)
        return (pasturequill_counted){.count = translate_plain(f->records, f->n, ATOMS, rules)};
    return (contender == LIBRARY ? pasturequill_translate : translate_checked)(f->records, size_of(f), ATOMS, rules,
                                                                               MOST_WORDS);
}

static void run(int contender, const void *work, size_t rounds)
{
    static uint16_t rules[MOST_WORDS];
    for (size_t i = 0; i < rounds; i++)
        translate(contender, work, rules);
}

static struct comparison comparison = {
    .service = "translate",
    .workload = "formula",
    .sizes = "records  rules",
    .contenders = CONTENDERS,
    .names = {"plain", "checked", "library"},
    .against = {"plain, checked input", "plain, same refusals"},
    .run = run,
};

/* ---- the same answers */
/* What the library gives for a formula; stops unless those from this contender on give and write the same. */
static pasturequill_counted translate_by_all(const char *name, const struct formula *f, int first)
{
    static uint16_t rules[CONTENDERS][MOST_WORDS];
    memset(rules, UINT8_MAX, sizeof rules);
    pasturequill_counted expected = translate(LIBRARY, f, rules[LIBRARY]);
    for (int c = first; c < LIBRARY; c++) {
        pasturequill_counted got = translate(c, f, rules[c]);
        if (got.refusal != expected.refusal || got.count != expected.count ||
            memcmp(rules[c], rules[LIBRARY], sizeof rules[c]) != 0) {
            fprintf(stderr, "%s: %s differs from the library: refusal %d, count %zu\n", name, comparison.names[c],
                    got.refusal, (size_t)got.count);
            exit(1);
        }
    }
    return expected;
}

/* Stops unless all three accept the formula and write the same words, and those that refuse say the same where bytes
 * are changed. */
static void agree(struct work *w)
{
    pasturequill_counted got = translate_by_all(w->name, &w->formula, PLAIN);
    if (got.refusal != PASTUREQUILL_ACCEPTED) {
        fprintf(stderr, "%s: refusal %d\n", w->name, got.refusal);
        exit(1);
    }
    w->rules = got.count;
    for (int change = 0; change < DAMAGES; change++) {
        struct formula f = w->formula;
        damage(&f);
        translate_by_all(w->name, &f, CHECKED);
    }
}

int main(void)
{
    seed = 37;
    for (size_t i = 0; i < WORKS; i++) {
        works[i].build(&works[i].formula);
        agree(&works[i]);
    }
    printf("\nTranslate: plain is a translator in C that takes checked input; checked is the same with all refusals;\n"
           "library is pasturequill_translate. The three agree on every word; those that refuse, for damaged records\n"
           "too.\n");
    begin_table(&comparison);
    for (size_t i = 0; i < WORKS; i++) {
        char sizes[16];
        snprintf(sizes, sizeof sizes, "%7zu %6zu", works[i].formula.n, works[i].rules);
        compare(&comparison, works[i].name, sizes, &works[i].formula, 1);
    }
    end_table(&comparison);
    return 0;
}
