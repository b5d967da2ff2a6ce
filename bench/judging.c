/* The time of one call of pasturequill_judge, beside that of a plain judge in C without and with the refusals and of
 * one by bits with the refusals: all in one run and in turn. All rules hold, so that every rule is looked at
 * everywhere. */
#include <stdio.h>
#include <stdlib.h>

#include "comparison.h"
#include "filled.h"
#include "judge.h"
#include "random.h"

/* The most of each. */
enum {
    RULES = PASTUREQUILL_MOST_RULES,
    COLUMNS = PASTUREQUILL_MOST_COLUMNS,
    INSTANTS = PASTUREQUILL_MOST_INSTANTS,
};

static struct work {
    const char *name;
    struct filled filled;
} works[] = {
    {"most, all places", {.rules = RULES, .width = COLUMNS, .instants = INSTANTS}},
    {"most, every instant", {.rules = RULES, .width = COLUMNS, .instants = INSTANTS, .everywhere = 1}},
    {"35 columns, all places", {.rules = RULES, .width = 35, .instants = INSTANTS}},
    {"35 columns, every instant", {.rules = RULES, .width = 35, .instants = INSTANTS, .everywhere = 1}},
    {"8 columns, all places", {.rules = RULES, .width = 8, .instants = INSTANTS}},
    {"8 columns, every instant", {.rules = RULES, .width = 8, .instants = INSTANTS, .everywhere = 1}},
    {"middling", {.rules = 64, .width = 35, .instants = 16}},
    {"small", {.rules = 8, .width = 4, .instants = 4}},
};

enum { WORKS = sizeof works / sizeof *works };

/* ---- the four */
enum { PLAIN, CHECKED, BITS, LIBRARY, CONTENDERS };

static judge *const judges[CONTENDERS] = {
    [CHECKED] = judge_checked, [BITS] = judge_bits, [LIBRARY] = pasturequill_judge};

static pasturequill_judged judge_by(int contender, const struct filled *f)
{
    if (contender == PLAIN)
        return judge_plain(f->words, f->rules, f->width, f->instants, f->cells);
    return judges[contender](f->words, RULE_SIZE * f->rules, f->width, f->instants, f->cells, f->width * f->instants);
}

static void run(int contender, const void *work, size_t rounds)
{
    for (size_t i = 0; i < rounds; i++)
        judge_by(contender, work);
}

static struct comparison comparison = {
    .service = "judge",
    .workload = "rules",
    .sizes = "number   W   L",
    .contenders = CONTENDERS,
    .names = {"plain", "checked", "bits", "library"},
    .against = {"plain loops, checked input", "plain loops, same refusals", "bits, same refusals"},
    .run = run,
};

/* ---- the same answers */
static int same(pasturequill_judged x, pasturequill_judged y)
{
    return x.refusal == y.refusal && x.holds == y.holds && x.rule == y.rule && x.instant == y.instant;
}

/* What the library says; stops unless all from this contender on say so too. */
static pasturequill_judged judge_by_all(const struct work *w, int first)
{
    pasturequill_judged expected = judge_by(LIBRARY, &w->filled);
    for (int c = first; c < LIBRARY; c++)
        if (!same(judge_by(c, &w->filled), expected)) {
            fprintf(stderr, "%s: %s differs from the library\n", w->name, comparison.names[c]);
            exit(1);
        }
    return expected;
}

/* All must say the same wherever one cell has another value; those that refuse, also where it is none. Gives how many
 * rules failed. */
static size_t agree_on_cells(struct work *w)
{
    size_t failures = 0;
    for (size_t at = 0; at < w->filled.width * w->filled.instants; at++) {
        uint8_t *cell = &w->filled.cells[at], kept = *cell;
        *cell = (uint8_t)((kept + 1 + below(2)) % 3);
        failures += !judge_by_all(w, PLAIN).holds;
        *cell = (uint8_t)(3 + below(UINT8_MAX - 2));
        judge_by_all(w, CHECKED);
        *cell = kept;
    }
    return failures;
}

/* Those that refuse must say the same wherever one word is another. Gives how many were refused. */
static size_t agree_on_words(struct work *w)
{
    size_t refusals = 0;
    for (size_t at = 0; at < RULE_SIZE * w->filled.rules; at++) {
        uint16_t *word = &w->filled.words[at], kept = *word;
        *word = (uint16_t)(below(4) * PREVIOUS + below(COLUMN + w->filled.width + 1));
        refusals += judge_by_all(w, CHECKED).refusal != 0;
        *word = kept;
    }
    return refusals;
}

/* Stops unless all say yes, and say the same where something is changed. */
static void agree(struct work *w)
{
    if (!judge_by_all(w, PLAIN).holds || agree_on_cells(w) == 0 || agree_on_words(w) == 0) {
        fprintf(stderr, "%s: not a yes, or no change makes a rule fail, or none is refused\n", w->name);
        exit(1);
    }
}

int main(void)
{
    seed = 19;
    for (size_t i = 0; i < WORKS; i++) {
        fill(&works[i].filled);
        agree(&works[i]);
    }
    printf("\nJudge: plain is a judge in C that takes checked input; checked is the same with all refusals; bits\n"
           "takes all instants of a rule at once, with all refusals; library is pasturequill_judge. The four agree;\n"
           "those that refuse, for damaged input too.\n");
    begin_table(&comparison);
    for (size_t i = 0; i < WORKS; i++) {
        const struct filled *f = &works[i].filled;
        char sizes[32];
        snprintf(sizes, sizeof sizes, "%6zu %3zu %3zu", f->rules, f->width, f->instants);
        compare(&comparison, works[i].name, sizes, f, 1);
    }
    end_table(&comparison);
    return 0;
}
