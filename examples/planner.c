/* A planner's inner loop: which candidate plans keep the rule that a site sent, and how does a solver find that out?
 *
 * The rule is "carries until delivered": the robot carries the shelf at each instant before one at which it is
 * delivered. It comes in three records, with a shorthand; expanded once, it is what the other services take. A plan has
 * a row of two cells for each instant: 0 false, 1 assumed only, 2 proved. The rule's value at the first instant says
 * whether the plan keeps it: 2 yes, 1 only as far as its assumptions go, 0 no. A solver works with the translation
 * instead: it fills the labels by the rules, and the judge says whether all rules hold. */
#include <inttypes.h>
#include <string.h>

#include "decoded.h"

enum { CARRIES, DELIVERED, ATOMS, INSTANTS = 4 };

static const struct names names = {(const char *const[]){"carries", "delivered"}, ATOMS};

/* The rest of each record is zero. */
static const uint8_t sent[][PASTUREQUILL_RECORD_SIZE] = {
    {PASTUREQUILL_ATOM, 0, CARRIES},   /* 0 */
    {PASTUREQUILL_ATOM, 0, DELIVERED}, /* 1 */
    {PASTUREQUILL_UNTIL, 0, 0, 0, 1},  /* 2: carries until delivered */
};

static const struct plan {
    const char *name;
    uint8_t cells[INSTANTS][ATOMS];
} plans[] = {
    {"carries it all the way", {{2, 0}, {2, 0}, {2, 0}, {0, 2}}},
    {"delivered at once", {{0, 2}, {0, 0}, {0, 0}, {0, 0}}},
    {"a relay that may not come", {{2, 0}, {1, 0}, {2, 0}, {0, 2}}},
    {"sets it down on the way", {{2, 0}, {0, 0}, {2, 0}, {0, 2}}},
    {"picked up, never delivered", {{2, 0}, {2, 0}, {2, 0}, {2, 0}}},
    {"a cell that is no value", {{2, 0}, {3, 0}, {2, 0}, {0, 2}}},
};

/* The one of them whose label is forged. */
enum { FORGED = 3 };

/* The rule in core records, and its translation. */
static uint8_t core[PASTUREQUILL_MOST_RECORD_BYTES];
static uint16_t rules[PASTUREQUILL_MOST_RULE_WORDS];
static size_t record_count, core_size, rule_count;

/* ---- the solver's part: filling the labels, which are the columns after the atoms */
enum { FIRST_LABEL = PASTUREQUILL_SYMBOL_COLUMN + ATOMS };

static uint8_t filled[INSTANTS][PASTUREQUILL_MOST_COLUMNS];

static int is_at(uint16_t place, size_t k)
{
    return place == PASTUREQUILL_AT_EVERY || (place == PASTUREQUILL_AT_FIRST && k == 0) ||
           (place == PASTUREQUILL_AT_LATER && k > 0) || (place == PASTUREQUILL_AT_LAST && k + 1 == INSTANTS);
}

/* The cell of a literal at instant k, which is no constant. */
static uint8_t *cell(uint16_t word, size_t k)
{
    size_t instant = word & PASTUREQUILL_MARK_PREVIOUS ? k - 1 : k;
    return &filled[instant][word % PASTUREQUILL_MARK_PREVIOUS - PASTUREQUILL_SYMBOL_COLUMN];
}

static uint8_t literal(uint16_t word, size_t k)
{
    return word == PASTUREQUILL_SYMBOL_FALSE ? 0 : word == PASTUREQUILL_SYMBOL_TRUE ? 2 : *cell(word, k);
}

/* Raises the label that a rule leads to, if it is one alone, to what its body is worth; tells whether it changed. */
static int raise_head(const uint16_t *words, size_t k)
{
    int one_label = words[3] % PASTUREQUILL_MARK_PREVIOUS >= FIRST_LABEL && words[4] == PASTUREQUILL_SYMBOL_FALSE;
    if (!one_label || !is_at(words[0], k))
        return 0;
    uint8_t a = literal(words[1], k), b = literal(words[2], k), least = a < b ? a : b, *head = cell(words[3], k);
    int more = *head < least;
    if (more)
        *head = least;
    return more;
}

/* The labels by all rules but the last, which asserts the whole: raised from 0 until nothing changes. A formula of
 * diamonds has no negated literals, so this ends, and it ends in the one filling that these rules have. */
static void fill(const struct plan *plan)
{
    memset(filled, 0, sizeof filled);
    for (size_t k = 0; k < INSTANTS; k++)
        memcpy(filled[k], plan->cells[k], ATOMS);
    for (int changed = 1; changed;) {
        changed = 0;
        for (size_t i = 0; i + 1 < rule_count; i++)
            for (size_t k = 0; k < INSTANTS; k++)
                changed |= raise_head(rules + i * PASTUREQUILL_RULE_SIZE, k);
    }
}

static pasturequill_judged judge(void)
{
    uint8_t cells[INSTANTS * PASTUREQUILL_MOST_COLUMNS];
    size_t width = ATOMS + record_count;
    for (size_t k = 0; k < INSTANTS; k++)
        memcpy(cells + k * width, filled[k], width);
    return pasturequill_judge(rules, rule_count * PASTUREQUILL_RULE_SIZE, width, INSTANTS, cells, width * INSTANTS);
}

/* ---- one plan: its row of the table; tells whether valuing and judging agree */
static int try_plan(const struct plan *plan)
{
    uint8_t table[PASTUREQUILL_MOST_RECORDS * INSTANTS];
    pasturequill_valued v = pasturequill_value(core, core_size, ATOMS, INSTANTS, plan->cells[0], sizeof plan->cells,
                                               table, sizeof table);
    printf("  %-28s", plan->name);
    for (size_t i = 0; i < ATOMS; i++)
        printf("%d %d %d %d    ", plan->cells[0][i], plan->cells[1][i], plan->cells[2][i], plan->cells[3][i]);
    if (v.refusal != PASTUREQUILL_ACCEPTED) {
        printf("refused: %s\n", refusal_name(v.refusal));
        return 1;
    }
    const uint8_t *values = table + (record_count - 1) * INSTANTS;
    printf("%d %d %d %d    ", values[0], values[1], values[2], values[3]);
    fill(plan);
    pasturequill_judged j = judge();
    if (j.holds)
        printf("yes\n");
    else
        printf("no, rule %" PRIu64 " fails at instant %" PRIu64 "\n", j.rule, j.instant);
    return j.holds == (v.value == 2);
}

/* A label that is not what it should be: that of the whole formula is raised at the first instant, so that the last
 * rule holds. Tells whether the judge finds another rule that fails. */
static int forge(const struct plan *plan)
{
    size_t whole = record_count - 1;
    fill(plan);
    printf("\nA forged label. To let \"%s\" pass, x%zu is raised from %d to 2 at instant 0, so that rule %zu\n"
           "holds. But now the judge finds that another rule fails at instant ",
           plan->name, whole, filled[0][ATOMS + whole], rule_count - 1);
    filled[0][ATOMS + whole] = 2;
    pasturequill_judged j = judge();
    printf("%" PRIu64 ":\n", j.instant);
    print_rule(rules, (size_t)j.rule, names);
    return !j.holds && j.rule + 1 < rule_count;
}

/* Expands and translates the rule; tells whether it was accepted. */
static int read_rule(void)
{
    pasturequill_counted expanded = pasturequill_expand(sent[0], sizeof sent, ATOMS, core, sizeof core);
    record_count = (size_t)expanded.count;
    core_size = record_count * PASTUREQUILL_RECORD_SIZE;
    pasturequill_counted translated =
        pasturequill_translate(core, core_size, ATOMS, rules, PASTUREQUILL_MOST_RULE_WORDS);
    rule_count = (size_t)translated.count;
    uint8_t refusal = expanded.refusal != PASTUREQUILL_ACCEPTED ? expanded.refusal : translated.refusal;
    if (refusal != PASTUREQUILL_ACCEPTED)
        printf("refused: %s\n", refusal_name(refusal));
    return refusal == PASTUREQUILL_ACCEPTED;
}

int main(void)
{
    if (!read_rule())
        return 1;
    printf("The rule: carries until delivered. The robot carries the shelf at each instant before one at which it is\n"
           "delivered. The rule comes in %zu records and has %zu when it is expanded, each with a label. F? stays\n"
           "where F holds, step goes on by an instant, P ; Q is one path after the other, P* a path any number of\n"
           "times, and <P>F holds where some way along P leads to F:\n",
           sizeof sent / sizeof *sent, record_count);
    for (size_t r = 0; r < record_count; r++) {
        printf("  x%zu  ", r);
        print_record(core, r, names);
        printf("\n");
    }

    printf("\nPlans of %d instants. Cells and values: 0 false, 1 assumed only, 2 proved. A plan keeps the rule if the\n"
           "rule's value is 2 at the first instant. A solver finds that out by the %zu rules of the translation: all\n"
           "of them hold, once it has filled the labels by them.\n",
           INSTANTS, rule_count);
    printf("  %-28s%-11s%-11s%-11s%s\n", "plan", "carries", "delivered", "value", "all rules hold");
    int fine = 1;
    for (size_t i = 0; i < sizeof plans / sizeof *plans; i++)
        fine &= try_plan(&plans[i]);
    fine &= forge(&plans[FORGED]);

    printf("\nAll rules: the six words of each, where it is to hold, and what it says. It holds where the least value\n"
           "left of the arrow is no more than the greatest right of it; prev is a value one instant earlier.\n");
    for (size_t i = 0; i < rule_count; i++)
        print_rule(rules, i, names);
    return !fine;
}
