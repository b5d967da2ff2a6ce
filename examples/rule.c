/* Rules that modellers keep as text: each is read, valued over two plans, translated, and written back.
 *
 * p0 is "asked", p1 "answered". The first rule says that at every instant, if the robot is asked, it answers then or
 * later; the second that it is asked until it answers. The third has a blank, and so is refused. */
#include <inttypes.h>
#include <stdio.h>
#include <string.h>

#include "pasturequill.h"

enum { ASKED, ANSWERED, ATOMS, INSTANTS = 4 };

static const char *const rules[] = {"(*&t.>*(?p0.>*(*&t.>?p1)))", "(*(?p0;&t).>?p1)", "(*&t.>* p0)"};

/* A row for each instant: 0 false, 1 assumed only, 2 proved. */
static const struct plan {
    const char *name;
    uint8_t cells[INSTANTS][ATOMS];
} plans[] = {
    {"answered at the end", {{2, 0}, {2, 0}, {2, 0}, {0, 2}}},
    {"answered, and asked again", {{2, 0}, {0, 2}, {0, 0}, {2, 0}}},
};

static void print_value(const uint8_t *records, size_t size, const struct plan *plan)
{
    static const char *const words[] = {"broken", "kept as far as is assumed", "kept"};
    uint8_t table[PASTUREQUILL_MOST_RECORDS * INSTANTS];
    pasturequill_valued v = pasturequill_value(records, size, ATOMS, INSTANTS, plan->cells[0], sizeof plan->cells,
                                               table, sizeof table);
    if (v.refusal == PASTUREQUILL_ACCEPTED)
        printf("  %s: %s\n", plan->name, words[v.value]);
    else
        printf("  %s: refused, %d\n", plan->name, v.refusal);
}

static void print_translation(const uint8_t *records, size_t size)
{
    static uint16_t words[PASTUREQUILL_MOST_RULE_WORDS];
    pasturequill_counted c = pasturequill_translate(records, size, ATOMS, words, PASTUREQUILL_MOST_RULE_WORDS);
    printf("  for a solver: refusal %d, %" PRIu64 " rules\n", c.refusal, c.count);
}

static void print_text(const uint8_t *records, size_t size)
{
    uint8_t text[PASTUREQUILL_MOST_TEXT];
    pasturequill_counted c = pasturequill_write_text(records, size, ATOMS, text, sizeof text);
    printf("  written back: refusal %d, %.*s\n", c.refusal, (int)c.count, (const char *)text);
}

static void try_rule(const char *rule)
{
    uint8_t records[PASTUREQUILL_MOST_RECORD_BYTES];
    pasturequill_counted c =
        pasturequill_read_text((const uint8_t *)rule, strlen(rule), ATOMS, records, sizeof records);
    size_t size = (size_t)c.count * PASTUREQUILL_RECORD_SIZE;
    printf("%s\n", rule);
    if (c.refusal != PASTUREQUILL_ACCEPTED) {
        printf("  refused: %d\n", c.refusal);
        return;
    }
    printf("  %" PRIu64 " records\n", c.count);
    for (size_t i = 0; i < sizeof plans / sizeof *plans; i++)
        print_value(records, size, &plans[i]);
    print_translation(records, size);
    print_text(records, size);
}

int main(void)
{
    for (size_t i = 0; i < sizeof rules / sizeof *rules; i++)
        try_rule(rules[i]);
    return 0;
}
