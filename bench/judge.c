/* The plain judge, each sentence of the specification as a line or a loop; then its refusals. */
#include "judge.h"

#include "values.h"

static uint8_t literal(uint16_t word, size_t width, const uint8_t *cells, size_t k)
{
    size_t symbol = word % PREVIOUS;
    if (word & PREVIOUS)
        k--;
    uint8_t value = symbol == NO ? 0 : symbol == YES ? 2 : cells[k * width + symbol - COLUMN];
    if (word & NOT)
        value = value == 0 ? 2 : 0;
    return value;
}

static int has_instant(uint16_t place, size_t instants, size_t k)
{
    switch (place) {
    case FIRST:
        return k == 0;
    case LATER:
        return k > 0;
    case LAST:
        return k == instants - 1;
    default:
        return 1;
    }
}

static int holds(const uint16_t *rule, size_t width, const uint8_t *cells, size_t k)
{
    uint8_t body = smaller(literal(rule[1], width, cells, k), literal(rule[2], width, cells, k));
    uint8_t head = greater(literal(rule[3], width, cells, k), literal(rule[4], width, cells, k));
    head = greater(head, literal(rule[5], width, cells, k));
    return implies(body, head) == 2;
}

pasturequill_judged judge_plain(const uint16_t *rules, size_t n, size_t width, size_t instants, const uint8_t *cells)
{
    for (size_t i = 0; i < n; i++) {
        const uint16_t *rule = rules + RULE_SIZE * i;
        for (size_t k = 0; k < instants; k++)
            if (has_instant(rule[0], instants, k) && !holds(rule, width, cells, k))
                return (pasturequill_judged){.rule = i, .instant = k};
    }
    return (pasturequill_judged){.holds = 1};
}

static uint8_t refusal(const uint16_t *rules, size_t rules_size, uint64_t width, uint64_t instants,
                       const uint8_t *cells, size_t cells_size)
{
    if (is_wrong_size(width, instants, cells_size))
        return PASTUREQUILL_WRONG_SIZE;
    if (is_wrong_length(rules_size))
        return PASTUREQUILL_WRONG_RULES;
    for (size_t at = 0; at < rules_size; at += RULE_SIZE) {
        const uint16_t *rule = rules + at;
        if (rule[0] > LAST)
            return PASTUREQUILL_WRONG_RULES;
        for (size_t j = 1; j < RULE_SIZE; j++)
            if (rule[j] % PREVIOUS >= COLUMN + width || ((rule[j] & PREVIOUS) && rule[0] != LATER))
                return PASTUREQUILL_WRONG_RULES;
    }
    for (size_t at = 0; at < cells_size; at++)
        if (cells[at] > 2)
            return PASTUREQUILL_WRONG_CELL;
    return 0;
}

pasturequill_judged judge_checked(const uint16_t *rules, size_t rules_size, uint64_t width, uint64_t instants,
                                  const uint8_t *cells, size_t cells_size)
{
    uint8_t number = refusal(rules, rules_size, width, instants, cells, cells_size);
    if (number != 0)
        return (pasturequill_judged){.refusal = number};
    return judge_plain(rules, rules_size / RULE_SIZE, (size_t)width, (size_t)instants, cells);
}
