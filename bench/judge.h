/* Judges in C that the library's time is measured against. */
#ifndef JUDGE_H
#define JUDGE_H

#include "rules.h"

/* Rules by a loop, instants by a loop, words taken apart where they are read. Takes what pasturequill_judge accepts and
 * refuses nothing; `rules` has n times six words. */
pasturequill_judged judge_plain(const uint16_t *rules, size_t n, size_t width, size_t instants, const uint8_t *cells);

/* As pasturequill_judge, for any input. */
typedef pasturequill_judged judge(const uint16_t *rules, size_t rules_size, uint64_t width, uint64_t instants,
                                  const uint8_t *cells, size_t cells_size);

/* The plain one after all refusals. */
judge judge_checked;

/* All instants of a rule at once, by masks: the fastest that we know. */
judge judge_bits;

/* ---- what these two ask of the sizes */
static inline int is_wrong_size(uint64_t width, uint64_t instants, size_t cells_size)
{
    return width > PASTUREQUILL_MOST_COLUMNS || instants < 1 || instants > PASTUREQUILL_MOST_INSTANTS ||
           cells_size != width * instants;
}

static inline int is_wrong_length(size_t rules_size)
{
    return rules_size % RULE_SIZE != 0 || rules_size > MOST_WORDS;
}

#endif
