/* The judge by bits: what a literal is worth at all 32 instants is one number of 64 bits, whose low half tells where
 * the value is 2 and whose high half where it is at least 1. A rule is then an and of two of them and an or of three,
 * and fails where the one has a bit and the other has not. */
#include "judge.h"

#include <string.h>

enum { MOST_INSTANTS = PASTUREQUILL_MOST_INSTANTS, MOST_SYMBOLS = COLUMN + PASTUREQUILL_MOST_COLUMNS, HALF = 32 };

/* A word's two marks stand above its symbol; turned round, they stand below, and the word is a place in a table of
 * literals. */
enum { WORD = 16, MARKS = 2, MARKED = 1 << MARKS, OF_PREVIOUS = 1, OF_NOT = 2 };

static inline size_t place_of(uint16_t word) { return (uint16_t)(word << MARKS | word >> (WORD - MARKS)); }

/* ---- literals */
/* The bits of a byte. */
enum { BYTE = 8 };

/* The same bits in both halves. */
static inline uint64_t twice(uint32_t bits) { return (uint64_t)bits << HALF | bits; }

/* What was so at the previous instant. What comes over from one half to the other is about the first instant, which a
 * literal of the previous one is never asked for. */
static inline uint64_t later(uint64_t values) { return values << 1; }

/* The four literals of a symbol. */
static inline void put_literals(uint64_t *to, uint64_t values)
{
    uint64_t negated = twice(~(uint32_t)(values >> HALF));
    to[0] = values;
    to[OF_PREVIOUS] = later(values);
    to[OF_NOT] = negated;
    to[OF_NOT + OF_PREVIOUS] = later(negated);
}

/* Up to eight instants of all columns, a bit for each instant, from the last one on. Gives the greatest cell; where
 * that is over 2, the bits mean nothing. It is written so that the compiler makes vector instructions of the inner
 * loop. */
static uint8_t read_eight(const uint8_t *cells, size_t width, size_t instants, uint8_t *restrict some,
                          uint8_t *restrict full)
{
    uint8_t most = 0;
    memset(some, 0, width);
    memset(full, 0, width);
    for (size_t k = instants; k-- > 0;)
        for (size_t c = 0; c < width; c++) {
            uint8_t u = cells[k * width + c], not_none = u < 1 ? u : 1;
            some[c] = (uint8_t)(2 * some[c] + not_none);
            full[c] = (uint8_t)(2 * full[c] + (u - not_none));
            most = u > most ? u : most;
        }
    return most;
}

/* The literals of all symbols. Gives the greatest cell. */
static uint8_t read_cells(const uint8_t *cells, size_t width, size_t instants, uint64_t *literals)
{
    uint8_t some[MOST_INSTANTS / BYTE][MOST_SYMBOLS], full[MOST_INSTANTS / BYTE][MOST_SYMBOLS], most = 0;
    for (size_t i = 0; BYTE * i < instants; i++) {
        size_t left = instants - BYTE * i;
        uint8_t found = read_eight(cells + BYTE * i * width, width, left < BYTE ? left : BYTE, some[i], full[i]);
        most = found > most ? found : most;
    }
    put_literals(literals + MARKED * NO, 0);
    put_literals(literals + MARKED * YES, UINT64_MAX);
    for (size_t c = 0; c < width; c++) {
        uint64_t values = 0;
        for (size_t i = 0; BYTE * i < instants; i++)
            values |= (uint64_t)some[i][c] << (HALF + BYTE * i) | (uint64_t)full[i][c] << BYTE * i;
        put_literals(literals + MARKED * (COLUMN + c), values);
    }
    return most;
}

/* ---- rules */
/* Whether the place is none, or a word is no literal, or is one of the previous instant where there may be none. */
static inline int is_bad(const uint16_t *rule, const size_t *places, size_t most)
{
    size_t marks = 0;
    int beyond = rule[0] > LAST;
    for (size_t j = 0; j < RULE_SIZE - 1; j++) {
        marks |= places[j];
        beyond |= places[j] >= most;
    }
    return beyond | ((marks & OF_PREVIOUS) != 0 && rule[0] != LATER);
}

/* The instants at which a rule fails, of those in its place. */
static inline uint32_t failures(const uint64_t *literals, const size_t *places, uint32_t instants)
{
    uint64_t body = literals[places[0]] & literals[places[1]];
    uint64_t head = literals[places[2]] | literals[places[3]] | literals[places[4]];
    uint64_t fails = body & ~head;
    return (uint32_t)(fails | fails >> HALF) & instants;
}

/* All rules are looked at for their form; of those that fail, the first counts. */
static pasturequill_judged judge_rules(const uint16_t *rules, size_t n, size_t width, size_t instants,
                                       const uint64_t *literals)
{
    uint32_t all = UINT32_MAX >> (MOST_INSTANTS - instants), last = UINT32_C(1) << (instants - 1);
    const uint32_t instants_of[] = {[EVERY] = all, [FIRST] = 1, [LATER] = all - 1, [LAST] = last};
    pasturequill_judged found = {.holds = 1};
    for (size_t i = 0; i < n; i++) {
        const uint16_t *rule = rules + RULE_SIZE * i;
        size_t places[RULE_SIZE - 1];
        for (size_t j = 0; j < RULE_SIZE - 1; j++)
            places[j] = place_of(rule[j + 1]);
        if (is_bad(rule, places, MARKED * (COLUMN + width)))
            return (pasturequill_judged){.refusal = PASTUREQUILL_WRONG_RULES};
        uint32_t fails = failures(literals, places, instants_of[rule[0]]);
        if (fails != 0 && found.holds)
            found = (pasturequill_judged){.rule = i, .instant = (uint64_t)__builtin_ctz(fails)};
    }
    return found;
}

pasturequill_judged judge_bits(const uint16_t *rules, size_t rules_size, uint64_t width, uint64_t instants,
                               const uint8_t *cells, size_t cells_size)
{
    if (is_wrong_size(width, instants, cells_size))
        return (pasturequill_judged){.refusal = PASTUREQUILL_WRONG_SIZE};
    if (is_wrong_length(rules_size))
        return (pasturequill_judged){.refusal = PASTUREQUILL_WRONG_RULES};
    uint64_t literals[MARKED * MOST_SYMBOLS];
    uint8_t most = read_cells(cells, (size_t)width, (size_t)instants, literals);
    pasturequill_judged found = judge_rules(rules, rules_size / RULE_SIZE, (size_t)width, (size_t)instants, literals);
    return found.refusal == 0 && most > 2 ? (pasturequill_judged){.refusal = PASTUREQUILL_WRONG_CELL} : found;
}
