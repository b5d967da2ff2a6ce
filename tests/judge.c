/* pasturequill_judge over a table of cases, over every rule of a few literals, and around the greatest sizes. But for
 * those rules, each input is at both edges of memory that may not be touched, and in memory that may only be read. */
#define TEST_NAME "judge"

#include "guarded.h"
#include "rules.h"
#include "tables.h"

enum {
    MOST_RULES = PASTUREQUILL_MOST_RULES,
    MOST_WIDTH = PASTUREQUILL_MOST_COLUMNS,
    MOST_INSTANTS = PASTUREQUILL_MOST_INSTANTS,
    MOST_CELLS = MOST_WIDTH * MOST_INSTANTS
};

/* The first three columns. */
enum { P = COLUMN, Q, R };

/* ---- the call */
static void compare(const char *reason, pasturequill_judged got, pasturequill_judged expected)
{
    count(got.refusal == expected.refusal, reason, "refusal", got.refusal, expected.refusal);
    count(got.holds == expected.holds, reason, "holds", got.holds, expected.holds);
    count(got.rule == expected.rule, reason, "rule", got.rule, expected.rule);
    count(got.instant == expected.instant, reason, "instant", got.instant, expected.instant);
}

static void expect(const char *reason, struct words rules, uint64_t width, uint64_t instants, struct bytes cells,
                   pasturequill_judged expected)
{
    for (int edge = GUARDED_AT_END; edge <= GUARDED_AT_START; edge++) {
        const uint8_t *words = guarded((const uint8_t *)rules.at, sizeof(uint16_t) * rules.size, edge);
        compare(reason,
                pasturequill_judge((const uint16_t *)(const void *)words, rules.size, width, instants,
                                   guarded(cells.at, cells.size, edge), cells.size),
                expected);
        guarded_release();
    }
}

static pasturequill_judged refused(uint8_t refusal) { return (pasturequill_judged){.refusal = refusal}; }
static pasturequill_judged yes(void) { return (pasturequill_judged){.holds = 1}; }
static pasturequill_judged no(uint64_t rule, uint64_t instant)
{
    return (pasturequill_judged){.rule = rule, .instant = instant};
}

/* ---- tables of cases */
#define ALL_HOLD {.holds = 1}
#define FAILS(i, k) {.rule = i, .instant = k}
#define REFUSED(name) {.refusal = PASTUREQUILL_##name}
#define RULE(place, body, head) WORDS(ARROW(place, body, head))
#define HOLDING RULE(EVERY, NO, NO)
#define FAILING RULE(EVERY, YES, NO)

/* The translation of "p next" over 32 atoms, with the labels of step, atom and diamond. */
enum { ON = COLUMN + 32, ATOM, WHOLE };
#define NEXT                                                                                                    \
    WORDS(SAME(LATER, PREVIOUS + ON, ATOM), ARROW(LAST, ON, NO), SAME(EVERY, ATOM, P), SAME(EVERY, WHOLE, ON), \
          ARROW(FIRST, YES, WHOLE))
/* Two rows of these 35 columns: p and the three labels; the other atoms are 0. */
#define NEXT_ROWS(p0, step0, atom0, diamond0, p1, step1, atom1, diamond1) \
    BYTES([0] = p0, [32] = step0, [33] = atom0, [34] = diamond0, [35] = p1, [67] = step1, [68] = atom1, [69] = diamond1)

/* p, q and r are columns 0, 1 and 2. Cells are rows: the columns at instant 0, then those at instant 1. */
static const struct judged {
    const char *reason;
    pasturequill_judged expected;
    uint64_t width, instants;
    struct words rules;
    struct bytes cells;
} judged[] = {
    /* no rules */
    {"no rules, no columns", ALL_HOLD, 0, 1, NONE, NONE},
    {"no rules, no columns, 32 instants", ALL_HOLD, 0, 32, NONE, NONE},
    {"no rules, two columns", ALL_HOLD, 2, 2, NONE, BYTES(0, 1, 2, 0)},

    /* no columns: the constants */
    {"true is true", ALL_HOLD, 0, 1, RULE(EVERY, YES, YES), NONE},
    {"false implies false", ALL_HOLD, 0, 1, RULE(EVERY, NO, NO), NONE},
    {"true does not imply false: rule 0, instant 0, and not a yes", FAILS(0, 0), 0, 1, RULE(EVERY, YES, NO), NONE},
    {"not false is true", ALL_HOLD, 0, 1, RULE(EVERY, YES, NOT + NO), NONE},
    {"not true is false", FAILS(0, 0), 0, 1, RULE(EVERY, YES, NOT + YES), NONE},
    {"all words 0 hold", ALL_HOLD, 0, 2, WORDS(0, 0, 0, 0, 0, 0), NONE},
    {"32 instants of constants", ALL_HOLD, 0, 32, RULE(LATER, PREVIOUS + YES, YES), NONE},

    /* one rule at one instant: an implication is worth 2 if and only if its body is worth no more than its head */
    {"0 implies 0", ALL_HOLD, 2, 1, RULE(EVERY, P, Q), BYTES(0, 0)},
    {"0 implies 1", ALL_HOLD, 2, 1, RULE(EVERY, P, Q), BYTES(0, 1)},
    {"0 implies 2", ALL_HOLD, 2, 1, RULE(EVERY, P, Q), BYTES(0, 2)},
    {"1 does not imply 0", FAILS(0, 0), 2, 1, RULE(EVERY, P, Q), BYTES(1, 0)},
    {"1 implies 1", ALL_HOLD, 2, 1, RULE(EVERY, P, Q), BYTES(1, 1)},
    {"1 implies 2", ALL_HOLD, 2, 1, RULE(EVERY, P, Q), BYTES(1, 2)},
    {"2 does not imply 0", FAILS(0, 0), 2, 1, RULE(EVERY, P, Q), BYTES(2, 0)},
    {"2 implies 1 only in part, which is not enough", FAILS(0, 0), 2, 1, RULE(EVERY, P, Q), BYTES(2, 1)},
    {"2 implies 2", ALL_HOLD, 2, 1, RULE(EVERY, P, Q), BYTES(2, 2)},

    /* negation */
    {"not 0 is 2", ALL_HOLD, 1, 1, RULE(EVERY, YES, NOT + P), BYTES(0)},
    {"not 1 is 0", FAILS(0, 0), 1, 1, RULE(EVERY, YES, NOT + P), BYTES(1)},
    {"not 1 is 0 in a body", ALL_HOLD, 1, 1, RULE(EVERY, NOT + P, NO), BYTES(1)},
    {"not 2 is 0", FAILS(0, 0), 1, 1, RULE(EVERY, YES, NOT + P), BYTES(2)},
    {"not 0 in a body is due", FAILS(0, 0), 2, 1, RULE(EVERY, NOT + P, Q), BYTES(0, 1)},
    {"x, a or not c, all 1: less than due", FAILS(0, 0), 3, 1, WORDS(EVERY, YES, YES, P, Q, NOT + R), BYTES(1, 1, 1)},
    {"x, a or not c, c false", ALL_HOLD, 3, 1, WORDS(EVERY, YES, YES, P, Q, NOT + R), BYTES(1, 1, 0)},

    /* every word is looked at, also those that a rule need not use */
    {"the least of a body, in its first word", ALL_HOLD, 3, 1, WORDS(EVERY, P, Q, R, NO, NO), BYTES(1, 2, 1)},
    {"the least of a body, in its second word", ALL_HOLD, 3, 1, WORDS(EVERY, P, Q, R, NO, NO), BYTES(2, 1, 1)},
    {"the least of a body is more than the head", FAILS(0, 0), 3, 1, WORDS(EVERY, P, Q, R, NO, NO), BYTES(2, 2, 1)},
    {"false in a body's second word", ALL_HOLD, 1, 1, WORDS(EVERY, YES, NO, P, NO, NO), BYTES(0)},
    {"false in a body's first word", ALL_HOLD, 1, 1, WORDS(EVERY, NO, YES, P, NO, NO), BYTES(0)},
    {"the greatest of a head, in its first word", ALL_HOLD, 3, 1, WORDS(EVERY, YES, YES, P, Q, R), BYTES(2, 0, 1)},
    {"the greatest of a head, in its second word", ALL_HOLD, 3, 1, WORDS(EVERY, YES, YES, P, Q, R), BYTES(0, 2, 1)},
    {"the greatest of a head, in its third word", ALL_HOLD, 3, 1, WORDS(EVERY, YES, YES, P, Q, R), BYTES(1, 0, 2)},
    {"the greatest of a head is too little", FAILS(0, 0), 3, 1, WORDS(EVERY, YES, YES, P, Q, R), BYTES(1, 1, 0)},
    {"true in a head's last word", ALL_HOLD, 0, 1, WORDS(EVERY, YES, YES, NO, NO, YES), NONE},
    {"a column after two false words of a head", FAILS(0, 1), 1, 2, WORDS(EVERY, YES, YES, NO, NO, P), BYTES(2, 1)},

    /* places */
    {"the first instant alone", FAILS(0, 0), 1, 3, RULE(FIRST, YES, P), BYTES(0, 2, 2)},
    {"not at the first instant", ALL_HOLD, 1, 3, RULE(FIRST, YES, P), BYTES(2, 0, 0)},
    {"all but the first", FAILS(0, 1), 1, 3, RULE(LATER, YES, P), BYTES(2, 0, 2)},
    {"all but the first, where only the first fails", ALL_HOLD, 1, 3, RULE(LATER, YES, P), BYTES(0, 2, 2)},
    {"the last instant alone", FAILS(0, 2), 1, 3, RULE(LAST, YES, P), BYTES(2, 2, 0)},
    {"not at the last instant", ALL_HOLD, 1, 3, RULE(LAST, YES, P), BYTES(0, 0, 2)},
    {"one instant: all but the first are none", ALL_HOLD, 0, 1, RULE(LATER, YES, NO), NONE},
    {"one instant: it is the first", FAILS(0, 0), 0, 1, RULE(FIRST, YES, NO), NONE},
    {"one instant: it is the last", FAILS(0, 0), 0, 1, RULE(LAST, YES, NO), NONE},
    {"one instant: the rule after one without instants", FAILS(1, 0), 0, 1,
     WORDS(ARROW(LATER, YES, NO), ARROW(LAST, YES, NO)), NONE},

    /* the previous instant */
    {"what p was, q is", ALL_HOLD, 2, 3, RULE(LATER, PREVIOUS + P, Q), BYTES(1, 0, 2, 1, 2, 2)},
    {"what p was, q is not at last", FAILS(0, 2), 2, 3, RULE(LATER, PREVIOUS + P, Q), BYTES(1, 0, 2, 1, 2, 1)},
    {"what q is, p was", FAILS(0, 1), 2, 3, RULE(LATER, Q, PREVIOUS + P), BYTES(0, 0, 2, 1, 2, 2)},
    {"what p is at the last instant was never", ALL_HOLD, 1, 2, RULE(LATER, PREVIOUS + P, NO), BYTES(0, 2)},
    {"p was not", ALL_HOLD, 1, 2, RULE(LATER, YES, NOT + PREVIOUS + P), BYTES(0, 2)},
    {"p was not, but it was assumed", FAILS(0, 1), 1, 2, RULE(LATER, YES, NOT + PREVIOUS + P), BYTES(1, 0)},
    {"previous in a body's second word", FAILS(0, 1), 1, 2, WORDS(LATER, YES, PREVIOUS + P, P, NO, NO), BYTES(1, 0)},
    {"previous in a head's second word", ALL_HOLD, 1, 2, WORDS(LATER, YES, YES, P, PREVIOUS + P, NO), BYTES(2, 0)},
    {"previous in a head's third word", ALL_HOLD, 1, 2, WORDS(LATER, YES, YES, NO, P, PREVIOUS + P), BYTES(2, 0)},
    {"false was false: 16,384", FAILS(0, 1), 0, 2, RULE(LATER, YES, 16384), NONE},
    {"true was true: 16,385", ALL_HOLD, 0, 2, RULE(LATER, YES, 16385), NONE},
    {"false was not true: 49,152", ALL_HOLD, 0, 2, RULE(LATER, YES, 49152), NONE},
    {"true was not false: 49,153", FAILS(0, 1), 0, 2, RULE(LATER, YES, 49153), NONE},
    {"true was not false: 49,153 in a body", ALL_HOLD, 0, 2, RULE(LATER, 49153, NO), NONE},
    {"previous at one instant is not read", ALL_HOLD, 1, 1, RULE(LATER, PREVIOUS + P, NO), BYTES(2)},

    /* the first rule that fails, and its first failing instant */
    {"the first rule comes before an earlier instant", FAILS(1, 2), 2, 4,
     WORDS(ARROW(EVERY, NO, P), ARROW(EVERY, YES, P), ARROW(EVERY, YES, Q)), BYTES(2, 0, 2, 0, 0, 0, 1, 0)},
    {"the first instant of the first rule", FAILS(0, 1), 1, 4, WORDS(ARROW(EVERY, YES, P), ARROW(FIRST, YES, NO)),
     BYTES(2, 1, 0, 2)},
    {"the last rule at the last instant", FAILS(2, 1), 1, 2,
     WORDS(ARROW(EVERY, P, P), ARROW(FIRST, YES, P), ARROW(EVERY, YES, P)), BYTES(2, 1)},
    {"the same rule twice", FAILS(0, 1), 1, 2, WORDS(ARROW(EVERY, YES, P), ARROW(EVERY, YES, P)), BYTES(2, 1)},

    /* the translation that the specification prints */
    {"p next, as it is", ALL_HOLD, 35, 2, NEXT, NEXT_ROWS(0, 2, 0, 2, 2, 0, 2, 0)},
    {"p next, a step past the end", FAILS(2, 1), 35, 2, NEXT, NEXT_ROWS(0, 2, 0, 2, 2, 2, 2, 2)},
    {"p next, a label too small", FAILS(6, 0), 35, 2, NEXT, NEXT_ROWS(0, 2, 0, 1, 2, 0, 2, 0)},
    {"p next, p assumed: the labels are right", FAILS(7, 0), 35, 2, NEXT, NEXT_ROWS(0, 1, 0, 1, 1, 0, 1, 0)},

    /* ---- refused */
    /* width, instants, cells */
    {"no instants", REFUSED(WRONG_SIZE), 1, 0, NONE, NONE},
    {"no instants and no columns", REFUSED(WRONG_SIZE), 0, 0, HOLDING, NONE},
    {"33 instants and no columns", REFUSED(WRONG_SIZE), 0, 33, HOLDING, NONE},
    {"a cell too few", REFUSED(WRONG_SIZE), 2, 2, HOLDING, BYTES(0, 0, 0)},
    {"a cell too many", REFUSED(WRONG_SIZE), 2, 2, HOLDING, BYTES(0, 0, 0, 0, 0)},
    {"a row too many", REFUSED(WRONG_SIZE), 2, 1, HOLDING, BYTES(0, 0, 0, 0)},
    {"no cells", REFUSED(WRONG_SIZE), 1, 1, HOLDING, NONE},
    {"a cell where there are no columns", REFUSED(WRONG_SIZE), 0, 1, HOLDING, BYTES(0)},
    {"2^63 columns at 2 instants, a product of 0 in 64 bits", REFUSED(WRONG_SIZE), TWO_TO(63), 2, HOLDING, NONE},
    {"2^63 instants of 2 columns, a product of 0 in 64 bits", REFUSED(WRONG_SIZE), 2, TWO_TO(63), HOLDING, NONE},
    {"2^32 columns at 2^32 instants", REFUSED(WRONG_SIZE), TWO_TO(32), TWO_TO(32), HOLDING, NONE},
    {"2^63 + 1 instants of 2 columns, 2 in 64 bits", REFUSED(WRONG_SIZE), 2, TWO_TO(63) + 1, HOLDING, BYTES(0, 0)},
    {"2^32 + 1 columns, whose low half is 1", REFUSED(WRONG_SIZE), TWO_TO(32) + 1, 1, HOLDING, BYTES(0)},
    {"2^32 + 1 instants, whose low half is 1", REFUSED(WRONG_SIZE), 1, TWO_TO(32) + 1, HOLDING, BYTES(0)},
    {"2^64 - 1 of both, a product of 1 in 64 bits", REFUSED(WRONG_SIZE), UINT64_MAX, UINT64_MAX, HOLDING, BYTES(0)},
    {"2^64 - 1 columns, which two more would turn into one symbol", REFUSED(WRONG_SIZE), UINT64_MAX, 1, HOLDING, NONE},

    /* the number of words */
    {"one word", REFUSED(WRONG_RULES), 0, 1, WORDS(0), NONE},
    {"five words", REFUSED(WRONG_RULES), 0, 1, WORDS(0, 0, 0, 0, 0), NONE},
    {"a rule and a word", REFUSED(WRONG_RULES), 0, 1, WORDS(ARROW(EVERY, NO, NO), 0), NONE},
    {"a rule that fails, and three words", REFUSED(WRONG_RULES), 0, 1, WORDS(ARROW(EVERY, YES, NO), 0, 0, 0), NONE},
    {"two rules but for a word", REFUSED(WRONG_RULES), 0, 1, WORDS(ARROW(EVERY, NO, NO), 0, 0, 0, 0, 0), NONE},

    /* the place */
    {"place 4", REFUSED(WRONG_RULES), 0, 1, RULE(LAST + 1, NO, NO), NONE},
    {"place 256, whose low byte is 0", REFUSED(WRONG_RULES), 0, 1, RULE(256, NO, NO), NONE},
    {"place 16,384", REFUSED(WRONG_RULES), 0, 1, RULE(PREVIOUS, NO, NO), NONE},
    {"place 32,769", REFUSED(WRONG_RULES), 0, 1, RULE(NOT + 1, NO, NO), NONE},
    {"place 65,535", REFUSED(WRONG_RULES), 0, 1, RULE(UINT16_MAX, NO, NO), NONE},
    {"a second rule's place", REFUSED(WRONG_RULES), 0, 1, WORDS(ARROW(EVERY, NO, NO), ARROW(LAST + 1, NO, NO)), NONE},

    /* the symbol */
    {"a column where there are none", REFUSED(WRONG_RULES), 0, 1, RULE(EVERY, P, NO), NONE},
    {"the first column past the last", REFUSED(WRONG_RULES), 2, 1, RULE(EVERY, R, NO), BYTES(0, 0)},
    {"its negation", REFUSED(WRONG_RULES), 2, 1, RULE(EVERY, NOT + R, NO), BYTES(0, 0)},
    {"what it was", REFUSED(WRONG_RULES), 2, 2, RULE(LATER, PREVIOUS + R, NO), BYTES(0, 0, 0, 0)},
    {"the negation of what it was", REFUSED(WRONG_RULES), 2, 2, RULE(LATER, NOT + PREVIOUS + R, NO), BYTES(0, 0, 0, 0)},
    {"the greatest symbol", REFUSED(WRONG_RULES), 2, 1, RULE(EVERY, PREVIOUS - 1, NO), BYTES(0, 0)},
    {"symbol 258, whose low byte is a column's", REFUSED(WRONG_RULES), 2, 1, RULE(EVERY, 258, NO), BYTES(0, 0)},
    {"word 65,535 where previous may be", REFUSED(WRONG_RULES), 2, 1, RULE(LATER, UINT16_MAX, NO), BYTES(0, 0)},
    {"a symbol in a rule that has no instant", REFUSED(WRONG_RULES), 0, 1, RULE(LATER, P, NO), NONE},
    {"a symbol after a false body", REFUSED(WRONG_RULES), 0, 1, WORDS(EVERY, NO, NO, P, NO, NO), NONE},
    {"a symbol after a true head", REFUSED(WRONG_RULES), 0, 1, WORDS(EVERY, YES, YES, YES, NO, P), NONE},

    /* previous */
    {"previous at every instant", REFUSED(WRONG_RULES), 1, 2, RULE(EVERY, PREVIOUS + P, NO), BYTES(0, 0)},
    {"previous at the first instant", REFUSED(WRONG_RULES), 1, 2, RULE(FIRST, PREVIOUS + P, NO), BYTES(0, 0)},
    {"previous at the last instant", REFUSED(WRONG_RULES), 1, 2, RULE(LAST, PREVIOUS + P, NO), BYTES(0, 0)},
    {"previous, negated, at the last", REFUSED(WRONG_RULES), 1, 2, RULE(LAST, NOT + PREVIOUS + P, NO), BYTES(0, 0)},

    /* the cells */
    {"a cell of 3", REFUSED(WRONG_CELL), 1, 1, HOLDING, BYTES(3)},
    {"a cell of 255", REFUSED(WRONG_CELL), 1, 2, HOLDING, BYTES(0, 255)},
    {"a cell of 3 that no rule names", REFUSED(WRONG_CELL), 2, 2, RULE(EVERY, P, P), BYTES(0, 0, 0, 3)},
    {"a cell of 3 where there are no rules", REFUSED(WRONG_CELL), 1, 1, NONE, BYTES(3)},
    {"a cell of 3 after the failure", REFUSED(WRONG_CELL), 1, 2, FAILING, BYTES(0, 3)},

    /* two faults */
    {"no instants before a word too few", REFUSED(WRONG_SIZE), 0, 0, WORDS(0), NONE},
    {"a cell too many before place 4", REFUSED(WRONG_SIZE), 0, 1, RULE(LAST + 1, NO, NO), BYTES(0)},
    {"a cell too many before a cell of 3", REFUSED(WRONG_SIZE), 1, 1, HOLDING, BYTES(0, 3)},
    {"a word too few before a cell of 3", REFUSED(WRONG_RULES), 1, 1, WORDS(0), BYTES(3)},
    {"a second rule's place before a cell of 3", REFUSED(WRONG_RULES), 1, 1,
     WORDS(ARROW(EVERY, NO, NO), ARROW(LAST + 1, NO, NO)), BYTES(3)},
    {"a second rule's symbol before a first rule's failure", REFUSED(WRONG_RULES), 0, 1,
     WORDS(ARROW(EVERY, YES, NO), ARROW(EVERY, NO, P)), NONE},
};

/* ---- every rule of a few literals */
/* Both constants and a column of each value, and the negations of these: every way of filling a rule's five words. */
static void every_rule(void)
{
    static const uint8_t cells[] = {0, 1, 2};
    static const struct {
        uint16_t word;
        int value;
    } literals[] = {{NO, 0},       {YES, 2},       {P, 0},       {Q, 1},       {R, 2},
                    {NOT + NO, 2}, {NOT + YES, 0}, {NOT + P, 2}, {NOT + Q, 0}, {NOT + R, 0}};
    enum { LITERALS = sizeof literals / sizeof *literals };

    for (int drawn = 0; drawn < LITERALS * LITERALS * LITERALS * LITERALS * LITERALS; drawn++) {
        uint16_t rule[RULE_SIZE] = {EVERY};
        int least = 2, greatest = 0;
        for (int j = 1, rest = drawn; j < RULE_SIZE; j++, rest /= LITERALS) {
            int value = literals[rest % LITERALS].value;
            rule[j] = literals[rest % LITERALS].word;
            if (j <= 2 && value < least)
                least = value;
            if (j > 2 && value > greatest)
                greatest = value;
        }
        compare(reason_with("every rule: %d %d, %d %d %d", rule[1], rule[2], rule[3], rule[4], rule[5]),
                pasturequill_judge(rule, RULE_SIZE, 3, 1, cells, 3), least <= greatest ? yes() : no(0, 0));
    }
}

/* Each constant with each set of marks, in each word of a rule of each place: previous is for one place, and changes no
 * constant. The rule fails where the constant is true and in the body, or is false and in the head. */
static void marked_constants(void)
{
    for (uint16_t place = EVERY; place <= LAST; place++)
        for (size_t at = 1; at < RULE_SIZE; at++)
            for (int i = 0; i < 8; i++) {
                int constant = i & 1, previous = i >> 1 & 1, negated = i >> 2, truth = constant != negated;
                uint16_t rule[RULE_SIZE] = {place, YES, YES, NO, NO, NO};
                rule[at] = (uint16_t)(constant + previous * PREVIOUS + negated * NOT);
                uint64_t instant = place == LATER ? 1 : place == LAST ? 2 : 0;
                pasturequill_judged judged = truth == (at <= 2) ? no(0, instant) : yes();
                expect(reason_with("constant %d in word %zu, place %d", rule[at], at, place),
                       (struct words){rule, RULE_SIZE}, 0, 3, (struct bytes)NONE,
                       previous && place != LATER ? refused(PASTUREQUILL_WRONG_RULES) : judged);
            }
}

/* ---- places at every instant */
/* A column that is 2 but at instant k, where it is 1: what is due fails there if the place has that instant. And the
 * same one instant later by what the column was. */
static void one_instant(int k, int instants)
{
    uint8_t cells[MOST_INSTANTS];
    struct bytes trace = {cells, (size_t)instants};
    memset(cells, 2, sizeof cells);
    cells[k] = 1;
    for (uint16_t place = EVERY; place <= LAST; place++) {
        int has[] = {[EVERY] = 1, [FIRST] = k == 0, [LATER] = k != 0, [LAST] = k == instants - 1};
        expect(reason_with("place %d at instant %d of %d", place, k, instants), (struct words)RULE(place, YES, P), 1,
               (uint64_t)instants, trace, has[place] ? no(0, (uint64_t)k) : yes());
    }
    expect(reason_with("previous of instant %d of %d", k, instants), (struct words)RULE(LATER, YES, PREVIOUS + P), 1,
           (uint64_t)instants, trace, k + 1 < instants ? no(0, (uint64_t)k + 1) : yes());
}

static void every_instant(void)
{
    static const int lengths[] = {1, 2, 3, 31, 32};
    for (const int *instants = lengths; instants < END(lengths); instants++)
        for (int k = 0; k < *instants; k++)
            one_instant(k, *instants);
}

/* ---- the greatest sizes */
static uint16_t words[MOST_WORDS + RULE_SIZE];
static uint8_t cells[(MOST_WIDTH + 1) * (MOST_INSTANTS + 1)];

static void set_rule(size_t i, int place, int body, int head)
{
    const uint16_t rule[] = {ARROW((uint16_t)place, (uint16_t)body, (uint16_t)head)};
    memcpy(words + RULE_SIZE * i, rule, sizeof rule);
}

/* The rules over as many columns and instants as there may be. */
static void expect_most(const char *reason, pasturequill_judged expected)
{
    expect(reason, (struct words){words, MOST_WORDS}, MOST_WIDTH, MOST_INSTANTS, (struct bytes){cells, MOST_CELLS},
           expected);
}

/* Rule i asks for column i, and again from the first one; all is 2. */
static void ask_for_all(void)
{
    memset(cells, 2, sizeof cells);
    for (size_t i = 0; i <= MOST_RULES; i++)
        set_rule(i, EVERY, YES, COLUMN + (int)(i % MOST_WIDTH));
}

/* A word, a rule, a column or an instant more or less than there may be. */
static void around_the_most(void)
{
    static const struct sizes {
        const char *reason;
        pasturequill_judged expected;
        size_t words, width, instants;
    } sizes[] = {
        {"1,021 rules, 287 columns, 32 instants", ALL_HOLD, MOST_WORDS, MOST_WIDTH, MOST_INSTANTS},
        {"1,022 rules", REFUSED(WRONG_RULES), MOST_WORDS + RULE_SIZE, MOST_WIDTH, MOST_INSTANTS},
        {"1,021 rules and a word", REFUSED(WRONG_RULES), MOST_WORDS + 1, MOST_WIDTH, MOST_INSTANTS},
        {"1,021 rules but for a word", REFUSED(WRONG_RULES), MOST_WORDS - 1, MOST_WIDTH, MOST_INSTANTS},
        {"288 columns", REFUSED(WRONG_SIZE), MOST_WORDS, MOST_WIDTH + 1, MOST_INSTANTS},
        {"33 instants", REFUSED(WRONG_SIZE), MOST_WORDS, MOST_WIDTH, MOST_INSTANTS + 1},
        {"286 columns, and one more is named", REFUSED(WRONG_RULES), MOST_WORDS, MOST_WIDTH - 1, MOST_INSTANTS},
    };
    ask_for_all();
    for (const struct sizes *s = sizes; s < END(sizes); s++)
        expect(s->reason, (struct words){words, s->words}, s->width, s->instants,
               (struct bytes){cells, s->width * s->instants}, s->expected);
}

/* One cell less than due, or over 2: the rule of its column is the first that fails. */
static void one_cell(void)
{
    static const size_t places[] = {0, 1, 286, 287, 288, 4591, 9182, 9183};
    ask_for_all();
    for (const size_t *place = places; place < END(places); place++) {
        cells[*place] = 1;
        expect_most(reason_with("cell %zu of 9,184 is 1", *place), no(*place % MOST_WIDTH, *place / MOST_WIDTH));
        cells[*place] = 3;
        expect_most(reason_with("cell %zu of 9,184 is 3", *place), refused(PASTUREQUILL_WRONG_CELL));
        cells[*place] = 2;
    }
}

/* Nothing is asked up to a rule, and from there on the last column, which is 0 from an instant on. */
static void first_failures(void)
{
    static const size_t rules[] = {0, 1, 510, 1019, 1020}, instants[] = {0, 1, 16, 31};
    memset(cells, 2, sizeof cells);
    for (const size_t *rule = rules; rule < END(rules); rule++)
        for (const size_t *instant = instants; instant < END(instants); instant++) {
            for (size_t r = 0; r < MOST_RULES; r++)
                set_rule(r, EVERY, r < *rule ? NO : YES, COLUMN + MOST_WIDTH - 1);
            for (size_t k = 0; k < MOST_INSTANTS; k++)
                cells[k * MOST_WIDTH + MOST_WIDTH - 1] = k < *instant ? 2 : 0;
            expect_most(reason_with("1,021 rules, the first failure in rule %zu at instant %zu", *rule, *instant),
                        no(*rule, *instant));
        }
}

/* In each word of the last rule: the last column's symbol is taken with and without its marks, the next one is not. */
static void last_symbols(void)
{
    enum { LAST_SYMBOL = COLUMN + MOST_WIDTH - 1 };
    static const uint16_t marks[] = {0, PREVIOUS, NOT, NOT + PREVIOUS};
    uint16_t *last = words + MOST_WORDS - RULE_SIZE;
    memset(words, 0, sizeof words);
    memset(cells, 0, sizeof cells);
    for (size_t at = 1; at < RULE_SIZE; at++)
        for (const uint16_t *mark = marks; mark < END(marks); mark++)
            for (uint16_t symbol = LAST_SYMBOL; symbol <= LAST_SYMBOL + 2; symbol++) {
                memset(last, 0, RULE_SIZE * sizeof *last);
                last[0] = LATER;
                last[at] = symbol + *mark;
                expect_most(reason_with("symbol %d of 289 with marks %d in word %zu", symbol, *mark, at),
                            symbol == LAST_SYMBOL ? yes() : refused(PASTUREQUILL_WRONG_RULES));
            }
}

/* A slice of no elements may have no address. */
static void no_addresses(void)
{
    static const uint16_t rule[] = {ARROW(LAST, YES, NO)};
    static const uint8_t two[] = {0, 1};
    compare("no address for no rules and no cells", pasturequill_judge(NULL, 0, 0, 1, NULL, 0), yes());
    compare("no address for no rules", pasturequill_judge(NULL, 0, 1, 2, two, 2), yes());
    compare("no address for no cells", pasturequill_judge(rule, RULE_SIZE, 0, 2, NULL, 0), no(0, 1));
    compare("no address, no instants", pasturequill_judge(NULL, 0, 0, 0, NULL, 0), refused(PASTUREQUILL_WRONG_SIZE));
}

int main(void)
{
    for (const struct judged *v = judged; v < END(judged); v++)
        expect(v->reason, v->rules, v->width, v->instants, v->cells, v->expected);
    every_rule();
    marked_constants();
    every_instant();
    around_the_most();
    one_cell();
    first_failures();
    last_symbols();
    no_addresses();
    return counts_told();
}
