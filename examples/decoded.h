/* Refusals, records and rules in words. Record r has the label xr. */
#ifndef DECODED_H
#define DECODED_H

#include <stdio.h>

#include "pasturequill.h"

static inline const char *refusal_name(uint8_t refusal)
{
    static const char *const names[] = {
        [PASTUREQUILL_ACCEPTED] = "accepted",         [PASTUREQUILL_WRONG_LENGTH] = "wrong length",
        [PASTUREQUILL_UNKNOWN_KIND] = "unknown kind", [PASTUREQUILL_NOT_ZERO] = "not zero",
        [PASTUREQUILL_LATE_CHILD] = "late child",     [PASTUREQUILL_NO_SUCH_ATOM] = "no such atom",
        [PASTUREQUILL_WRONG_SORT] = "wrong sort",     [PASTUREQUILL_NOT_A_TREE] = "not a tree",
        [PASTUREQUILL_WRONG_SIZE] = "wrong size",     [PASTUREQUILL_WRONG_CELL] = "wrong cell",
        [PASTUREQUILL_NO_ROOM] = "no room",           [PASTUREQUILL_STAR_STANDS] = "star stands",
        [PASTUREQUILL_STAR_TURNS] = "star turns",     [PASTUREQUILL_WRONG_RULES] = "wrong rules",
        [PASTUREQUILL_TOO_LONG] = "too long",         [PASTUREQUILL_NO_SIGN] = "no sign",
        [PASTUREQUILL_NOT_THE_FORM] = "not the form",
    };
    return names[refusal];
}

/* ---- records of core kinds, over atoms with names */
struct names {
    const char *const *atoms;
    int count;
};

static inline void print_record(const uint8_t *records, size_t r, struct names names)
{
    const uint8_t *record = records + r * PASTUREQUILL_RECORD_SIZE;
    /* The high bytes of the fields are 0 in a formula. */
    int a = record[PASTUREQUILL_FIELD_A], b = record[PASTUREQUILL_FIELD_B];
    switch (record[PASTUREQUILL_KIND]) {
    case PASTUREQUILL_FALSE: printf("false"); break;
    case PASTUREQUILL_TRUE: printf("true"); break;
    case PASTUREQUILL_ATOM: printf("%s", names.atoms[a]); break;
    case PASTUREQUILL_DIAMOND: printf("<x%d>x%d", a, b); break;
    case PASTUREQUILL_BOX: printf("[x%d]x%d", a, b); break;
    case PASTUREQUILL_STEP: printf("step"); break;
    case PASTUREQUILL_BACK: printf("back"); break;
    case PASTUREQUILL_TEST: printf("x%d?", a); break;
    case PASTUREQUILL_CHOICE: printf("x%d + x%d", a, b); break;
    case PASTUREQUILL_SEQUENCE: printf("x%d ; x%d", a, b); break;
    case PASTUREQUILL_STAR: printf("x%d*", a); break;
    }
}

/* ---- rules */
static inline void print_literal(uint16_t word, struct names names)
{
    int symbol = word % PASTUREQUILL_MARK_PREVIOUS, column = symbol - PASTUREQUILL_SYMBOL_COLUMN;
    printf("%s%s", word & PASTUREQUILL_MARK_NOT ? "not " : "", word & PASTUREQUILL_MARK_PREVIOUS ? "prev " : "");
    if (column < 0)
        printf("%s", symbol == PASTUREQUILL_SYMBOL_TRUE ? "true" : "false");
    else if (column < names.count)
        printf("%s", names.atoms[column]);
    else
        printf("x%d", column - names.count);
}

/* The literals of a body or a head, those after the first only if they are used. */
static inline void print_literals(const uint16_t *words, size_t n, uint16_t unused, const char *between,
                                  struct names names)
{
    print_literal(words[0], names);
    for (size_t i = 1; i < n && words[i] != unused; i++) {
        printf(" %s ", between);
        print_literal(words[i], names);
    }
}

/* The rule's number, its words, and what it says. */
static inline void print_rule(const uint16_t *rules, size_t i, struct names names)
{
    static const char *const places[] = {
        [PASTUREQUILL_AT_EVERY] = "every instant",  [PASTUREQUILL_AT_FIRST] = "first instant",
        [PASTUREQUILL_AT_LATER] = "later instants", [PASTUREQUILL_AT_LAST] = "last instant",
    };
    const uint16_t *words = rules + i * PASTUREQUILL_RULE_SIZE;
    int width = 0;
    printf("%4zu  ", i);
    for (size_t j = 0; j < PASTUREQUILL_RULE_SIZE; j++)
        width += printf("%d ", words[j]);
    printf("%*s%-16s", 18 - width, "", places[words[0]]);
    print_literals(words + 1, 2, PASTUREQUILL_SYMBOL_TRUE, "and", names);
    printf(" -> ");
    print_literals(words + 3, 3, PASTUREQUILL_SYMBOL_FALSE, "or", names);
    printf("\n");
}

#endif
