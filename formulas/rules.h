/* A rule's words: the header's names for them in short. */
#ifndef RULES_H
#define RULES_H

#include "pasturequill.h"

enum { RULE_SIZE = PASTUREQUILL_RULE_SIZE, MOST_WORDS = PASTUREQUILL_MOST_RULE_WORDS };

/* Places. */
enum { EVERY = PASTUREQUILL_AT_EVERY, FIRST = PASTUREQUILL_AT_FIRST };
enum { LATER = PASTUREQUILL_AT_LATER, LAST = PASTUREQUILL_AT_LAST };

/* Symbols, and the marks of literals. */
enum { NO = PASTUREQUILL_SYMBOL_FALSE, YES = PASTUREQUILL_SYMBOL_TRUE, COLUMN = PASTUREQUILL_SYMBOL_COLUMN };
enum { PREVIOUS = PASTUREQUILL_MARK_PREVIOUS, NOT = PASTUREQUILL_MARK_NOT };

/* A rule with one literal in its body and one in its head, and the two that say that these are the same. */
#define ARROW(place, body, head) place, body, YES, head, NO, NO
#define SAME(place, u, v) ARROW(place, u, v), ARROW(place, v, u)

/* The rules that say that x is the smaller or the greater of two. */
#define SMALLER(x, u, v) ARROW(EVERY, x, u), ARROW(EVERY, x, v), EVERY, u, v, x, NO, NO
#define GREATER(x, u, v) EVERY, x, YES, u, v, NO, ARROW(EVERY, u, x), ARROW(EVERY, v, x)

#endif
