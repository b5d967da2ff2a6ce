/* The shorthands, in the order of the specification. */
#ifndef SHORTHANDS_H
#define SHORTHANDS_H

#include "pasturequill.h"

static const struct shorthand {
    const char *name;
    uint8_t kind;
    size_t arguments, own; /* how many formulas it has, and how many records of its own its expansion has */
} shorthands[] = {
    {"not", PASTUREQUILL_NOT, 1, 3},
    {"and", PASTUREQUILL_AND, 2, 2},
    {"or", PASTUREQUILL_OR, 2, 5},
    {"implies", PASTUREQUILL_IMPLIES, 2, 2},
    {"final", PASTUREQUILL_FINAL, 0, 3},
    {"initial", PASTUREQUILL_INITIAL, 0, 3},
    {"next", PASTUREQUILL_NEXT, 1, 2},
    {"weak next", PASTUREQUILL_WEAK_NEXT, 1, 2},
    {"previous", PASTUREQUILL_PREVIOUS, 1, 2},
    {"weak previous", PASTUREQUILL_WEAK_PREVIOUS, 1, 2},
    {"eventually", PASTUREQUILL_EVENTUALLY, 1, 3},
    {"always", PASTUREQUILL_ALWAYS, 1, 3},
    {"once", PASTUREQUILL_ONCE, 1, 3},
    {"so far", PASTUREQUILL_SO_FAR, 1, 3},
    {"until", PASTUREQUILL_UNTIL, 2, 5},
    {"since", PASTUREQUILL_SINCE, 2, 5},
};

enum { SHORTHANDS = sizeof shorthands / sizeof *shorthands };

#endif
