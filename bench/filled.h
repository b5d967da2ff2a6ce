/* Rules of the shapes that translation writes, and a filled trace over which they all hold, so that a judge looks at
 * every rule everywhere. */
#ifndef FILLED_H
#define FILLED_H

#include "rules.h"

/* The rules of one column are written whole; there is room for those past the number asked for. */
enum { MOST_MORE = 3 };

struct filled {
    size_t rules, width, instants;
    int everywhere; /* only rules of every instant */
    uint16_t words[MOST_WORDS + RULE_SIZE * MOST_MORE];
    uint8_t cells[PASTUREQUILL_MOST_COLUMNS * PASTUREQUILL_MOST_INSTANTS];
};

/* Draws rules and cells, as many as the numbers before them say, from a fixed seed. There are four columns at least. */
void fill(struct filled *f);

#endif
