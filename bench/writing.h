/* Rules by what they say, as the specification's translation lists them. */
#ifndef WRITING_H
#define WRITING_H

#include "rules.h"

struct rules {
    uint16_t *at;
    size_t count;
};

static inline void put(struct rules *to, int place, int body1, int body2, int head1, int head2, int head3)
{
    uint16_t *words = to->at + RULE_SIZE * to->count++;
    words[0] = (uint16_t)place;
    words[1] = (uint16_t)body1;
    words[2] = (uint16_t)body2;
    words[3] = (uint16_t)head1;
    words[4] = (uint16_t)head2;
    words[5] = (uint16_t)head3;
}

/* u and v are worth the same at all instants of the place. */
static inline void put_same(struct rules *to, int place, int u, int v)
{
    put(to, place, u, YES, v, NO, NO);
    put(to, place, v, YES, u, NO, NO);
}

/* x is the smaller of u and v. */
static inline void put_smaller(struct rules *to, int x, int u, int v)
{
    put(to, EVERY, x, YES, u, NO, NO);
    put(to, EVERY, x, YES, v, NO, NO);
    put(to, EVERY, u, v, x, NO, NO);
}

/* x is the greater of u and v. */
static inline void put_greater(struct rules *to, int x, int u, int v)
{
    put(to, EVERY, x, YES, u, v, NO);
    put(to, EVERY, u, YES, x, NO, NO);
    put(to, EVERY, v, YES, x, NO, NO);
}

/* x is what u implies of v. */
static inline void put_implication(struct rules *to, int x, int u, int v)
{
    put(to, EVERY, x, u, v, NO, NO);
    put(to, EVERY, NOT + u, YES, x, NO, NO);
    put(to, EVERY, v, YES, x, NO, NO);
    put(to, EVERY, YES, YES, x, u, NOT + v);
}

/* At the end of the trace that a move would leave, a diamond is false and a box is true. */
static inline void put_end(struct rules *to, int place, int x, int box)
{
    if (box)
        put(to, place, YES, YES, x, NO, NO);
    else
        put(to, place, x, YES, NO, NO, NO);
}

#endif
