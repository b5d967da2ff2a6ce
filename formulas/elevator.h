/* The elevator of source 004, section 4: its actions and what they do (Listing 1), and its rule (13). */
#ifndef ELEVATOR_H
#define ELEVATOR_H

#include "formula.h"

/* The atoms: the four actions, and that the elevator stands at a floor that it is called to. */
enum { UP, DOWN, SERVE, WAIT, READY, ELEVATOR_ATOMS };

/* An action is written as a letter, in the order of the atoms. */
static const char actions[] = "udsw";

struct elevator {
    int floors, floor; /* floors count from 0 */
    unsigned called;   /* a bit for each floor */
};

/* At first it stands at the middle floor, and is called to the lowest and to the highest. */
static inline struct elevator elevator_at_first(int floors)
{
    return (struct elevator){.floors = floors, .floor = floors / 2, .called = 1u | 1u << (floors - 1)};
}

static inline int is_called(const struct elevator *e, int floor) { return e->called >> floor & 1; }

/* The cells of an instant's atoms; 0 is no action. */
static inline void put_instant(const struct elevator *e, char action, uint8_t *cells)
{
    for (size_t i = UP; i <= WAIT; i++)
        cells[i] = action == actions[i] ? 2 : 0;
    cells[READY] = is_called(e, e->floor) ? 2 : 0;
}

/* Whether an action can be done: the ways up and down end. */
static inline int can(const struct elevator *e, char action)
{
    return !(action == 'u' && e->floor == e->floors - 1) && !(action == 'd' && e->floor == 0);
}

static inline struct elevator after(struct elevator e, char action)
{
    if (action == 's')
        e.called &= ~(1u << e.floor);
    e.floor += (action == 'u') - (action == 'd');
    return e;
}

/* <((up* + down*) ; ready? ; serve)* ; wait*>final: an action is a test and then a step; ready? is there already. */
static inline size_t kept(struct formula *f, size_t ready)
{
    size_t up = star(f, go(f, UP)), down = star(f, go(f, DOWN));
    size_t run = choice(f, up, down);
    size_t served = sequence(f, ready, go(f, SERVE));
    size_t rounds = star(f, sequence(f, run, served));
    size_t waits = star(f, go(f, WAIT)), whole = sequence(f, rounds, waits);
    size_t last = step(f);
    size_t final = box(f, last, no(f));
    return diamond(f, whole, final);
}

/* Rule (13). It is a constraint, so the formula is twice negated. */
static inline size_t rule_13(struct formula *f, size_t ready) { return not_so(f, not_so(f, kept(f, ready))); }

#endif
