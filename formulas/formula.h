/* Building a formula record by record: each function adds records and gives the number of the last. */
#ifndef FORMULA_H
#define FORMULA_H

#include <stdio.h>
#include <stdlib.h>

#include "records.h"

/* There is room for more records than a formula may have, so that too long ones can be built. */
enum { RECORDS_ROOM = 1000 };

struct formula {
    uint8_t records[RECORD_SIZE * RECORDS_ROOM];
    size_t n;
};

/* In bytes. */
static inline size_t size_of(const struct formula *f) { return RECORD_SIZE * f->n; }

/* How many more records a formula may have. */
static inline size_t left(const struct formula *f) { return MOST_RECORDS - f->n; }

static inline void set_record(struct formula *f, size_t r, uint8_t kind, size_t a, size_t b)
{
    put_record(f->records + RECORD_SIZE * r, kind, a, b);
}

/* Makes it a record of another kind over the same fields. */
static inline void set_kind(struct formula *f, size_t r, uint8_t kind) { f->records[RECORD_SIZE * r + KIND] = kind; }

static inline size_t add(struct formula *f, uint8_t kind, size_t a, size_t b)
{
    if (f->n == RECORDS_ROOM) {
        fprintf(stderr, "there is no room for more than %d records\n", RECORDS_ROOM);
        exit(2);
    }
    set_record(f, f->n, kind, a, b);
    return f->n++;
}

static inline size_t no(struct formula *f) { return add(f, PASTUREQUILL_FALSE, 0, 0); }
static inline size_t yes(struct formula *f) { return add(f, PASTUREQUILL_TRUE, 0, 0); }
static inline size_t atom(struct formula *f, size_t i) { return add(f, PASTUREQUILL_ATOM, i, 0); }
static inline size_t diamond(struct formula *f, size_t p, size_t g) { return add(f, PASTUREQUILL_DIAMOND, p, g); }
static inline size_t box(struct formula *f, size_t p, size_t g) { return add(f, PASTUREQUILL_BOX, p, g); }
static inline size_t step(struct formula *f) { return add(f, PASTUREQUILL_STEP, 0, 0); }
static inline size_t back(struct formula *f) { return add(f, PASTUREQUILL_BACK, 0, 0); }
static inline size_t test(struct formula *f, size_t g) { return add(f, PASTUREQUILL_TEST, g, 0); }
static inline size_t choice(struct formula *f, size_t p, size_t q) { return add(f, PASTUREQUILL_CHOICE, p, q); }
static inline size_t sequence(struct formula *f, size_t p, size_t q) { return add(f, PASTUREQUILL_SEQUENCE, p, q); }
static inline size_t star(struct formula *f, size_t p) { return add(f, PASTUREQUILL_STAR, p, 0); }

/* The path that goes on where an atom holds: p? ; step. */
static inline size_t go(struct formula *f, size_t i)
{
    size_t tested = test(f, atom(f, i));
    return sequence(f, tested, step(f));
}

/* Either neighbour: step + back. */
static inline size_t either_way(struct formula *f)
{
    size_t on = step(f);
    return choice(f, on, back(f));
}

/* Not: [G?]false. */
static inline size_t not_so(struct formula *f, size_t g)
{
    size_t tested = test(f, g);
    return box(f, tested, no(f));
}

#endif
