/* Formulas and paths that several of the benchmarks build. */
#ifndef SHAPES_H
#define SHAPES_H

#include "formula.h"

/* p until q, the atoms 0 and 1. */
static inline void until(struct formula *f)
{
    size_t way = star(f, go(f, 0));
    diamond(f, way, atom(f, 1));
}

/* ---- as long as there are records */
static inline void negated(struct formula *f, size_t g)
{
    while (left(f) > 2)
        g = not_so(f, g);
}

/* ---- as long as there are records, but for a modality and its last formula */
static inline size_t starred(struct formula *f, size_t p)
{
    while (left(f) > 2)
        p = star(f, p);
    return p;
}

/* A step, and one part after the other joined to it. */
static inline size_t joined(struct formula *f, size_t (*join)(struct formula *f, size_t p, size_t q),
                            size_t (*part)(struct formula *f))
{
    size_t p = step(f);
    while (left(f) > 3)
        p = join(f, p, part(f));
    return p;
}

/* ---- formulas as deep as there are records for */
static inline void moves_in_sequence(struct formula *f)
{
    size_t p = joined(f, sequence, back);
    diamond(f, p, atom(f, 0));
}

static inline void steps_in_a_row(struct formula *f)
{
    size_t p = joined(f, sequence, step);
    diamond(f, p, yes(f));
}

static inline void moves_in_choice(struct formula *f)
{
    size_t p = joined(f, choice, back);
    diamond(f, p, atom(f, 0));
}

static inline void stars_of_stars(struct formula *f)
{
    size_t p = starred(f, step(f));
    diamond(f, p, atom(f, 0));
}

static inline void negations(struct formula *f)
{
    negated(f, atom(f, 0));
}

static inline void modalities(struct formula *f)
{
    size_t g = atom(f, 0);
    while (left(f) >= 2)
        g = box(f, step(f), g);
}

#endif
