/* Five valuers in C that the library's time is measured against. Each takes a task that pasturequill_value accepts,
 * refuses nothing and fills the table. What each does with squares is its own; they share what any valuer needs
 * besides. */
#ifndef VALUERS_H
#define VALUERS_H

#include <string.h>

#include "records.h"

struct task {
    const uint8_t *records; /* a formula of n */
    size_t n, atoms, instants;
    const uint8_t *cells; /* `instants` rows of `atoms` cells */
    uint8_t *table;       /* n rows of `instants` bytes: a formula record's values, 0 for a path record */
};

typedef void valuer(const struct task *t);

/* Byte squares, triple loops, a star by passes until nothing changes: as one first writes it. */
valuer value_plain;

/* Byte squares of 32 bytes a row, whole rows at a time, a star in one sweep; and the same with every short way that the
 * library takes. */
valuer value_rows, value_rows_best;

/* Two masks of 32 bits a row, for values of at least 1 and for values of 2; and the same with every short way. */
valuer value_bits, value_bits_best;

/* The whole formula's value at the first instant, by one of them. */
static inline uint8_t value_by(valuer *valuer, const struct task *t)
{
    valuer(t);
    return t->table[(t->n - 1) * t->instants];
}

/* ---- what they share */
enum { MOST = PASTUREQUILL_MOST_INSTANTS };

/* A record's bytes; of its fields the low ones tell all, as the high ones are 0 in a formula. */
static inline const uint8_t *record_of(const struct task *t, size_t r)
{
    return t->records + RECORD_SIZE * r;
}

/* The row of a path record. */
static inline void clear_row(const struct task *t, size_t r)
{
    memset(t->table + r * t->instants, 0, t->instants);
}

/* The row of a record that is false, true or an atom, in bytes. */
static inline void put_leaf(const struct task *t, size_t r)
{
    const uint8_t *record = record_of(t, r);
    size_t instants = t->instants, a = record[FIELD_A];
    uint8_t *row = t->table + r * instants;

    if (record[KIND] == PASTUREQUILL_ATOM)
        for (size_t k = 0; k < instants; k++)
            row[k] = t->cells[k * t->atoms + a];
    else
        memset(row, record[KIND] == PASTUREQUILL_TRUE ? 2 : 0, instants);
}

#endif
