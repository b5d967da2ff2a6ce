/* The valuer by rows: a square is 32 rows of 32 bytes whatever L is, and the innermost loop runs over one row with the
 * other factor in a local, which the compiler turns into a few vector instructions. Cells past L are 0, which changes
 * no greatest value. Whoever includes this says by SHORT_WAYS how sequences and stars go. */
#ifndef ROWS_H
#define ROWS_H

#include "valuers.h"

typedef struct {
    uint8_t at[MOST][MOST];
} square;

/* A formula's values, `instants` of them, in the table. */
typedef const uint8_t *row;

static void value_path(const struct task *t, size_t r, square *out);
static void value_formula(const struct task *t, size_t r);

static inline row value_test(const struct task *t, size_t r)
{
    size_t tested = record_of(t, r)[FIELD_A];
    clear_row(t, r);
    value_formula(t, tested);
    return t->table + tested * t->instants;
}

/* A formula's values in 32 bytes, those past L 0. */
static inline void put_ends(size_t instants, row values, uint8_t *ends)
{
    memset(ends, 0, MOST);
    memcpy(ends, values, instants);
}

/* ---- one path after the other */
/* Raises a row to what another row gives after a way of value u. */
static inline void raise_row(uint8_t *restrict to, const uint8_t *restrict other, uint8_t u)
{
    if (u != 0)
        for (size_t j = 0; j < MOST; j++) {
            uint8_t v = other[j] < u ? other[j] : u;
            to[j] = to[j] > v ? to[j] : v;
        }
}

static void follow(size_t instants, const square *restrict p, const square *restrict q, square *restrict out)
{
    for (size_t k = 0; k < instants; k++) {
        uint8_t led[MOST] = {0};
        for (size_t i = 0; i < instants; i++)
            raise_row(led, q->at[i], p->at[k][i]);
        memcpy(out->at[k], led, MOST);
    }
    memset(out->at[instants], 0, (MOST - instants) * MOST);
}

/* A test before a path: from each instant no more than the tested value there. */
static inline void cap_rows(size_t instants, square *p, row tested)
{
    for (size_t k = 0; k < instants; k++)
        for (size_t j = 0; j < MOST; j++)
            p->at[k][j] = p->at[k][j] < tested[k] ? p->at[k][j] : tested[k];
}

/* A test after a path: to each instant no more than the tested value there. */
static inline void cap_columns(size_t instants, square *p, row tested)
{
    uint8_t ends[MOST];
    put_ends(instants, tested, ends);
    for (size_t k = 0; k < instants; k++)
        for (size_t j = 0; j < MOST; j++)
            p->at[k][j] = p->at[k][j] < ends[j] ? p->at[k][j] : ends[j];
}

/* A move before a path: each row is the one beside. */
static inline void lead_move(size_t instants, square *p, uint8_t move)
{
    size_t kept = (instants - 1) * MOST;
    memmove(p->at[move == PASTUREQUILL_BACK], p->at[move == PASTUREQUILL_STEP], kept);
    memset(p->at[move == PASTUREQUILL_STEP ? instants - 1 : 0], 0, MOST);
}

/* A move after a path: each row moves on by one place, or back. */
static inline void follow_move(size_t instants, square *p, uint8_t move)
{
    for (size_t k = 0; k < instants; k++) {
        uint8_t *to = p->at[k], kept[MOST - 1];
        if (move == PASTUREQUILL_STEP) {
            memcpy(kept, to, sizeof kept);
            memcpy(to + 1, kept, sizeof kept);
            to[0] = 0;
            if (instants < MOST)
                to[instants] = 0;
        } else {
            memcpy(kept, to + 1, sizeof kept);
            memcpy(to, kept, sizeof kept);
            to[MOST - 1] = 0;
        }
    }
}

/* ---- stars */
/* Staying is worth 2. */
static inline void stand(size_t instants, square *p)
{
    for (size_t k = 0; k < instants; k++)
        p->at[k][k] = 2;
}

/* Each instant in turn is allowed on the way. */
static void repeat(size_t instants, square *p)
{
    stand(instants, p);
    for (size_t i = 0; i < instants; i++) {
        uint8_t way[MOST];
        memcpy(way, p->at[i], MOST);
        for (size_t k = 0; k < instants; k++)
            raise_row(p->at[k], way, p->at[k][i]);
    }
}

/* Where one move leads on, a row needs the one beside alone, which is done before it. */
static inline void run(size_t instants, square *p, uint8_t move)
{
    stand(instants, p);
    if (move == PASTUREQUILL_STEP)
        for (size_t k = instants - 1; k-- > 0;)
            raise_row(p->at[k], p->at[k + 1], p->at[k][k + 1]);
    else
        for (size_t k = 1; k < instants; k++)
            raise_row(p->at[k], p->at[k - 1], p->at[k][k - 1]);
}

#include "short_ways.h"

/* ---- records */
static void value_path(const struct task *t, size_t r, square *out)
{
    const uint8_t *record = record_of(t, r);
    size_t instants = t->instants, a = record[FIELD_A], b = record[FIELD_B];

    clear_row(t, r);
    switch (record[KIND]) {
    case PASTUREQUILL_STEP:
        memset(out, 0, sizeof *out);
        for (size_t k = 0; k + 1 < instants; k++)
            out->at[k][k + 1] = 2;
        break;
    case PASTUREQUILL_BACK:
        memset(out, 0, sizeof *out);
        for (size_t k = 1; k < instants; k++)
            out->at[k][k - 1] = 2;
        break;
    case PASTUREQUILL_TEST:
        value_formula(t, a);
        memset(out, 0, sizeof *out);
        for (size_t k = 0; k < instants; k++)
            out->at[k][k] = t->table[a * instants + k];
        break;
    case PASTUREQUILL_CHOICE: {
        square q;
        value_path(t, a, out);
        value_path(t, b, &q);
        uint8_t *restrict to = &out->at[0][0];
        const uint8_t *restrict from = &q.at[0][0];
        for (size_t c = 0; c < MOST * MOST; c++)
            to[c] = to[c] > from[c] ? to[c] : from[c];
        break;
    }
    case PASTUREQUILL_SEQUENCE:
        value_sequence(t, a, b, out);
        break;
    case PASTUREQUILL_STAR:
        value_star(t, a, out);
        break;
    }
}

/* A modality's parts: its path, and its formula's values. */
static inline void value_parts(const struct task *t, size_t a, size_t b, square *p, uint8_t *ends)
{
    value_path(t, a, p);
    value_formula(t, b);
    put_ends(t->instants, t->table + b * t->instants, ends);
}

/* What a diamond is worth, by a row of ways and the values at their ends. */
static inline uint8_t best_end(const uint8_t *ways, const uint8_t *ends)
{
    uint8_t best = 0;
    for (size_t j = 0; j < MOST; j++) {
        uint8_t v = ways[j] < ends[j] ? ways[j] : ends[j];
        best = best > v ? best : v;
    }
    return best;
}

/* What a box is worth. */
static inline uint8_t worst_end(const uint8_t *ways, const uint8_t *ends)
{
    uint8_t worst = 2;
    for (size_t j = 0; j < MOST; j++) {
        uint8_t v = ways[j] <= ends[j] ? 2 : ends[j];
        worst = worst < v ? worst : v;
    }
    return worst;
}

static void value_formula(const struct task *t, size_t r)
{
    const uint8_t *record = record_of(t, r);
    size_t instants = t->instants, a = record[FIELD_A], b = record[FIELD_B];
    uint8_t *to = t->table + r * instants, ends[MOST];
    square p;

    switch (record[KIND]) {
    case PASTUREQUILL_FALSE:
    case PASTUREQUILL_TRUE:
    case PASTUREQUILL_ATOM:
        put_leaf(t, r);
        break;
    case PASTUREQUILL_DIAMOND:
        value_parts(t, a, b, &p, ends);
        for (size_t k = 0; k < instants; k++)
            to[k] = best_end(p.at[k], ends);
        break;
    case PASTUREQUILL_BOX:
        value_parts(t, a, b, &p, ends);
        for (size_t k = 0; k < instants; k++)
            to[k] = worst_end(p.at[k], ends);
        break;
    }
}

#endif
