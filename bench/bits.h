/* The valuer by bits: a row of values is two masks, in which bit j tells whether the value at j is at least 1, and
 * whether it is 2. A least or a greatest of values is then an and or an or of masks, 32 instants at once. Bits past L
 * are 0. Whoever includes this says by SHORT_WAYS how sequences and stars go. */
#ifndef BITS_H
#define BITS_H

#include "valuers.h"

typedef struct {
    uint32_t some, full; /* values of at least 1; values of 2 */
} row;

typedef struct {
    uint32_t some[MOST], full[MOST];
} square;

/* Bit k at k: a table, so that loops over k become vector code. */
#define FOUR(k) UINT32_C(1) << (k), UINT32_C(1) << ((k) + 1), UINT32_C(1) << ((k) + 2), UINT32_C(1) << ((k) + 3)
static const uint32_t bit[MOST] = {FOUR(0), FOUR(4), FOUR(8), FOUR(12), FOUR(16), FOUR(20), FOUR(24), FOUR(28)};

static void value_path(const struct task *t, size_t r, square *out);
static row value_formula(const struct task *t, size_t r);

static inline row value_test(const struct task *t, size_t r)
{
    clear_row(t, r);
    return value_formula(t, record_of(t, r)[FIELD_A]);
}

/* The instants of a trace. */
static inline uint32_t all_instants(size_t instants)
{
    return UINT32_MAX >> (MOST - instants);
}

/* ---- one path after the other */
/* Whether some row has more than eight bits. */
static inline int dense(const uint32_t *p)
{
    uint32_t more = 0;
    for (size_t k = 0; k < MOST; k++) {
        uint32_t rest = p[k];
        for (int i = 0; i < 8; i++)
            rest &= rest - 1;
        more |= rest;
    }
    return more != 0;
}

/* Adds the instants `way` to each row whose row in p has the bit `at`. It stands by itself, so that the compiler does
 * not turn the loops around it inside out and keeps four rows in one vector. */
static __attribute__((noinline)) void add_way(uint32_t *restrict out, const uint32_t *restrict p, uint32_t at,
                                              uint32_t way)
{
    for (size_t k = 0; k < MOST; k++)
        out[k] |= (p[k] & at) != 0 ? way : 0;
}

/* The instants that p leads to and then q, for one of the two masks: the rows of q at each instant that p reaches.
 * Where p reaches many at once, whole vectors are taken; else each row's few bits one by one. */
static inline void follow_mask(const uint32_t *restrict p, const uint32_t *restrict q, uint32_t *restrict out)
{
    if (dense(p)) {
        memset(out, 0, MOST * sizeof *out);
        for (size_t i = 0; i < MOST; i++)
            if (q[i] != 0)
                add_way(out, p, bit[i], q[i]);
    } else {
        for (size_t k = 0; k < MOST; k++) {
            uint32_t reached = 0;
            for (uint32_t left = p[k]; left != 0; left &= left - 1)
                reached |= q[__builtin_ctz(left)];
            out[k] = reached;
        }
    }
}

static inline void follow(size_t instants, const square *p, const square *q, square *out)
{
    (void)instants;
    follow_mask(p->some, q->some, out->some);
    follow_mask(p->full, q->full, out->full);
}

/* A test before a path, for one of the two masks: nothing leads on from an instant without the bit. */
static inline void cap_mask(uint32_t *p, uint32_t tested)
{
    for (size_t k = 0; k < MOST; k++)
        p[k] = (tested & bit[k]) != 0 ? p[k] : 0;
}

static inline void cap_rows(size_t instants, square *p, row tested)
{
    (void)instants;
    cap_mask(p->some, tested.some);
    cap_mask(p->full, tested.full);
}

/* A test after a path: nothing leads to an instant without the bit. */
static inline void cap_columns(size_t instants, square *p, row tested)
{
    (void)instants;
    for (size_t k = 0; k < MOST; k++) {
        p->some[k] &= tested.some;
        p->full[k] &= tested.full;
    }
}

/* A move before a path, for one of the two masks: each row is the one beside. */
static inline void lead_mask(size_t instants, uint32_t *p, uint8_t move)
{
    size_t kept = (instants - 1) * sizeof *p;
    memmove(p + (move == PASTUREQUILL_BACK), p + (move == PASTUREQUILL_STEP), kept);
    p[move == PASTUREQUILL_STEP ? instants - 1 : 0] = 0;
}

static inline void lead_move(size_t instants, square *p, uint8_t move)
{
    lead_mask(instants, p->some, move);
    lead_mask(instants, p->full, move);
}

/* A move after a path: each row moves on by one place, or back. */
static inline void follow_move(size_t instants, square *p, uint8_t move)
{
    uint32_t all = all_instants(instants);
    for (size_t k = 0; k < MOST; k++) {
        p->some[k] = (move == PASTUREQUILL_STEP ? p->some[k] << 1 : p->some[k] >> 1) & all;
        p->full[k] = (move == PASTUREQUILL_STEP ? p->full[k] << 1 : p->full[k] >> 1) & all;
    }
}

/* ---- stars */
/* Staying, for one of the two masks. */
static inline void stand(size_t instants, uint32_t *p)
{
    uint32_t all = all_instants(instants);
    for (size_t k = 0; k < MOST; k++)
        p[k] |= bit[k] & all;
}

/* Each instant in turn is allowed on the way. */
static inline void repeat_mask(size_t instants, uint32_t *p)
{
    stand(instants, p);
    for (size_t i = 0; i < instants; i++) {
        uint32_t at = bit[i], way = p[i];
        for (size_t k = 0; k < MOST; k++)
            p[k] |= (p[k] & at) != 0 ? way : 0;
    }
}

static inline void repeat(size_t instants, square *p)
{
    repeat_mask(instants, p->some);
    repeat_mask(instants, p->full);
}

/* Where one move leads on, a row needs the one beside alone, which is done before it. */
static inline void run_mask(size_t instants, uint32_t *p, uint8_t move)
{
    stand(instants, p);
    if (move == PASTUREQUILL_STEP)
        for (size_t k = instants - 1; k-- > 0;)
            p[k] |= (p[k] & bit[k + 1]) != 0 ? p[k + 1] : 0;
    else
        for (size_t k = 1; k < instants; k++)
            p[k] |= (p[k] & bit[k - 1]) != 0 ? p[k - 1] : 0;
}

static inline void run(size_t instants, square *p, uint8_t move)
{
    run_mask(instants, p->some, move);
    run_mask(instants, p->full, move);
}

#include "short_ways.h"

/* ---- records */
/* Eight bits as eight bytes of 0 or 1: the product has bit j at 8j too, for j below 7, and no two of its terms meet. */
static inline uint64_t spread(uint32_t bits)
{
    return ((bits & 0x7f) * UINT64_C(0x0002040810204081) & UINT64_C(0x0101010101010101)) | (uint64_t)(bits >> 7 & 1)
                                                                                               << 56;
}

/* A row as bytes: one for each of the two masks that has the instant. */
static inline void put_values(row values, uint8_t *to, size_t instants)
{
    uint64_t bytes[MOST / 8];
    for (size_t i = 0; i < MOST / 8; i++)
        bytes[i] = spread(values.some >> 8 * i) + spread(values.full >> 8 * i);
    memcpy(to, bytes, instants);
}

static void value_path(const struct task *t, size_t r, square *out)
{
    const uint8_t *record = record_of(t, r);
    size_t a = record[FIELD_A], b = record[FIELD_B];
    uint32_t all = all_instants(t->instants);

    clear_row(t, r);
    switch (record[KIND]) {
    case PASTUREQUILL_STEP:
        for (size_t k = 0; k < MOST; k++)
            out->some[k] = out->full[k] = bit[k] << 1 & all;
        break;
    case PASTUREQUILL_BACK:
        for (size_t k = 0; k < MOST; k++)
            out->some[k] = out->full[k] = (bit[k] & all) >> 1;
        break;
    case PASTUREQUILL_TEST: {
        row f = value_formula(t, a);
        for (size_t k = 0; k < MOST; k++) {
            out->some[k] = f.some & bit[k];
            out->full[k] = f.full & bit[k];
        }
        break;
    }
    case PASTUREQUILL_CHOICE: {
        square q;
        value_path(t, a, out);
        value_path(t, b, &q);
        for (size_t k = 0; k < MOST; k++) {
            out->some[k] |= q.some[k];
            out->full[k] |= q.full[k];
        }
        break;
    }
    case PASTUREQUILL_SEQUENCE:
        value_sequence(t, a, b, out);
        break;
    case PASTUREQUILL_STAR:
        value_star(t, a, out);
        break;
    }
}

static row value_formula(const struct task *t, size_t r)
{
    const uint8_t *record = record_of(t, r);
    size_t instants = t->instants, a = record[FIELD_A], b = record[FIELD_B];
    uint32_t all = all_instants(instants);
    row out = {0, 0};

    switch (record[KIND]) {
    case PASTUREQUILL_FALSE:
        break;
    case PASTUREQUILL_TRUE:
        out.some = out.full = all;
        break;
    case PASTUREQUILL_ATOM:
        for (size_t k = 0; k < instants; k++) {
            uint32_t u = t->cells[k * t->atoms + a];
            out.some |= (uint32_t)(u >= 1) << k;
            out.full |= (uint32_t)(u == 2) << k;
        }
        break;
    case PASTUREQUILL_DIAMOND: {
        square p;
        value_path(t, a, &p);
        row f = value_formula(t, b);
        for (size_t k = 0; k < MOST; k++)
            out.some |= (p.some[k] & f.some) != 0 ? bit[k] : 0;
        for (size_t k = 0; k < MOST; k++)
            out.full |= (p.full[k] & f.full) != 0 ? bit[k] : 0;
        break;
    }
    /* An implication is worth at least 1 unless its conclusion is 0 and its premise is not; it is worth 2 where besides
     * no conclusion of 1 stands under a premise of 2. */
    case PASTUREQUILL_BOX: {
        square p;
        value_path(t, a, &p);
        row f = value_formula(t, b);
        for (size_t k = 0; k < MOST; k++) {
            uint32_t none = p.some[k] & ~f.some, half = p.full[k] & ~f.full;
            out.some |= none == 0 ? bit[k] : 0;
            out.full |= (none | half) == 0 ? bit[k] : 0;
        }
        out.some &= all;
        out.full &= all;
        break;
    }
    }
    put_values(out, t->table + r * instants, instants);
    return out;
}

#endif
