/* The plain valuer: each sentence of the reading as a loop, values as bytes, a square as L rows of L bytes. */
#include "valuers.h"
#include "values.h"

typedef uint8_t square[MOST][MOST];

static void value_formula(const struct task *t, size_t r);

/* One path after the other: the greatest over all instants on the way. */
static void follow(size_t instants, square p, square q, square out)
{
    for (size_t k = 0; k < instants; k++)
        for (size_t j = 0; j < instants; j++) {
            out[k][j] = 0;
            for (size_t i = 0; i < instants; i++)
                out[k][j] = greater(out[k][j], smaller(p[k][i], q[i][j]));
        }
}

/* Staying, or one more pass, until that gives nothing more. */
static void repeat(size_t instants, square p, square out)
{
    square longer;
    int changed;

    for (size_t k = 0; k < instants; k++)
        for (size_t j = 0; j < instants; j++)
            out[k][j] = k == j ? 2 : 0;
    do {
        changed = 0;
        follow(instants, p, out, longer);
        for (size_t k = 0; k < instants; k++)
            for (size_t j = 0; j < instants; j++)
                if (longer[k][j] > out[k][j]) {
                    out[k][j] = longer[k][j];
                    changed = 1;
                }
    } while (changed);
}

static void value_path(const struct task *t, size_t r, square out)
{
    const uint8_t *record = record_of(t, r);
    size_t instants = t->instants, a = record[FIELD_A], b = record[FIELD_B];
    square p, q;

    switch (record[KIND]) {
    case PASTUREQUILL_STEP:
        for (size_t k = 0; k < instants; k++)
            for (size_t j = 0; j < instants; j++)
                out[k][j] = j == k + 1 ? 2 : 0;
        break;
    case PASTUREQUILL_BACK:
        for (size_t k = 0; k < instants; k++)
            for (size_t j = 0; j < instants; j++)
                out[k][j] = j + 1 == k ? 2 : 0;
        break;
    case PASTUREQUILL_TEST:
        value_formula(t, a);
        for (size_t k = 0; k < instants; k++)
            for (size_t j = 0; j < instants; j++)
                out[k][j] = j == k ? t->table[a * instants + k] : 0;
        break;
    case PASTUREQUILL_CHOICE:
        value_path(t, a, p);
        value_path(t, b, q);
        for (size_t k = 0; k < instants; k++)
            for (size_t j = 0; j < instants; j++)
                out[k][j] = greater(p[k][j], q[k][j]);
        break;
    case PASTUREQUILL_SEQUENCE:
        value_path(t, a, p);
        value_path(t, b, q);
        follow(instants, p, q, out);
        break;
    case PASTUREQUILL_STAR:
        value_path(t, a, p);
        repeat(instants, p, out);
        break;
    }
    clear_row(t, r);
}

static void value_formula(const struct task *t, size_t r)
{
    const uint8_t *record = record_of(t, r);
    size_t instants = t->instants, a = record[FIELD_A], b = record[FIELD_B];
    uint8_t *row = t->table + r * instants;
    square p;

    switch (record[KIND]) {
    case PASTUREQUILL_FALSE:
    case PASTUREQUILL_TRUE:
    case PASTUREQUILL_ATOM:
        put_leaf(t, r);
        break;
    case PASTUREQUILL_DIAMOND:
        value_path(t, a, p);
        value_formula(t, b);
        for (size_t k = 0; k < instants; k++) {
            row[k] = 0;
            for (size_t j = 0; j < instants; j++)
                row[k] = greater(row[k], smaller(p[k][j], t->table[b * instants + j]));
        }
        break;
    case PASTUREQUILL_BOX:
        value_path(t, a, p);
        value_formula(t, b);
        for (size_t k = 0; k < instants; k++) {
            row[k] = 2;
            for (size_t j = 0; j < instants; j++)
                row[k] = smaller(row[k], implies(p[k][j], t->table[b * instants + j]));
        }
        break;
    }
}

void value_plain(const struct task *t)
{
    value_formula(t, t->n - 1);
}
