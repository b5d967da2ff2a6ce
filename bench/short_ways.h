/* Sequences and stars, written once for the valuers by rows and by bits. Where SHORT_WAYS is 1 they go every short way
 * that the library goes, so that no two squares are joined and none is closed where less will do; where it is 0, only a
 * test before a path is spared its square. Whoever includes this says which, and has these before:
 *   square, row               a path's values, a formula's values
 *   value_path, value_test    the square of a path, the values of the formula that a test asks for
 *   follow, repeat            one path after the other; a star, in place
 *   cap_rows, cap_columns     a test before a path and after it, in place
 *   lead_move, follow_move    a move before a path and after it, in place
 *   run                       the star of a path that leads from each instant to the one beside alone, in place */
#ifndef SHORT_WAYS_H
#define SHORT_WAYS_H

#include "valuers.h"

static inline int is_move(uint8_t kind) { return kind == PASTUREQUILL_STEP || kind == PASTUREQUILL_BACK; }

/* The kind of a path's one move, if tests before it or after it are all else that the path has; else another kind. */
static inline uint8_t one_way(const struct task *t, size_t p)
{
    const uint8_t *path = record_of(t, p);
    while (path[KIND] == PASTUREQUILL_SEQUENCE) {
        const uint8_t *first = record_of(t, path[FIELD_A]), *next = record_of(t, path[FIELD_B]);
        if (first[KIND] == PASTUREQUILL_TEST)
            path = next;
        else if (next[KIND] == PASTUREQUILL_TEST)
            path = first;
        else
            break;
    }
    return path[KIND];
}

static inline void value_sequence(const struct task *t, size_t a, size_t b, square *out)
{
    uint8_t first = record_of(t, a)[KIND], next = record_of(t, b)[KIND];
    if (first == PASTUREQUILL_TEST) {
        row tested = value_test(t, a);
        value_path(t, b, out);
        cap_rows(t->instants, out, tested);
    } else if (SHORT_WAYS && is_move(first)) {
        clear_row(t, a);
        value_path(t, b, out);
        lead_move(t->instants, out, first);
    } else if (SHORT_WAYS && is_move(next)) {
        clear_row(t, b);
        value_path(t, a, out);
        follow_move(t->instants, out, next);
    } else if (SHORT_WAYS && next == PASTUREQUILL_TEST) {
        row tested = value_test(t, b);
        value_path(t, a, out);
        cap_columns(t->instants, out, tested);
    } else {
        square p, q;
        value_path(t, a, &p);
        value_path(t, b, &q);
        follow(t->instants, &p, &q, out);
    }
}

static inline void value_star(const struct task *t, size_t a, square *out)
{
    value_path(t, a, out);
    if (SHORT_WAYS) {
        uint8_t way = one_way(t, a);
        if (is_move(way)) {
            run(t->instants, out, way);
            return;
        }
        /* A star is its own star. */
        if (record_of(t, a)[KIND] == PASTUREQUILL_STAR)
            return;
    }
    repeat(t->instants, out);
}

#endif
