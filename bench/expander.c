/* The expander: each shorthand of the specification's list as a case here. */
#include "expander.h"

#include "checker.h"
#include "records.h"

/* How many records come out for one record of a kind that is taken, those of its children apart. */
static size_t own_records(uint8_t kind)
{
    static const uint8_t more[PASTUREQUILL_SINCE + 1] = {
        [PASTUREQUILL_NOT] = 2,           [PASTUREQUILL_AND] = 1,        [PASTUREQUILL_OR] = 4,
        [PASTUREQUILL_IMPLIES] = 1,       [PASTUREQUILL_FINAL] = 2,      [PASTUREQUILL_INITIAL] = 2,
        [PASTUREQUILL_NEXT] = 1,          [PASTUREQUILL_WEAK_NEXT] = 1,  [PASTUREQUILL_PREVIOUS] = 1,
        [PASTUREQUILL_WEAK_PREVIOUS] = 1, [PASTUREQUILL_EVENTUALLY] = 2, [PASTUREQUILL_ALWAYS] = 2,
        [PASTUREQUILL_ONCE] = 2,          [PASTUREQUILL_SO_FAR] = 2,     [PASTUREQUILL_UNTIL] = 4,
        [PASTUREQUILL_SINCE] = 4,
    };
    return 1 + (size_t)more[kind];
}

/* ---- writing */
struct writer {
    const uint8_t *records;
    uint8_t *out;
    size_t n; /* how many are written */
};

/* Here and below, what is written last stands for the whole, and its number is given back. */
static size_t put(struct writer *w, uint8_t kind, size_t a, size_t b)
{
    put_record(w->out + RECORD_SIZE * w->n, kind, a, b);
    return w->n++;
}

static size_t put_tree(struct writer *w, size_t r);

static size_t put_star(struct writer *w, size_t path) { return put(w, PASTUREQUILL_STAR, path, 0); }

/* The test of a record's tree. */
static size_t put_test(struct writer *w, size_t r)
{
    size_t tested = put_tree(w, r);
    return put(w, PASTUREQUILL_TEST, tested, 0);
}

/* A record over what is written and a further record's tree. */
static size_t put_over(struct writer *w, uint8_t kind, size_t first, size_t r)
{
    size_t second = put_tree(w, r);
    return put(w, kind, first, second);
}

/* A modality over one move, or over its star. */
static size_t put_beside(struct writer *w, uint8_t modality, uint8_t move, size_t r)
{
    size_t path = put(w, move, 0, 0);
    return put_over(w, modality, path, r);
}

static size_t put_along(struct writer *w, uint8_t modality, uint8_t move, size_t r)
{
    size_t path = put_star(w, put(w, move, 0, 0));
    return put_over(w, modality, path, r);
}

/* A box over a path and false. */
static size_t put_never(struct writer *w, size_t path)
{
    size_t end = put(w, PASTUREQUILL_FALSE, 0, 0);
    return put(w, PASTUREQUILL_BOX, path, end);
}

static size_t put_or(struct writer *w, size_t a, size_t b)
{
    size_t first = put_test(w, a), second = put_test(w, b);
    size_t path = put(w, PASTUREQUILL_CHOICE, first, second), end = put(w, PASTUREQUILL_TRUE, 0, 0);
    return put(w, PASTUREQUILL_DIAMOND, path, end);
}

/* Until and since: as long as a holds, moves go on to b. */
static size_t put_held(struct writer *w, uint8_t move, size_t a, size_t b)
{
    size_t tested = put_test(w, a), on = put(w, move, 0, 0);
    size_t path = put_star(w, put(w, PASTUREQUILL_SEQUENCE, tested, on));
    return put_over(w, PASTUREQUILL_DIAMOND, path, b);
}

/* The tree of record r. */
static size_t put_tree(struct writer *w, size_t r)
{
    uint8_t kind = kind_of(w->records, r);
    size_t a = field_a(w->records, r), b = field_b(w->records, r);
    switch (kind) {
    case PASTUREQUILL_DIAMOND:
    case PASTUREQUILL_BOX:
    case PASTUREQUILL_CHOICE:
    case PASTUREQUILL_SEQUENCE:
        return put_over(w, kind, put_tree(w, a), b);
    case PASTUREQUILL_TEST:
    case PASTUREQUILL_STAR:
        return put(w, kind, put_tree(w, a), 0);
    case PASTUREQUILL_NOT:
        return put_never(w, put_test(w, a));
    case PASTUREQUILL_AND:
        return put_over(w, PASTUREQUILL_DIAMOND, put_test(w, a), b);
    case PASTUREQUILL_OR:
        return put_or(w, a, b);
    case PASTUREQUILL_IMPLIES:
        return put_over(w, PASTUREQUILL_BOX, put_test(w, a), b);
    case PASTUREQUILL_FINAL:
        return put_never(w, put(w, PASTUREQUILL_STEP, 0, 0));
    case PASTUREQUILL_INITIAL:
        return put_never(w, put(w, PASTUREQUILL_BACK, 0, 0));
    case PASTUREQUILL_NEXT:
        return put_beside(w, PASTUREQUILL_DIAMOND, PASTUREQUILL_STEP, a);
    case PASTUREQUILL_WEAK_NEXT:
        return put_beside(w, PASTUREQUILL_BOX, PASTUREQUILL_STEP, a);
    case PASTUREQUILL_PREVIOUS:
        return put_beside(w, PASTUREQUILL_DIAMOND, PASTUREQUILL_BACK, a);
    case PASTUREQUILL_WEAK_PREVIOUS:
        return put_beside(w, PASTUREQUILL_BOX, PASTUREQUILL_BACK, a);
    case PASTUREQUILL_EVENTUALLY:
        return put_along(w, PASTUREQUILL_DIAMOND, PASTUREQUILL_STEP, a);
    case PASTUREQUILL_ALWAYS:
        return put_along(w, PASTUREQUILL_BOX, PASTUREQUILL_STEP, a);
    case PASTUREQUILL_ONCE:
        return put_along(w, PASTUREQUILL_DIAMOND, PASTUREQUILL_BACK, a);
    case PASTUREQUILL_SO_FAR:
        return put_along(w, PASTUREQUILL_BOX, PASTUREQUILL_BACK, a);
    case PASTUREQUILL_UNTIL:
        return put_held(w, PASTUREQUILL_STEP, a, b);
    case PASTUREQUILL_SINCE:
        return put_held(w, PASTUREQUILL_BACK, a, b);
    default: /* false, true, an atom, a step, a back step */
        return put(w, kind, a, 0);
    }
}

/* ---- the service */
/* The tree has each record once, so what comes out is the sum over the records. */
static size_t expanded_size(const uint8_t *records, size_t n)
{
    size_t size = 0;
    for (size_t r = 0; r < n; r++)
        size += own_records(kind_of(records, r));
    return size;
}

pasturequill_counted expand_checked(const uint8_t *records, size_t records_size, uint64_t atoms, uint8_t *out,
                                    size_t out_size)
{
    uint8_t refusal = check_full(records, records_size, atoms);
    if (refusal != PASTUREQUILL_ACCEPTED)
        return (pasturequill_counted){.refusal = refusal};
    size_t n = records_size / RECORD_SIZE, size = expanded_size(records, n);
    if (size > MOST_RECORDS)
        return (pasturequill_counted){.refusal = PASTUREQUILL_TOO_LONG};
    if (out_size < RECORD_SIZE * size)
        return (pasturequill_counted){.refusal = PASTUREQUILL_NO_ROOM};
    struct writer w = {records, out, 0};
    put_tree(&w, n - 1);
    return (pasturequill_counted){.count = size};
}
