/* The checker: one pass, in which each record is held to its kind's demands, and who is whose child is kept along. A
 * record that fails is looked at again, demand by demand, for the first that it fails. */
#include "checker.h"

#include "records.h"

/* What a field holds. A record's sort is numbered as the fields that may hold it. */
enum use { NOTHING, NUMBER, FORMULA, PATH };

/* What a kind demands: who takes it, its sort, and what its fields hold. */
enum taken { BY_NONE, BY_EXPANDER, BY_ALL };

struct shape {
    uint8_t taken, sort, a, b;
};

#define CORE(sort, a, b) {BY_ALL, sort, a, b}
#define SHORTHAND(a, b) {BY_EXPANDER, FORMULA, a, b}

static const struct shape shapes[UINT8_MAX + 1] = {
    [PASTUREQUILL_FALSE] = CORE(FORMULA, NOTHING, NOTHING),
    [PASTUREQUILL_TRUE] = CORE(FORMULA, NOTHING, NOTHING),
    [PASTUREQUILL_ATOM] = CORE(FORMULA, NUMBER, NOTHING),
    [PASTUREQUILL_DIAMOND] = CORE(FORMULA, PATH, FORMULA),
    [PASTUREQUILL_BOX] = CORE(FORMULA, PATH, FORMULA),
    [PASTUREQUILL_STEP] = CORE(PATH, NOTHING, NOTHING),
    [PASTUREQUILL_BACK] = CORE(PATH, NOTHING, NOTHING),
    [PASTUREQUILL_TEST] = CORE(PATH, FORMULA, NOTHING),
    [PASTUREQUILL_CHOICE] = CORE(PATH, PATH, PATH),
    [PASTUREQUILL_SEQUENCE] = CORE(PATH, PATH, PATH),
    [PASTUREQUILL_STAR] = CORE(PATH, PATH, NOTHING),
    [PASTUREQUILL_NOT] = SHORTHAND(FORMULA, NOTHING),
    [PASTUREQUILL_AND] = SHORTHAND(FORMULA, FORMULA),
    [PASTUREQUILL_OR] = SHORTHAND(FORMULA, FORMULA),
    [PASTUREQUILL_IMPLIES] = SHORTHAND(FORMULA, FORMULA),
    [PASTUREQUILL_FINAL] = SHORTHAND(NOTHING, NOTHING),
    [PASTUREQUILL_INITIAL] = SHORTHAND(NOTHING, NOTHING),
    [PASTUREQUILL_NEXT] = SHORTHAND(FORMULA, NOTHING),
    [PASTUREQUILL_WEAK_NEXT] = SHORTHAND(FORMULA, NOTHING),
    [PASTUREQUILL_PREVIOUS] = SHORTHAND(FORMULA, NOTHING),
    [PASTUREQUILL_WEAK_PREVIOUS] = SHORTHAND(FORMULA, NOTHING),
    [PASTUREQUILL_EVENTUALLY] = SHORTHAND(FORMULA, NOTHING),
    [PASTUREQUILL_ALWAYS] = SHORTHAND(FORMULA, NOTHING),
    [PASTUREQUILL_ONCE] = SHORTHAND(FORMULA, NOTHING),
    [PASTUREQUILL_SO_FAR] = SHORTHAND(FORMULA, NOTHING),
    [PASTUREQUILL_UNTIL] = SHORTHAND(FORMULA, FORMULA),
    [PASTUREQUILL_SINCE] = SHORTHAND(FORMULA, FORMULA),
};

static inline int is_child(uint8_t use) { return use >= FORMULA; }

/* ---- a record that fails a demand */
static int is_stray(uint8_t use, size_t field) { return use == NOTHING && field != 0; }
static int is_late(uint8_t use, size_t field, size_t r) { return is_child(use) && field >= r; }
static int is_beyond(uint8_t use, size_t field, uint64_t atoms) { return use == NUMBER && field >= atoms; }

/* The first refusal of a record, of which it is known that there is one. */
static uint8_t record_refusal(const uint8_t *records, size_t r, enum taken taken, uint64_t atoms)
{
    const struct shape shape = shapes[kind_of(records, r)];
    size_t a = field_a(records, r), b = field_b(records, r);
    if (shape.taken < taken)
        return PASTUREQUILL_UNKNOWN_KIND;
    if (records[RECORD_SIZE * r + ZERO] != 0 || is_stray(shape.a, a) || is_stray(shape.b, b))
        return PASTUREQUILL_NOT_ZERO;
    if (is_late(shape.a, a, r) || is_late(shape.b, b, r))
        return PASTUREQUILL_LATE_CHILD;
    if (is_beyond(shape.a, a, atoms))
        return PASTUREQUILL_NO_SUCH_ATOM;
    return PASTUREQUILL_WRONG_SORT;
}

/* ---- all records */
/* What is known of the records passed: each one's sort, with a mark once a field holds it. */
enum { HELD = 128 };

struct passed {
    uint64_t limits[FORMULA]; /* what a field without a child must be below */
    uint8_t sorts[MOST_RECORDS];
    uint8_t found; /* all that stood in sorts when a field came to hold the record */
    size_t children;
};

/* Whether a field of record r holds what it may; its child is marked. */
static inline int fits(struct passed *p, uint8_t use, size_t field, size_t r)
{
    if (!is_child(use))
        return field < p->limits[use];
    if (field >= r)
        return 0;
    uint8_t found = p->sorts[field];
    p->sorts[field] = use | HELD;
    p->found |= found;
    p->children++;
    return (found & ~HELD) == use;
}

/* Whether record r meets its demands. */
static inline int pass(struct passed *p, const uint8_t *records, size_t r, enum taken taken)
{
    const struct shape shape = shapes[kind_of(records, r)];
    p->sorts[r] = shape.sort;
    return shape.taken >= taken && records[RECORD_SIZE * r + ZERO] == 0 && fits(p, shape.a, field_a(records, r), r) &&
           fits(p, shape.b, field_b(records, r), r);
}

/* Each record before the last is held once if none was held before and there are as many children as such records. */
static inline uint8_t check(const uint8_t *records, size_t records_size, enum taken taken, uint64_t atoms)
{
    if (records_size == 0 || records_size % RECORD_SIZE != 0 || records_size > MOST_BYTES)
        return PASTUREQUILL_WRONG_LENGTH;
    if (atoms > PASTUREQUILL_MOST_ATOMS)
        return PASTUREQUILL_WRONG_SIZE;
    struct passed p;
    p.limits[NOTHING] = 1;
    p.limits[NUMBER] = atoms;
    p.found = 0;
    p.children = 0;
    size_t n = records_size / RECORD_SIZE;
    for (size_t r = 0; r < n; r++)
        if (!pass(&p, records, r, taken))
            return record_refusal(records, r, taken, atoms);
    if (p.sorts[n - 1] == PATH)
        return PASTUREQUILL_WRONG_SORT;
    return (p.found & HELD) != 0 || p.children != n - 1 ? PASTUREQUILL_NOT_A_TREE : PASTUREQUILL_ACCEPTED;
}

uint8_t check_core(const uint8_t *records, size_t records_size, uint64_t atoms)
{
    return check(records, records_size, BY_ALL, atoms);
}

uint8_t check_full(const uint8_t *records, size_t records_size, uint64_t atoms)
{
    return check(records, records_size, BY_EXPANDER, atoms);
}
