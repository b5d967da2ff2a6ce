/* Tables of cases over records: ATOM(0), TEST(0), STEP, SEQUENCE(1, 2) and so on are a record each. */
#ifndef CASES_H
#define CASES_H

#include "tables.h"
#include "written.h"

/* One record, by its kind's number or by the name of it; Z has something in its zero byte. */
#define R(kind, a, b) Z(kind, 0, a, b)
#define K(name, a, b) R(PASTUREQUILL_##name, a, b)
#define Z(kind, zero, a, b)                                                                          \
    {[KIND] = kind, [ZERO] = zero, [FIELD_A] = (a) & UINT8_MAX, [FIELD_A + HIGH] = (a) >> 8,         \
     [FIELD_B] = (b) & UINT8_MAX, [FIELD_B + HIGH] = (b) >> 8}

#define FALSE_ K(FALSE, 0, 0)
#define TRUE_ K(TRUE, 0, 0)
#define ATOM(i) K(ATOM, i, 0)
#define DIAMOND(p, f) K(DIAMOND, p, f)
#define BOX(p, f) K(BOX, p, f)
#define STEP K(STEP, 0, 0)
#define BACK K(BACK, 0, 0)
#define TEST(f) K(TEST, f, 0)
#define CHOICE(p, q) K(CHOICE, p, q)
#define SEQUENCE(p, q) K(SEQUENCE, p, q)
#define STAR(p) K(STAR, p, 0)

/* The bytes of some records. */
#define RECORDS(...) \
    {(const uint8_t[][RECORD_SIZE]){__VA_ARGS__}[0], sizeof((const uint8_t[][RECORD_SIZE]){__VA_ARGS__})}

static inline struct bytes bytes_of(const struct formula *f) { return (struct bytes){f->records, size_of(f)}; }

/* A formula in a table: as it is written over p, q and r, or record by record. */
struct source { const char *written; struct bytes listed; };

#define F(text) {text, NONE}
#define LISTED(...) {NULL, RECORDS(__VA_ARGS__)}

/* Its records; those of a written one are put into this room. */
static inline struct bytes records_of(const struct source *s, struct formula *room)
{
    if (s->written == NULL)
        return s->listed;
    *room = written("pqr", s->written);
    return bytes_of(room);
}

/* What is written with something before it and after it, so many times. */
static inline struct formula nested(size_t times, const char *before, const char *inner, const char *after)
{
    char text[1 << 12], *end = text;
    for (size_t i = 0; i < times; i++)
        end = stpcpy(end, before);
    end = stpcpy(end, inner);
    for (size_t i = 0; i < times; i++)
        end = stpcpy(end, after);
    return written("pqr", text);
}

/* Records of one field on top of each other, so many. */
static inline size_t add_times(struct formula *f, uint8_t kind, size_t times, size_t g)
{
    for (size_t i = 0; i < times; i++)
        g = add(f, kind, g, 0);
    return g;
}

/* A formula of so many records, three or more: a step under stars, what they lead to, and a diamond. */
static inline struct formula stars(size_t records, uint8_t end)
{
    struct formula f = {.n = 0};
    size_t path = add_times(&f, PASTUREQUILL_STAR, records - 3, step(&f));
    diamond(&f, path, add(&f, end, 0, 0));
    return f;
}

/* ---- refusals */
struct records_case {
    const char *reason;
    int refusal;
    uint64_t atoms;
    struct bytes records;
};

#define CASE(refusal, atoms, reason, ...) ROW(refusal, reason, atoms, RECORDS(__VA_ARGS__))

typedef void expect_records(const char *reason, struct bytes records, uint64_t atoms, int refusal);

static inline void expect_each(const struct records_case *cases, const struct records_case *end, expect_records *expect)
{
    for (const struct records_case *c = cases; c < end; c++)
        expect(c->reason, c->records, c->atoms, c->refusal);
}

#endif
