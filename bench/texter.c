/* The writer and the reader of text: each sign of the form as a case here. */
#include "texter.h"

#include "checker.h"
#include "records.h"

enum { MOST_ATOMS = PASTUREQUILL_MOST_ATOMS };

/* How many signs a constant has. */
#define SIZE(signs) (sizeof signs - 1)

static pasturequill_counted refused(uint8_t refusal) { return (pasturequill_counted){.refusal = refusal}; }

/* ---- writing */
/* How many bytes the signs of a record have, those of its children apart; none for a back step. */
static size_t own_bytes(const uint8_t *records, size_t r)
{
    static const uint8_t sizes[] = {
        [PASTUREQUILL_FALSE] = SIZE("#false"), [PASTUREQUILL_TRUE] = SIZE("#true"),
        [PASTUREQUILL_ATOM] = SIZE("p0"),      [PASTUREQUILL_DIAMOND] = SIZE("(.>?)"),
        [PASTUREQUILL_BOX] = SIZE("(.>*)"),    [PASTUREQUILL_STEP] = SIZE("&t"),
        [PASTUREQUILL_BACK] = SIZE(""),        [PASTUREQUILL_TEST] = SIZE("?"),
        [PASTUREQUILL_CHOICE] = SIZE("(+)"),   [PASTUREQUILL_SEQUENCE] = SIZE("(;)"),
        [PASTUREQUILL_STAR] = SIZE("*"),
    };
    uint8_t kind = kind_of(records, r);
    return (size_t)sizes[kind] + (kind == PASTUREQUILL_ATOM && field_a(records, r) >= 10);
}

struct writer {
    const uint8_t *records;
    uint8_t *end; /* of what is written */
};

static inline void put(struct writer *w, const char *signs, size_t size)
{
    memcpy(w->end, signs, size);
    w->end += size;
}

#define PUT(w, signs) put(w, signs, SIZE(signs))

static void put_atom(struct writer *w, size_t atom)
{
    *w->end++ = 'p';
    if (atom >= 10)
        *w->end++ = (uint8_t)('0' + atom / 10);
    *w->end++ = (uint8_t)('0' + atom % 10);
}

static void put_tree(struct writer *w, size_t r);

/* Both children in brackets, signs between them. */
static inline void put_pair(struct writer *w, size_t r, const char *signs, size_t size)
{
    PUT(w, "(");
    put_tree(w, field_a(w->records, r));
    put(w, signs, size);
    put_tree(w, field_b(w->records, r));
    PUT(w, ")");
}

#define PUT_PAIR(w, r, signs) put_pair(w, r, signs, SIZE(signs))

/* The tree of record r. */
static void put_tree(struct writer *w, size_t r)
{
    size_t a = field_a(w->records, r);
    switch (kind_of(w->records, r)) {
    case PASTUREQUILL_FALSE: PUT(w, "#false"); break;
    case PASTUREQUILL_TRUE: PUT(w, "#true"); break;
    case PASTUREQUILL_ATOM: put_atom(w, a); break;
    case PASTUREQUILL_STEP: PUT(w, "&t"); break;
    case PASTUREQUILL_TEST: PUT(w, "?"); put_tree(w, a); break;
    case PASTUREQUILL_STAR: PUT(w, "*"); put_tree(w, a); break;
    case PASTUREQUILL_CHOICE: PUT_PAIR(w, r, "+"); break;
    case PASTUREQUILL_SEQUENCE: PUT_PAIR(w, r, ";"); break;
    case PASTUREQUILL_DIAMOND: PUT_PAIR(w, r, ".>?"); break;
    case PASTUREQUILL_BOX: PUT_PAIR(w, r, ".>*"); break;
    }
}

pasturequill_counted write_text_checked(const uint8_t *records, size_t records_size, uint64_t atoms, uint8_t *text,
                                        size_t text_size)
{
    uint8_t refusal = check_core(records, records_size, atoms);
    if (refusal != PASTUREQUILL_ACCEPTED)
        return refused(refusal);
    size_t n = records_size / RECORD_SIZE, size = 0;
    for (size_t r = 0; r < n; r++) {
        size_t own = own_bytes(records, r);
        if (own == 0)
            return refused(PASTUREQUILL_NO_SIGN);
        size += own;
    }
    if (text_size < size)
        return refused(PASTUREQUILL_NO_ROOM);
    struct writer w = {records, text};
    put_tree(&w, n - 1);
    return (pasturequill_counted){.count = size};
}

/* ---- reading */
struct reader {
    const uint8_t *at, *end; /* the rest of the text */
    size_t n;                /* how many records there are, those that are not kept too */
    size_t atoms;            /* one more than the greatest atom's number */
    uint8_t records[MOST_BYTES];
};

/* Whether the text goes on with these signs, which are then passed. */
static inline int passes(struct reader *in, const char *signs, size_t size)
{
    if ((size_t)(in->end - in->at) < size || memcmp(in->at, signs, size) != 0)
        return 0;
    in->at += size;
    return 1;
}

#define PASSES(in, signs) passes(in, signs, SIZE(signs))

/* The next sign, 0 at the end. */
static inline uint8_t next(const struct reader *in) { return in->at < in->end ? *in->at : 0; }

/* Here and below a number of a record is given back, or that there is none in the form. */
enum { NONE = -1 };

static inline int keep(struct reader *in, uint8_t kind, int a, int b)
{
    if (in->n < MOST_RECORDS)
        put_record(in->records + RECORD_SIZE * in->n, kind, (size_t)a, (size_t)b);
    return (int)in->n++;
}

static inline int is_digit(uint8_t byte) { return byte >= '0' && byte <= '9'; }

/* The number behind the p of an atom. */
static int read_atom(struct reader *in)
{
    if (!is_digit(next(in)))
        return NONE;
    size_t atom = (size_t)(*in->at++ - '0');
    if (atom != 0 && is_digit(next(in)))
        atom = 10 * atom + (size_t)(*in->at++ - '0');
    if (atom >= MOST_ATOMS || is_digit(next(in)))
        return NONE;
    if (in->atoms <= atom)
        in->atoms = atom + 1;
    return keep(in, PASTUREQUILL_ATOM, (int)atom, 0);
}

static int read_path(struct reader *in);

static int read_formula(struct reader *in)
{
    switch (next(in)) {
    case '#':
        if (PASSES(in, "#false"))
            return keep(in, PASTUREQUILL_FALSE, 0, 0);
        return PASSES(in, "#true") ? keep(in, PASTUREQUILL_TRUE, 0, 0) : NONE;
    case 'p':
        in->at++;
        return read_atom(in);
    case '(':
        in->at++;
        break;
    default:
        return NONE;
    }
    int path = read_path(in);
    if (path == NONE || !PASSES(in, ".>"))
        return NONE;
    uint8_t kind = PASSES(in, "?") ? PASTUREQUILL_DIAMOND : PASTUREQUILL_BOX;
    if (kind == PASTUREQUILL_BOX && !PASSES(in, "*"))
        return NONE;
    int end = read_formula(in);
    return end != NONE && PASSES(in, ")") ? keep(in, kind, path, end) : NONE;
}

/* Stars one around the other, all of them at once. */
static int read_stars(struct reader *in)
{
    size_t stars = 0;
    for (; next(in) == '*'; in->at++)
        stars++;
    int path = read_path(in);
    for (; path != NONE && stars > 0; stars--)
        path = keep(in, PASTUREQUILL_STAR, path, 0);
    return path;
}

static int read_path(struct reader *in)
{
    int first, second;
    switch (next(in)) {
    case '&':
        return PASSES(in, "&t") ? keep(in, PASTUREQUILL_STEP, 0, 0) : NONE;
    case '?':
        in->at++;
        first = read_formula(in);
        return first == NONE ? NONE : keep(in, PASTUREQUILL_TEST, first, 0);
    case '*':
        return read_stars(in);
    case '(':
        in->at++;
        break;
    default:
        return NONE;
    }
    if ((first = read_path(in)) == NONE)
        return NONE;
    uint8_t kind = PASSES(in, "+") ? PASTUREQUILL_CHOICE : PASTUREQUILL_SEQUENCE;
    if (kind == PASTUREQUILL_SEQUENCE && !PASSES(in, ";"))
        return NONE;
    second = read_path(in);
    return second != NONE && PASSES(in, ")") ? keep(in, kind, first, second) : NONE;
}

pasturequill_counted read_text_checked(const uint8_t *text, size_t text_size, uint64_t atoms, uint8_t *records,
                                       size_t records_size)
{
    if (atoms > MOST_ATOMS)
        return refused(PASTUREQUILL_WRONG_SIZE);
    if (text_size > PASTUREQUILL_MOST_TEXT)
        return refused(PASTUREQUILL_TOO_LONG);
    if (text_size == 0)
        return refused(PASTUREQUILL_NOT_THE_FORM);
    struct reader in;
    in.at = text;
    in.end = text + text_size;
    in.n = in.atoms = 0;
    if (read_formula(&in) == NONE || in.at != in.end)
        return refused(PASTUREQUILL_NOT_THE_FORM);
    if (in.n > MOST_RECORDS)
        return refused(PASTUREQUILL_TOO_LONG);
    if (in.atoms > atoms)
        return refused(PASTUREQUILL_NO_SUCH_ATOM);
    if (records_size < RECORD_SIZE * in.n)
        return refused(PASTUREQUILL_NO_ROOM);
    memcpy(records, in.records, RECORD_SIZE * in.n);
    return (pasturequill_counted){.count = in.n};
}
