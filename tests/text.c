/* pasturequill_write_text and pasturequill_read_text over tables of cases, both ways, and around the greatest sizes.
 * Each input is handed over at both edges of memory that may not be touched, in memory that may only be read, and the
 * output with and without room to spare. All calls are made in a thread with little stack. */
#define TEST_NAME "text"
#define SERVICE service->call
#define ELEMENT uint8_t
#define EACH service->each
#define ROOMS 0, PASTUREQUILL_MOST_RECORD_BYTES, 4 * PASTUREQUILL_MOST_RECORD_BYTES

#include "pasturequill.h"

/* Which of the two is called, and how many bytes each of what it counts has. */
static const struct service {
    pasturequill_counted (*call)(const uint8_t *in, size_t in_size, uint64_t atoms, uint8_t *out, size_t out_size);
    size_t each;
} writer = {pasturequill_write_text, 1}, reader = {pasturequill_read_text, PASTUREQUILL_RECORD_SIZE}, *service;

#include "counted.h"
#include "stack.h"

enum { MOST_TEXT = PASTUREQUILL_MOST_TEXT, MOST_ATOMS = PASTUREQUILL_MOST_ATOMS };

/* The bytes of a text, those of a constant with all zeros that it has. */
#define TEXT(text) {(const uint8_t *)text, sizeof text - 1}

static struct bytes bytes_of_text(const char *text) { return (struct bytes){(const uint8_t *)text, strlen(text)}; }

/* A text with something so many times before its inner part, and something else as often after it. */
struct pattern {
    const char *start, *before, *inner, *after, *end;
};

/* It is there until the next one. */
static const char *repeated(size_t times, const struct pattern *p)
{
    static char text[1 << 14];
    char *end = stpcpy(text, p->start);
    for (size_t i = 0; i < times; i++)
        end = stpcpy(end, p->before);
    end = stpcpy(end, p->inner);
    for (size_t i = 0; i < times; i++)
        end = stpcpy(end, p->after);
    strcpy(end, p->end);
    return text;
}

/* ---- accepted */
static void expect_written(const char *reason, struct bytes records, uint64_t atoms, struct bytes text)
{
    service = &writer;
    expect_output(reason, records, atoms, (struct output){text.at, text.size});
}

static void expect_read(const char *reason, struct bytes text, uint64_t atoms, struct bytes records)
{
    service = &reader;
    expect_output(reason, text, atoms, (struct output){records.at, records.size});
}

/* Records in postorder and their text. */
static void expect_both(const char *reason, struct bytes records, uint64_t atoms, struct bytes text)
{
    expect_written(reason, records, atoms, text);
    expect_read(reason, text, atoms, records);
}

static const struct both {
    const char *formula, *text;
} both[] = {
    /* the specification's examples A, C and D, and final */
    {"<(p? ; step)*>q", "(*(?p0;&t).>?p1)"},
    {"[(step ; step)*]p", "(*(&t;&t).>*p0)"},
    {"<p?*>q", "(*?p0.>?p1)"},
    {"[step]false", "(&t.>*#false)"},

    /* each sign */
    {"false", "#false"},
    {"true", "#true"},
    {"r", "p2"},
    {"<step>true", "(&t.>?#true)"},
    {"[step]true", "(&t.>*#true)"},
    {"<p?>q", "(?p0.>?p1)"},
    {"[p?]q", "(?p0.>*p1)"},
    {"<step*>p", "(*&t.>?p0)"},
    {"[step*]p", "(*&t.>*p0)"},
    {"<step + step>p", "((&t+&t).>?p0)"},
    {"[step ; step]p", "((&t;&t).>*p0)"},

    /* one in the other */
    {"<step ; (step ; step)>p", "((&t;(&t;&t)).>?p0)"},
    {"<(step ; step) ; step>p", "(((&t;&t);&t).>?p0)"},
    {"<step + (step ; step)>p", "((&t+(&t;&t)).>?p0)"},
    {"<(step + step) ; step>p", "(((&t+&t);&t).>?p0)"},
    {"<p? ; q?>r", "((?p0;?p1).>?p2)"},
    {"<p?* + q?*>r", "((*?p0+*?p1).>?p2)"},
    {"<(p? + q?)*>r", "(*(?p0+?p1).>?p2)"},
    {"<step**>p", "(**&t.>?p0)"},
    {"<(p?* ; step)*>q", "(*(*?p0;&t).>?p1)"},
    {"<true?>false", "(?#true.>?#false)"},
    {"<(<step>p)?>q", "(?(&t.>?p0).>?p1)"},
    {"[([p?]false)?]false", "(?(?p0.>*#false).>*#false)"},
    {"<([step]p)?*>q", "(*?(&t.>*p0).>?p1)"},
    {"<step>[step]p", "(&t.>?(&t.>*p0))"},
    {"[step*][p?]<step*>q", "(*&t.>*(?p0.>*(*&t.>?p1)))"},
};

/* Records in another order: field a's text comes first, whatever the numbers. */
static const struct other_order {
    struct bytes records;
    const char *text;
} other_orders[] = {
    {RECORDS(ATOM(1), STEP, DIAMOND(1, 0)), "(&t.>?p1)"},
    {RECORDS(ATOM(1), ATOM(0), TEST(1), BOX(2, 0)), "(?p0.>*p1)"},
    {RECORDS(ATOM(1), ATOM(0), TEST(0), TEST(1), SEQUENCE(3, 2), ATOM(2), BOX(4, 5)), "((?p0;?p1).>*p2)"},
    {RECORDS(STEP, ATOM(2), TEST(1), CHOICE(2, 0), TRUE_, DIAMOND(3, 4)), "((?p2+&t).>?#true)"},
    {RECORDS(ATOM(1), STEP, ATOM(0), TEST(2), SEQUENCE(3, 1), STAR(4), DIAMOND(5, 0)), "(*(?p0;&t).>?p1)"},
};

/* What is written of these is read as the same tree in postorder, which is what the expander makes of them. */
static void expect_other_order(const struct other_order *o)
{
    uint8_t core[MOST_BYTES];
    size_t n = (size_t)pasturequill_expand(o->records.at, o->records.size, 3, core, sizeof core).count;
    expect_written(o->text, o->records, 3, bytes_of_text(o->text));
    expect_read(o->text, bytes_of_text(o->text), 3, (struct bytes){core, RECORD_SIZE * n});
}

/* ---- refused */
/* The atoms come before all that is wrong with a text. */
static void expect_unread(const char *reason, struct bytes text, uint64_t atoms, int refusal)
{
    static const uint64_t too_many[] = {MOST_ATOMS + 1, TWO_TO(32), TWO_TO(63), UINT64_MAX};
    service = &reader;
    expect_refusal(reason, text, atoms, refusal);
    for (const uint64_t *more = too_many; more < END(too_many); more++)
        expect_refusal(reason, text, *more, PASTUREQUILL_WRONG_SIZE);
}

static void expect_not_the_form(struct bytes text)
{
    const char *reason = reason_with("\"%.*s\"", (int)text.size, (const char *)text.at);
    expect_unread(reason, text, 0, PASTUREQUILL_NOT_THE_FORM);
    expect_unread(reason, text, MOST_ATOMS, PASTUREQUILL_NOT_THE_FORM);
}

static const struct bytes not_the_form[] = {
    /* nothing; blanks; bytes that are no signs */
    TEXT(""), TEXT(" "), TEXT(" p0"), TEXT("p 0"), TEXT("p0 "), TEXT("p0\n"), TEXT("\tp0"), TEXT("( &t.>?p0)"),
    TEXT("(&t .>?p0)"), TEXT("(&t.> ?p0)"), TEXT("(&t.>? p0)"), TEXT("(&t.>?p0 )"), TEXT("((&t; &t).>?p0)"),
    TEXT("\0"), TEXT("p0\0"), TEXT("p\0"), TEXT("(&t\0.>?p0)"), TEXT("\310"), TEXT("p0\310"), TEXT("p\310"),

    /* atoms */
    TEXT("p"), TEXT("pp0"), TEXT("P0"), TEXT("q0"), TEXT("0"), TEXT("p-1"), TEXT("p+1"), TEXT("p1p"), TEXT("p:"),
    TEXT("p/"), TEXT("p00"), TEXT("p01"), TEXT("p32"), TEXT("p99"), TEXT("p100"), TEXT("p256"), TEXT("p310"),
    TEXT("p4294967296"), TEXT("p18446744073709551616"), TEXT("(&t.>?p)"), TEXT("(?p32.>?p0)"), TEXT("(?p0.>?p00)"),

    /* constants and the step */
    TEXT("#"), TEXT("##true"), TEXT("#tru"), TEXT("#truee"), TEXT("#fals"), TEXT("#falsee"), TEXT("#False"),
    TEXT("#True"), TEXT("#TRUE"), TEXT("true"), TEXT("false"), TEXT("#p0"), TEXT("(&.>?p0)"), TEXT("(t.>?p0)"),
    TEXT("(&T.>?p0)"), TEXT("(&s.>?p0)"), TEXT("(&tt.>?p0)"), TEXT("(&&t.>?p0)"), TEXT("(&true.>?p0)"),

    /* brackets missing, of another kind, or where there are none */
    TEXT("("), TEXT(")"), TEXT("()"), TEXT("(p0)"), TEXT("(#true)"), TEXT("&t.>?p0"), TEXT("(&t.>?p0"),
    TEXT("&t.>?p0)"), TEXT("((&t.>?p0)"), TEXT("(&t.>?p0))"), TEXT("((&t.>?p0))"), TEXT("((&t).>?p0)"),
    TEXT("(&t.>?(p0))"), TEXT("(?(p0).>?p1)"), TEXT("(*(&t).>?p0)"), TEXT("((*&t).>?p0)"), TEXT("((?p0).>?p1)"),
    TEXT("(&t;&t.>?p0)"), TEXT("((&t;&t.>?p0)"), TEXT("(&t;&t).>?p0)"), TEXT("(((&t;&t)).>?p0)"),
    TEXT("((&t;&t;&t).>?p0)"), TEXT("((&t;&t+&t).>?p0)"), TEXT("(&t.>?&t.>?p0)"), TEXT("[&t.>?p0]"),
    TEXT("(?&t.>?p0.>?p1)"), TEXT("((&t).>?p0"), TEXT(")&t.>?p0("),

    /* diamonds and boxes */
    TEXT(".>"), TEXT(".>?"), TEXT(".>*"), TEXT("(.>?p0)"), TEXT("(&t.>?)"), TEXT("(&tp0)"), TEXT("(&t.>p0)"),
    TEXT("(&t>?p0)"), TEXT("(&t.?p0)"), TEXT("(&t?p0)"), TEXT("(&t.>+p0)"), TEXT("(&t.>;p0)"), TEXT("(&t.>??p0)"),
    TEXT("(&t.>?*p0)"), TEXT("(&t..>?p0)"), TEXT("(&t.>>?p0)"), TEXT("(&t>.?p0)"), TEXT("(&t,>?p0)"),

    /* choices, sequences, tests and stars */
    TEXT("((&t;;&t).>?p0)"), TEXT("((&t++&t).>?p0)"), TEXT("((&t+;&t).>?p0)"), TEXT("((&t&t).>?p0)"),
    TEXT("((;&t).>?p0)"), TEXT("((&t;).>?p0)"), TEXT("((;).>?p0)"), TEXT("((&t,&t).>?p0)"), TEXT("((&t|&t).>?p0)"),
    TEXT("((&t.&t).>?p0)"), TEXT("(?.>?p0)"), TEXT("(*.>?p0)"), TEXT("(p0?.>?p1)"), TEXT("(&t*.>?p0)"),
    TEXT("(?p0?.>?p1)"), TEXT("(?*&t.>?p0)"), TEXT("(??p0.>?p1)"),

    /* a formula in a path's place, a path in a formula's, a path alone */
    TEXT("(p0.>?p1)"), TEXT("(#true.>?p1)"), TEXT("((&t.>?p0).>?p1)"), TEXT("(*p0.>?p1)"), TEXT("((&t;p0).>?p1)"),
    TEXT("((p0;&t).>?p1)"), TEXT("(&t.>?&t)"), TEXT("(&t.>?(&t;&t))"), TEXT("(?&t.>?p0)"),
    TEXT("&t"), TEXT("*&t"), TEXT("?p0"), TEXT("(&t;&t)"), TEXT("(&t+&t)"), TEXT("*(&t;&t)"),

    /* text behind the formula, and signs that telingo has besides */
    TEXT("p0p1"), TEXT("p0)"), TEXT("p0."), TEXT("#truep0"), TEXT("#true#true"), TEXT("(&t.>?p0)p0"),
    TEXT("(&t.>?p0)."), TEXT("(&t.>?p0)(&t.>?p0)"), TEXT("(&t.>?p0).>?p1)"), TEXT("p0.>?p1"), TEXT("~p0"),
    TEXT("p0&p1"), TEXT("p0|p1"), TEXT(">p0"), TEXT("&final"), TEXT("(&t.<?p0)"), TEXT("-p0"),
};

/* One of many texts outside the form. */
static void expect_other(const char *reason, struct bytes text)
{
    service = &reader;
    expect(reason, text, MOST_ATOMS, MOST_BYTES, PASTUREQUILL_NOT_THE_FORM, (struct output)NONE);
}

/* Numbers that are no atom's. */
static void other_numbers(void)
{
    char text[16];
    for (int i = 0; i < 1000; i++) {
        snprintf(text, sizeof text, i < MOST_ATOMS ? "p0%d" : "p%d", i);
        expect_other(text, bytes_of_text(text));
    }
}

/* Each byte that is no sign, before each place of a text and in its stead; the text without its end or its start. */
static void harmed(const char *text)
{
    static const char signs[] = "#falsetrup0123456789&?*+;().>";
    size_t size = strlen(text);
    for (int byte = 0; byte <= UINT8_MAX; byte++)
        for (size_t at = 0; at < size && memchr(signs, byte, strlen(signs)) == NULL; at++)
            for (size_t next = at; next <= at + 1; next++) {
                uint8_t other[64];
                memcpy(other, text, at);
                other[at] = (uint8_t)byte;
                memcpy(other + at + 1, text + next, size - next);
                expect_other(reason_with("byte %d, at %zu", byte, at), (struct bytes){other, at + 1 + size - next});
            }
    for (size_t at = 1; at < size; at++) {
        expect_other("an end missing", (struct bytes){(const uint8_t *)text, at});
        expect_other("a start missing", (struct bytes){(const uint8_t *)text + at, size - at});
    }
}

/* What writing refuses besides what all services do, and what comes before that. */
static const struct records_case without_sign[] = {
    CASE(NO_SIGN, 0, "a back step", BACK, TRUE_, DIAMOND(0, 1)),
    CASE(NO_SIGN, 0, "initial", BACK, FALSE_, BOX(0, 1)),
    CASE(NO_SIGN, 0, "a back step in a star", BACK, STAR(0), TRUE_, DIAMOND(1, 2)),
    CASE(NO_SIGN, 0, "a back step as the second arm", STEP, BACK, CHOICE(0, 1), TRUE_, DIAMOND(2, 3)),
    CASE(NO_SIGN, 0, "a back step as the first part", BACK, STEP, SEQUENCE(0, 1), TRUE_, DIAMOND(2, 3)),
    CASE(NO_SIGN, 1, "a back step in a test", BACK, ATOM(0), DIAMOND(0, 1), TEST(2), TRUE_, DIAMOND(3, 4)),
    CASE(NO_SIGN, 1, "a back step behind a step", BACK, ATOM(0), BOX(0, 1), STEP, DIAMOND(3, 2)),
    CASE(NOT_A_TREE, 0, "the tree before the sign", BACK, TRUE_),
    CASE(NOT_A_TREE, 0, "one back step in two places", BACK, SEQUENCE(0, 0), TRUE_, DIAMOND(1, 2)),
    CASE(WRONG_SORT, 0, "the last record's sort before the sign", BACK),
    CASE(NO_SUCH_ATOM, 1, "a record's refusal before the sign", BACK, ATOM(1), DIAMOND(0, 1)),
    CASE(WRONG_SIZE, 33, "the atoms before the sign", BACK, TRUE_, DIAMOND(0, 1)),
};

static void every_atom(void)
{
    for (int i = 0; i < MOST_ATOMS; i++) {
        struct formula f = {.n = 0};
        atom(&f, (size_t)i);
        char text[16];
        snprintf(text, sizeof text, "p%d", i);
        expect_both(text, bytes_of(&f), (uint64_t)i + 1, bytes_of_text(text));
        expect_unread(text, bytes_of_text(text), (uint64_t)i, PASTUREQUILL_NO_SUCH_ATOM);
    }
    expect_unread("p31 among others", bytes_of_text("(?p31.>?p0)"), 31, PASTUREQUILL_NO_SUCH_ATOM);
    expect_unread("the form before the atom", bytes_of_text("(?p31.>?p0"), 31, PASTUREQUILL_NOT_THE_FORM);
    expect_unread("the form after the atom", bytes_of_text("p31 "), 31, PASTUREQUILL_NOT_THE_FORM);
}

/* ---- around the greatest sizes */
/* Formulas of 255 records, each as deep as it can be in another way. No text of so many records is longer than the
 * first one's: a test of false under a diamond brings three records and 12 bytes, the most for three, and a step under
 * one brings the other two and 7. */
enum { LONGEST_TEXT = 1021 };

static const struct deep {
    const char *reason;
    size_t times;
    struct pattern formula, text;
} deepest[] = {
    {"tests of false", 84, {"", "<false?>", "<step>false", "", ""}, {"", "(?#false.>?", "(&t.>?#false)", ")", ""}},
    {"tests inside tests", 84, {"", "[(", "<step>p", ")?]false", ""}, {"", "(?", "(&t.>?p0)", ".>*#false)", ""}},
    {"diamonds inside diamonds", 127, {"", "<step>", "p", "", ""}, {"", "(&t.>?", "p0", ")", ""}},
    {"choices in second arms", 126, {"<", "step + (", "step", ")", ">q"}, {"(", "(&t+", "&t", ")", ".>?p1)"}},
    {"sequences in first parts", 126, {"[", "(", "step", ") ; step", "]q"}, {"(", "(", "&t", ";&t)", ".>*p1)"}},
    {"stars inside stars", 252, {"<", "", "step", "*", ">p"}, {"(", "*", "&t", "", ".>?p0)"}},
};

static size_t first_step(const struct formula *f)
{
    size_t r = 0;
    while (kind_of(f->records, r) != PASTUREQUILL_STEP)
        r++;
    return r;
}

static void expect_deepest(const struct deep *d)
{
    struct formula f = written("pqr", repeated(d->times, &d->formula));
    struct bytes text = bytes_of_text(repeated(d->times, &d->text));
    count(f.n == MOST_RECORDS, d->reason, "records", f.n, MOST_RECORDS);
    count((text.size == LONGEST_TEXT) == (d == deepest), d->reason, "bytes", text.size, LONGEST_TEXT);
    expect_both(d->reason, bytes_of(&f), 2, text);
    set_kind(&f, first_step(&f), PASTUREQUILL_BACK);
    service = &writer;
    expect_refusal(d->reason, bytes_of(&f), 2, PASTUREQUILL_NO_SIGN);
}

/* Each star is one byte and one record; what stands around them has three records. */
enum { MOST_STARS = MOST_RECORDS - 3, DEEPEST_STARS = 1521 };

#define STARS(last) {"(", "*", last, "", ""}

static const struct long_text {
    const char *reason;
    int refusal;
    uint64_t atoms;
    size_t times;
    struct pattern text;
} long_texts[] = {
    ROW(TOO_LONG, "256 records", 1, MOST_STARS + 1, STARS("&t.>?p0)")),
    ROW(TOO_LONG, "256 records before the atom", 0, MOST_STARS + 1, STARS("&t.>?p0)")),
    ROW(NO_SUCH_ATOM, "255 records and no such atom", 0, MOST_STARS, STARS("&t.>?p0)")),
    ROW(NOT_THE_FORM, "the form before 256 records", 1, MOST_STARS + 1, STARS("&t.>?p0")),
    ROW(NOT_THE_FORM, "the form before 256 records and the atom", 0, MOST_STARS + 1, STARS("&t.>?p00)")),
    ROW(TOO_LONG, "1,530 bytes, 1,521 of them stars", 1, DEEPEST_STARS, STARS("&t.>?p0)")),
    ROW(NOT_THE_FORM, "1,530 bytes, the last bracket another", 1, DEEPEST_STARS, STARS("&t.>?p0(")),
    ROW(TOO_LONG, "1,531 bytes, 1,522 of them stars", 1, DEEPEST_STARS + 1, STARS("&t.>?p0)")),
    ROW(TOO_LONG, "1,531 bytes, the last bracket another", 1, DEEPEST_STARS + 1, STARS("&t.>?p0(")),
};

/* As many signs as are read, which open and never end, or are wrong from the first; and one more. */
static void signs_alone(void)
{
    static const char *const signs[] = {
        "(", "*", "?", "?*", "*?", "(?", "(*", "(?*", "(&t;", "(&t.>?", "((*", ")", "p0", "&t", "#true", " ", "\310",
    };
    for (const char *const *sign = signs; sign < END(signs); sign++) {
        const uint8_t *text = (const uint8_t *)repeated(MOST_TEXT + 1, &(struct pattern){"", *sign, "", "", ""});
        expect_unread(*sign, (struct bytes){text, MOST_TEXT}, 0, PASTUREQUILL_NOT_THE_FORM);
        expect_unread(*sign, (struct bytes){text, MOST_TEXT + 1}, 0, PASTUREQUILL_TOO_LONG);
    }
}

static void no_addresses(void)
{
    struct formula final = written("", "[step]false"), initial = written("", "[back]false");
    struct bytes text = bytes_of_text("p0");
    service = &writer;
    expect_no_address("no address for no records", (struct bytes)NONE, 0, PASTUREQUILL_WRONG_LENGTH);
    expect_no_address("no address for no records, and 33 atoms", (struct bytes)NONE, 33, PASTUREQUILL_WRONG_LENGTH);
    expect_no_address("no address for no text", bytes_of(&final), 0, PASTUREQUILL_NO_ROOM);
    expect_no_address("no address for no text, and a back step", bytes_of(&initial), 0, PASTUREQUILL_NO_SIGN);
    service = &reader;
    expect_no_address("no address for text", (struct bytes)NONE, 0, PASTUREQUILL_NOT_THE_FORM);
    expect_no_address("no address for text, and 33 atoms", (struct bytes)NONE, 33, PASTUREQUILL_WRONG_SIZE);
    expect_no_address("no address for room", text, 1, PASTUREQUILL_NO_ROOM);
    expect_no_address("no address for room, and no such atom", text, 0, PASTUREQUILL_NO_SUCH_ATOM);
}

static void *all(void *argument)
{
    for (const struct both *b = both; b < END(both); b++) {
        struct formula f = written("pqr", b->formula);
        expect_both(b->text, bytes_of(&f), 3, bytes_of_text(b->text));
    }
    for (const struct other_order *o = other_orders; o < END(other_orders); o++)
        expect_other_order(o);
    every_atom();
    service = &writer;
    expect_faulty(expect_refusal);
    expect_shorthands_refused(expect_refusal);
    expect_each(without_sign, END(without_sign), expect_refusal);
    for (const struct bytes *text = not_the_form; text < END(not_the_form); text++)
        expect_not_the_form(*text);
    other_numbers();
    harmed(both[0].text);
    for (const struct deep *d = deepest; d < END(deepest); d++)
        expect_deepest(d);
    for (const struct long_text *t = long_texts; t < END(long_texts); t++)
        expect_unread(t->reason, bytes_of_text(repeated(t->times, &t->text)), t->atoms, t->refusal);
    signs_alone();
    no_addresses();
    return argument;
}

/* Twice what reading and writing may take of the stack. */
enum { STACK = 512 << 10 };

int main(void)
{
    in_stack_of(STACK, all);
    return counts_told();
}
