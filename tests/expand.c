/* pasturequill_expand over tables of cases, over every shorthand with each fault, and around the greatest number of
 * records. Each input is handed over at both edges of memory that may not be touched, the records in memory that may
 * only be read, and the output with and without room to spare. What is written is checked, and expanded once more; a
 * since is valued too. */
#define TEST_NAME "expand"
#define SERVICE pasturequill_expand
#define ELEMENT uint8_t
#define EACH PASTUREQUILL_RECORD_SIZE
#define ROOMS 0, PASTUREQUILL_MOST_RECORD_BYTES, 4 * PASTUREQUILL_MOST_RECORD_BYTES

#include "counted.h"

#define FINAL K(FINAL, 0, 0)

/* What comes out is a formula, and expands to itself. */
static void expect_settled(const char *reason, struct bytes records, uint64_t atoms)
{
    uint8_t once[MOST_BYTES], twice[MOST_BYTES];
    size_t size = RECORD_SIZE * (size_t)pasturequill_expand(records.at, records.size, atoms, once, sizeof once).count;
    int refusal = pasturequill_check(once, size, atoms);
    count(refusal == PASTUREQUILL_ACCEPTED, reason, "check of what came out", (uint64_t)refusal, PASTUREQUILL_ACCEPTED);
    size_t again = RECORD_SIZE * (size_t)pasturequill_expand(once, size, atoms, twice, sizeof twice).count;
    count(again == size && memcmp(once, twice, size) == 0, reason, "bytes, expanded once more,", again, size);
}

/* The core's bytes may be unknown. */
static void expect_core(const char *reason, struct bytes records, uint64_t atoms, struct bytes core)
{
    expect_output(reason, records, atoms, (struct output){core.at, core.size});
    expect_settled(reason, records, atoms);
}

/* ---- byte for byte */
/* A formula, and the one in core kinds that it stands for. */
static const struct brief {
    const char *formula, *core;
} briefs[] = {
    /* each shorthand alone */
    {"not p", "[p?]false"},
    {"p and q", "<p?>q"},
    {"p or q", "<p? + q?>true"},
    {"p implies q", "[p?]q"},
    {"final", "[step]false"},
    {"initial", "[back]false"},
    {"next p", "<step>p"},
    {"weak next p", "[step]p"},
    {"previous p", "<back>p"},
    {"weak previous p", "[back]p"},
    {"eventually p", "<step*>p"},
    {"always p", "[step*]p"},
    {"once p", "<back*>p"},
    {"so far p", "[back*]p"},
    {"p until q", "<(p? ; step)*>q"},
    {"p since q", "<(p? ; back)*>q"},

    /* nested: the outer step or back step comes first */
    {"not not p", "[([p?]false)?]false"},
    {"not final", "[([step]false)?]false"},
    {"next next p", "<step><step>p"},
    {"previous weak next p", "<back>[step]p"},
    {"always eventually p", "[step*]<step*>p"},
    {"once so far p", "<back*>[back*]p"},
    {"always (p implies eventually q)", "[step*][p?]<step*>q"},
    {"(p and q) and r", "<(<p?>q)?>r"},
    {"p and (q and r)", "<p?><q?>r"},
    {"(p or q) or r", "<(<p? + q?>true)? + r?>true"},
    {"p or (q or r)", "<p? + (<q? + r?>true)?>true"},
    {"(p until q) until r", "<((<(p? ; step)*>q)? ; step)*>r"},
    {"p until (q until r)", "<(p? ; step)*><(q? ; step)*>r"},
    {"(p since q) since r", "<((<(p? ; back)*>q)? ; back)*>r"},
    {"p since (q since r)", "<(p? ; back)*><(q? ; back)*>r"},
    {"weak previous p implies weak next final", "[([back]p)?][step][step]false"},

    /* shorthands inside core records and core records inside shorthands */
    {"<(not p)?>q", "<([p?]false)?>q"},
    {"[step]once p", "[step]<back*>p"},
    {"<final?* + back>true", "<([step]false)?* + back>true"},
    {"next <back>true", "<step><back>true"},
    {"[step]false or [back]false", "<([step]false)? + ([back]false)?>true"},

    /* core records in postorder stay */
    {"true", "true"},
    {"false", "false"},
    {"r", "r"},
    {"<(p? ; step)*>q", "<(p? ; step)*>q"},
};

static const struct expanded {
    const char *reason;
    struct bytes records;
    struct source core;
} expanded[] = {
    {"p or q, in digits", RECORDS({2, 0, 0, 0, 0, 0}, {2, 0, 1, 0, 0, 0}, {34, 0, 0, 0, 1, 0}),
     LISTED({2, 0, 0, 0, 0, 0}, {7, 0, 0, 0, 0, 0}, {2, 0, 1, 0, 0, 0}, {7, 0, 2, 0, 0, 0}, {8, 0, 1, 0, 3, 0},
            {1, 0, 0, 0, 0, 0}, {3, 0, 4, 0, 5, 0})},
    {"p since q, in digits", RECORDS({2, 0, 0, 0, 0, 0}, {2, 0, 1, 0, 0, 0}, {47, 0, 0, 0, 1, 0}),
     LISTED({2, 0, 0, 0, 0, 0}, {7, 0, 0, 0, 0, 0}, {6, 0, 0, 0, 0, 0}, {9, 0, 1, 0, 2, 0}, {10, 0, 3, 0, 0, 0},
            {2, 0, 1, 0, 0, 0}, {3, 0, 4, 0, 5, 0})},

    /* arguments in the other order: field a's records come first, whatever their numbers */
    {"q's record before p's, and", RECORDS(ATOM(1), ATOM(0), K(AND, 1, 0)), F("<p?>q")},
    {"q's record before p's, or", RECORDS(ATOM(1), ATOM(0), K(OR, 1, 0)), F("<p? + q?>true")},
    {"q's record before p's, implies", RECORDS(ATOM(1), ATOM(0), K(IMPLIES, 1, 0)), F("[p?]q")},
    {"q's record before p's, until", RECORDS(ATOM(1), ATOM(0), K(UNTIL, 1, 0)), F("<(p? ; step)*>q")},
    {"q's record before p's, since", RECORDS(ATOM(1), ATOM(0), K(SINCE, 1, 0)), F("<(p? ; back)*>q")},
    {"not p since initial", RECORDS(K(INITIAL, 0, 0), ATOM(0), K(NOT, 1, 0), K(SINCE, 2, 0)),
     F("<(([p?]false)? ; back)*>[back]false")},
    {"all leaves first", RECORDS(ATOM(2), ATOM(1), ATOM(0), K(NOT, 1, 0), K(NEXT, 0, 0), K(UNTIL, 2, 3), K(OR, 5, 4)),
     F("<(<(p? ; step)*>[q?]false)? + (<step>r)?>true")},
    {"two branches interleaved",
     RECORDS(ATOM(1), ATOM(0), K(NEXT, 0, 0), K(PREVIOUS, 1, 0), K(NOT, 2, 0), K(NOT, 3, 0), K(AND, 5, 4)),
     F("<([(<back>p)?]false)?>[(<step>q)?]false")},

    /* core records alone */
    {"the end before the path", RECORDS(ATOM(1), STEP, DIAMOND(1, 0)), F("<step>q")},
    {"the second part before the first", RECORDS(BACK, ATOM(0), STEP, SEQUENCE(2, 0), BOX(3, 1)), F("[step ; back]p")},
    {"the second arm before the first", RECORDS(BACK, STEP, CHOICE(1, 0), TRUE_, DIAMOND(2, 3)),
     F("<step + back>true")},
    {"until with its leaves first", RECORDS(ATOM(1), STEP, ATOM(0), TEST(2), SEQUENCE(3, 1), STAR(4), DIAMOND(5, 0)),
     F("<(p? ; step)*>q")},
    {"a star that stands still and turns is taken",
     RECORDS(TRUE_, BACK, STEP, CHOICE(2, 1), STAR(3), STAR(4), DIAMOND(5, 0)), F("<(step + back)**>true")},
};

/* ---- refusals in the presence of shorthands */
static const struct records_case refused[] = {
    CASE(UNKNOWN_KIND, 1, "the last kind before the shorthands, after one", FINAL, R(PASTUREQUILL_NOT - 1, 0, 0)),
    CASE(UNKNOWN_KIND, 1, "the first kind past the shorthands, after one", FINAL, R(PASTUREQUILL_SINCE + 1, 0, 0)),
    CASE(UNKNOWN_KIND, 1, "an unknown kind, whatever else it holds, after one", FINAL, Z(UINT8_MAX, 1, 65535, 65535)),

    /* the order inside a record: zeros, late children, sorts; no such atom is an atom's alone */
    CASE(NOT_ZERO, 1, "a not of itself with a field b", K(NOT, 0, 1)),
    CASE(NOT_ZERO, 1, "an until of itself with a zero byte that is none", Z(PASTUREQUILL_UNTIL, 1, 0, 0)),
    CASE(NOT_ZERO, 1, "a next of a path with a field b", STEP, K(NEXT, 0, 1)),
    CASE(LATE_CHILD, 1, "an and of a path and itself", STEP, K(AND, 0, 1)),
    CASE(LATE_CHILD, 1, "an or of itself and a path", STEP, K(OR, 1, 0)),

    /* the order of records */
    CASE(WRONG_SORT, 1, "an earlier shorthand's sort before a later kind", STEP, K(NOT, 0, 0), R(UINT8_MAX, 0, 0)),
    CASE(LATE_CHILD, 1, "an earlier shorthand's child before a later zero", K(ONCE, 0, 0), K(FINAL, 1, 0)),
    CASE(NOT_ZERO, 1, "an earlier shorthand's zero before a later atom", K(FINAL, 1, 0), ATOM(1)),
    CASE(NO_SUCH_ATOM, 1, "an earlier atom before a later shorthand's zero", ATOM(1), K(NOT, 0, 1)),
    CASE(UNKNOWN_KIND, 1, "an earlier kind before a later shorthand's child", R(UINT8_MAX, 0, 0), K(NOT, 1, 0)),

    /* the sort */
    CASE(WRONG_SORT, 1, "a star of a shorthand", FINAL, STAR(0), TRUE_, DIAMOND(1, 2)),
    CASE(WRONG_SORT, 1, "a choice with a shorthand", STEP, FINAL, CHOICE(0, 1), TRUE_, DIAMOND(2, 3)),
    CASE(WRONG_SORT, 1, "a sequence with a shorthand", FINAL, STEP, SEQUENCE(0, 1), TRUE_, DIAMOND(2, 3)),
    CASE(WRONG_SORT, 1, "a box along a shorthand", FINAL, TRUE_, BOX(0, 1)),
    CASE(WRONG_SORT, 1, "the last record a test of a shorthand", FINAL, TEST(0)),
    CASE(WRONG_SORT, 1, "the last record a path after a shorthand, before the tree", FINAL, STEP),

    /* the tree */
    CASE(NOT_A_TREE, 1, "a shorthand that nothing names", FINAL, TRUE_),
    CASE(NOT_A_TREE, 1, "an argument that nothing names after a shorthand", TRUE_, TRUE_, K(NOT, 0, 0)),
    CASE(NOT_A_TREE, 1, "one argument of two shorthands", ATOM(0), K(NOT, 0, 0), K(AND, 0, 1)),
    CASE(NOT_A_TREE, 1, "one argument of a shorthand and of a test", ATOM(0), TEST(0), K(NOT, 0, 0), DIAMOND(1, 2)),
};

/* ---- each shorthand */
/* p, another record that is an atom or a step, and the shorthand over these two fields. */
static struct formula over(const struct shorthand *s, uint8_t other, size_t a, size_t b)
{
    struct formula f = {.n = 0};
    atom(&f, 0);
    add(&f, other, other == PASTUREQUILL_ATOM, 0);
    add(&f, s->kind, a, b);
    return f;
}

static void expect_fault(const struct shorthand *s, const char *fault, struct formula f, int refusal)
{
    expect_refusal(reason_with("%s: %s", s->name, fault), bytes_of(&f), 2, refusal);
}

/* The shorthand over p and q, or those that it has of these, with one byte that is not 0. */
static void expect_not_zero(const struct shorthand *s, const char *fault, size_t at, uint8_t byte)
{
    struct formula f = over(s, PASTUREQUILL_ATOM, 0, s->arguments == 2);
    f.records[2 * RECORD_SIZE + at] = byte;
    expect_fault(s, fault, f, PASTUREQUILL_NOT_ZERO);
}

/* Each shorthand with each fault that a record of it can have. */
static void faults_of(const struct shorthand *s)
{
    enum { FORMULA = PASTUREQUILL_ATOM, PATH = PASTUREQUILL_STEP };
    static const size_t late[] = {2, 3, 255, 256, 512, 65535}, field_size = FIELD_B - FIELD_A;
    expect_not_zero(s, "the zero byte is 1", ZERO, 1);
    expect_not_zero(s, "the zero byte is 255", ZERO, 255);
    for (size_t at = FIELD_A + s->arguments * field_size; at < FIELD_B + field_size; at++) {
        expect_not_zero(s, "an unused byte is 1", at, 1);
        expect_not_zero(s, "an unused byte is 128", at, 128);
    }
    for (const size_t *r = late; r < END(late) && s->arguments >= 1; r++)
        expect_fault(s, "a late argument a", over(s, FORMULA, *r, s->arguments == 2), PASTUREQUILL_LATE_CHILD);
    for (const size_t *r = late; r < END(late) && s->arguments == 2; r++)
        expect_fault(s, "a late argument b", over(s, FORMULA, 0, *r), PASTUREQUILL_LATE_CHILD);
    if (s->arguments >= 1)
        expect_fault(s, "a path as argument a", over(s, PATH, 1, 0), PASTUREQUILL_WRONG_SORT);
    if (s->arguments == 2)
        expect_fault(s, "a path as argument b", over(s, PATH, 0, 1), PASTUREQUILL_WRONG_SORT);
    expect_fault(s, "a record that is no argument", over(s, FORMULA, 0, 0), PASTUREQUILL_NOT_A_TREE);
}

/* The shorthand as the one that brings the number of records up to this one. */
static void reaches(const struct shorthand *s, size_t records)
{
    const char *reason = reason_with("%s: %zu records", s->name, records);
    /* One of no arguments is under an and, which has two records. */
    size_t others = s->arguments == 0 ? 2 : s->arguments - 1;
    struct formula f = stars(records - s->own - others, PASTUREQUILL_TRUE);
    size_t g = f.n - 1;
    if (s->arguments == 0)
        add(&f, PASTUREQUILL_AND, g, add(&f, s->kind, 0, 0));
    else
        add(&f, s->kind, g, s->arguments == 2 ? yes(&f) : 0);
    if (records <= MOST_RECORDS)
        expect_core(reason, bytes_of(&f), 0, (struct bytes){NULL, RECORD_SIZE * records});
    else
        expect_refusal(reason, bytes_of(&f), 0, PASTUREQUILL_TOO_LONG);
}

/* ---- around the greatest number of records */
/* True 127 steps on: all steps come first, the outermost of them at the very start. */
static void steps(void)
{
    enum { STEPS = (MOST_RECORDS - 1) / 2 };
    struct formula wanted = nested(STEPS, "<step>", "true", ""), brief = nested(STEPS, "next ", "true", "");
    struct formula longer = nested(STEPS + 1, "next ", "true", ""), other_order = {.n = 0};
    expect_core("127 nexts: 255 records", bytes_of(&brief), 0, bytes_of(&wanted));
    expect_refusal("128 nexts: 257 records", bytes_of(&longer), 0, PASTUREQUILL_TOO_LONG);

    /* The same from core records, each step between two diamonds. */
    size_t g = yes(&other_order);
    while (left(&other_order) > 0)
        g = diamond(&other_order, step(&other_order), g);
    expect_core("255 core records in another order", bytes_of(&other_order), 0, bytes_of(&wanted));
}

/* Not 84 times, of p next: three records each, the tests inside each other. */
static void nots(void)
{
    struct formula wanted = nested(84, "[(", "<step>p", ")?]false"), brief = nested(84, "not ", "next p", "");
    struct formula eventually = nested(84, "not ", "eventually p", ""), more = nested(85, "not ", "next p", "");
    expect_core("84 nots of next: 255 records", bytes_of(&brief), 1, bytes_of(&wanted));
    expect_refusal("84 nots of eventually: 256 records", bytes_of(&eventually), 1, PASTUREQUILL_TOO_LONG);
    expect_refusal("85 nots of next: 258 records", bytes_of(&more), 1, PASTUREQUILL_TOO_LONG);
}

/* Untils to the right, 42 of them, over atoms in turn, under a next: six records each and a last q, 253, and two. */
static void untils(void)
{
    enum { UNTILS = 42, ATOMS = PASTUREQUILL_MOST_ATOMS };
    struct formula wanted = {.n = 0}, brief = {.n = 0};
    size_t ways[UNTILS], on = step(&wanted);
    for (size_t i = 0; i < UNTILS; i++)
        ways[i] = star(&wanted, go(&wanted, i % ATOMS));
    size_t g = atom(&wanted, ATOMS - 1);
    for (size_t i = UNTILS; i-- > 0;)
        g = diamond(&wanted, ways[i], g);
    diamond(&wanted, on, g);

    g = atom(&brief, ATOMS - 1);
    for (size_t i = UNTILS; i-- > 0;)
        g = add(&brief, PASTUREQUILL_UNTIL, atom(&brief, i % ATOMS), g);
    size_t next = add(&brief, PASTUREQUILL_NEXT, g, 0);
    expect_core("42 untils and a next: 255 records", bytes_of(&brief), ATOMS, bytes_of(&wanted));
    set_kind(&brief, next, PASTUREQUILL_NOT);
    expect_refusal("42 untils and a not: 256 records", bytes_of(&brief), ATOMS, PASTUREQUILL_TOO_LONG);
}

/* A next over stars, of a given number of core records. */
static struct formula next_of_stars(size_t records)
{
    struct formula f = stars(records, PASTUREQUILL_TRUE);
    add(&f, PASTUREQUILL_NEXT, f.n - 1, 0);
    return f;
}

static void most_records_in(void)
{
    struct formula most = stars(MOST_RECORDS, PASTUREQUILL_TRUE);
    struct formula fits = next_of_stars(MOST_RECORDS - 2), longer = next_of_stars(MOST_RECORDS - 1);
    expect_core("255 core records", bytes_of(&most), 0, bytes_of(&most));
    expect_core("254 records, one of them a next", bytes_of(&fits), 0, (struct bytes){NULL, MOST_BYTES});
    expect_refusal("255 records, one of them a next: 256 out", bytes_of(&longer), 0, PASTUREQUILL_TOO_LONG);

    /* No 255 records have more: each or has five of its own and one argument more, each final has three. */
    struct formula ors = nested(127, "(", "final", ") or final");
    expect_refusal("127 ors of finals: 1,019 out", bytes_of(&ors), 0, PASTUREQUILL_TOO_LONG);
    expect_refusal("127 ors of finals, 33 atoms", bytes_of(&ors), 33, PASTUREQUILL_WRONG_SIZE);
}

/* 254 nots of true, 763 records out, and what else is wrong with them comes before that. */
static void far_too_long(void)
{
    struct formula f = {.n = 0};
    add_times(&f, PASTUREQUILL_NOT, MOST_RECORDS - 1, yes(&f));
    size_t last = f.n - 1;
    expect_refusal("254 nots of true: 763 out", bytes_of(&f), 0, PASTUREQUILL_TOO_LONG);
    expect_refusal("255 records and a byte", (struct bytes){f.records, MOST_BYTES + 1}, 0, PASTUREQUILL_WRONG_LENGTH);
    expect_refusal("255 records without a byte", (struct bytes){f.records, MOST_BYTES - 1}, 0,
                   PASTUREQUILL_WRONG_LENGTH);
    expect_refusal("33 atoms before the length out", bytes_of(&f), 33, PASTUREQUILL_WRONG_SIZE);
    set_record(&f, last, PASTUREQUILL_NOT, last - 2, 0);
    expect_refusal("a record that is named twice before the length out", bytes_of(&f), 0, PASTUREQUILL_NOT_A_TREE);
    set_kind(&f, last, PASTUREQUILL_TEST);
    expect_refusal("the last record's sort before the length out", bytes_of(&f), 0, PASTUREQUILL_WRONG_SORT);
    set_kind(&f, last, UINT8_MAX);
    expect_refusal("the last record's kind before the length out", bytes_of(&f), 0, PASTUREQUILL_UNKNOWN_KIND);
    set_record(&f, last, PASTUREQUILL_NOT, last - 1, 0);
    add(&f, PASTUREQUILL_NOT, last, 0);
    expect_refusal("255 nots of true: 256 records in", bytes_of(&f), 0, PASTUREQUILL_WRONG_LENGTH);
}

static void no_addresses(void)
{
    struct formula final = written("", "final"), long_one = nested(128, "next ", "true", "");
    expect_no_address("no address for no records", (struct bytes)NONE, 0, PASTUREQUILL_WRONG_LENGTH);
    expect_no_address("no address for no records, and 33 atoms", (struct bytes)NONE, 33, PASTUREQUILL_WRONG_LENGTH);
    expect_no_address("no address for no room", bytes_of(&final), 0, PASTUREQUILL_NO_ROOM);
    expect_no_address("no address for no room, and 33 atoms", bytes_of(&final), 33, PASTUREQUILL_WRONG_SIZE);
    expect_no_address("no address for no room, and too long", bytes_of(&long_one), 0, PASTUREQUILL_TOO_LONG);
}

/* ---- what a since is worth */
enum { P, Q, ATOMS, SINCE_INSTANTS = 4, CELLS = ATOMS * SINCE_INSTANTS, VALUES = 3 };

/* The value of "p since q" at instant k by its words: q at some instant up to k, and p at every later one up to k. */
static uint8_t since_at(const uint8_t *cells, size_t k)
{
    uint8_t best = 0, held = 2;
    for (size_t j = k + 1; j-- > 0;) {
        uint8_t p = cells[ATOMS * j + P], q = cells[ATOMS * j + Q], here = q < held ? q : held;
        best = here > best ? here : best;
        held = p < held ? p : held;
    }
    return best;
}

/* Expands the formula, values what comes out, and expects these values at the instants. */
static void expect_values(const char *text, const uint8_t *cells, size_t instants, const uint8_t *due)
{
    struct formula f = written("pq", text);
    uint8_t core[MOST_BYTES], table[MOST_RECORDS * SINCE_INSTANTS];
    size_t size = RECORD_SIZE * (size_t)pasturequill_expand(f.records, size_of(&f), ATOMS, core, sizeof core).count;
    uint8_t refusal =
        pasturequill_value(core, size, ATOMS, instants, cells, ATOMS * instants, table, sizeof table).refusal;
    count(refusal == PASTUREQUILL_ACCEPTED, text, "refusal of its value", refusal, PASTUREQUILL_ACCEPTED);
    if (refusal != PASTUREQUILL_ACCEPTED)
        return;
    const uint8_t *row = table + (size / RECORD_SIZE - 1) * instants;
    for (size_t k = 0; k < instants; k++)
        count(row[k] == due[k], text, "value", row[k], due[k]);
}

/* Each trace of p and q with so many instants: its cells are the digits of its number. */
static void every_since(size_t instants)
{
    size_t traces = 1;
    for (size_t i = 0; i < ATOMS * instants; i++)
        traces *= VALUES;
    for (size_t trace = 0; trace < traces; trace++) {
        uint8_t cells[CELLS], due[SINCE_INSTANTS];
        for (size_t i = 0, digits = trace; i < ATOMS * instants; i++, digits /= VALUES)
            cells[i] = (uint8_t)(digits % VALUES);
        for (size_t k = 0; k < instants; k++)
            due[k] = since_at(cells, k);
        expect_values("p since q", cells, instants, due);
    }
}

static void sinces(void)
{
    /* q, and from then on p: kept at both instants. Stepping back first asks for p where only q is. */
    static const uint8_t sample[] = {0, 2, 2, 0}, kept[] = {2, 2}, thrown_away[] = {2, 0};
    expect_values("p since q", sample, 2, kept);
    expect_values("<(back ; p?)*>q", sample, 2, thrown_away);
    for (size_t instants = 1; instants <= SINCE_INSTANTS; instants++)
        every_since(instants);
}

int main(void)
{
    for (const struct brief *v = briefs; v < END(briefs); v++) {
        struct formula f = written("pqr", v->formula), core = written("pqr", v->core);
        expect_core(v->formula, bytes_of(&f), 3, bytes_of(&core));
    }
    for (const struct expanded *v = expanded; v < END(expanded); v++) {
        struct formula core;
        expect_core(v->reason, v->records, 3, records_of(&v->core, &core));
    }
    expect_faulty(expect_refusal);
    expect_each(refused, END(refused), expect_refusal);
    for (size_t i = 0; i < SHORTHANDS; i++) {
        const struct shorthand *s = &shorthands[i];
        count(s->kind == 32 + i, s->name, "number in the header", s->kind, 32 + i);
        faults_of(s);
        for (size_t records = MOST_RECORDS - 1; records <= MOST_RECORDS + 1; records++)
            reaches(s, records);
    }
    steps();
    nots();
    untils();
    most_records_in();
    far_too_long();
    no_addresses();
    sinces();
    return counts_told();
}
