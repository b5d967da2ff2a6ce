/* pasturequill_translate over tables of cases and over the longest formulas. Each input is at both edges of memory that
 * may not be touched, the records in memory that may only be read, and the rules with and without room to spare. */
#define TEST_NAME "translate"
#define SERVICE pasturequill_translate
#define ELEMENT uint16_t
#define EACH PASTUREQUILL_RULE_SIZE
#define ROOMS 0, PASTUREQUILL_MOST_RULE_WORDS

#include "counted.h"
#include "rules.h"

/* The atoms p and q, and the labels of records where these two are all. */
enum { P = COLUMN, Q, X0, X1, X2, X3, X4, X5, X6, X7 };

/* The rules of label x by what its record is, besides the smaller or the greater of two: the same as another symbol; a
 * step or a back step that goes on with c, under a diamond or, weak, under a box; an implication; the whole formula. */
#define IS(x, s) SAME(EVERY, x, s)
#define NEXT(x, c) SAME(LATER, PREVIOUS + x, c), ARROW(LAST, x, NO)
#define WEAK_NEXT(x, c) SAME(LATER, PREVIOUS + x, c), ARROW(LAST, YES, x)
#define BEFORE(x, c) SAME(LATER, x, PREVIOUS + c), ARROW(FIRST, x, NO)
#define WEAK_BEFORE(x, c) SAME(LATER, x, PREVIOUS + c), ARROW(FIRST, YES, x)
#define IMPLICATION(x, u, v) \
    EVERY, x, u, v, NO, NO, ARROW(EVERY, NOT + u, x), ARROW(EVERY, v, x), EVERY, YES, YES, x, u, NOT + v
#define WHOLE(x, s) IS(x, s), ARROW(FIRST, YES, x)

static void expect_rules(const char *reason, struct bytes records, uint64_t atoms, struct output rules)
{
    size_t most = RULE_SIZE * (4 * (records.size / RECORD_SIZE) + 1);
    count(rules.size <= most, reason, "more words than four rules a record and one have:", rules.size, most);
    expect_output(reason, records, atoms, rules);
}

/* The same where only the number of rules is known. */
static void expect_count(const char *reason, struct bytes records, uint64_t atoms, size_t rules)
{
    expect_rules(reason, records, atoms, (struct output){NULL, RULE_SIZE * rules});
}

/* ---- word for word */
static const struct translated {
    const char *reason;
    uint64_t atoms;
    struct source formula;
    struct output rules;
} translated[] = {
    /* as the specification prints it */
    {"p next, over 32 atoms", 32, F("<step>p"),
     WORDS(2, 16418, 1, 35, 0, 0,  2, 35, 1, 16418, 0, 0,  3, 34, 1, 0, 0, 0,  0, 35, 1, 2, 0, 0,
           0, 2, 1, 35, 0, 0,  0, 36, 1, 34, 0, 0,  0, 34, 1, 36, 0, 0,  1, 1, 1, 36, 0, 0)},

    /* a test under a box, in digits */
    {"p implies q", 2, F("[p?]q"),
     WORDS(0, 4, 1, 2, 0, 0,  0, 2, 1, 4, 0, 0,  0, 5, 4, 6, 0, 0,  0, 32772, 1, 5, 0, 0,
           0, 6, 1, 5, 0, 0,  0, 1, 1, 5, 4, 32774,  0, 6, 1, 3, 0, 0,  0, 3, 1, 6, 0, 0,
           0, 7, 1, 5, 0, 0,  0, 5, 1, 7, 0, 0,  1, 1, 1, 7, 0, 0)},

    /* the examples by letter */
    {"A, B: p until q", 2, F("<(p? ; step)*>q"),
     WORDS(IS(X0, P), SMALLER(X1, X0, X2), NEXT(X2, X4), IS(X3, X1), GREATER(X4, X5, X3), IS(X5, Q), WHOLE(X6, X4))},
    {"C: p at every second instant", 2, F("[(step ; step)*]p"),
     WORDS(WEAK_NEXT(X0, X1), WEAK_NEXT(X1, X3), IS(X2, X0), SMALLER(X3, X4, X2), IS(X4, P), WHOLE(X5, X3))},
    {"F: once p", 2, F("<back*>p"), WORDS(BEFORE(X0, X1), GREATER(X1, X2, X0), IS(X2, P), WHOLE(X3, X1))},
    {"G: final", 2, F("[step]false"), WORDS(WEAK_NEXT(X0, X1), IS(X1, NO), WHOLE(X2, X0))},

    /* one record */
    {"true, no atoms", 0, F("true"), WORDS(0, 2, 1, 1, 0, 0, 0, 1, 1, 2, 0, 0, 1, 1, 1, 2, 0, 0)},
    {"false, no atoms", 0, F("false"), WORDS(0, 2, 1, 0, 0, 0, 0, 0, 1, 2, 0, 0, 1, 1, 1, 2, 0, 0)},
    {"the last of 32 atoms", 32, LISTED(ATOM(31)), WORDS(0, 34, 1, 33, 0, 0, 0, 33, 1, 34, 0, 0, 1, 1, 1, 34, 0, 0)},
    {"the second of two atoms", 2, F("q"), WORDS(WHOLE(X0, Q))},

    /* each kind of path under a diamond and under a box, where the examples have it not */
    {"weak next", 2, F("[step]p"), WORDS(WEAK_NEXT(X0, X1), IS(X1, P), WHOLE(X2, X0))},
    {"previous", 2, F("<back>p"), WORDS(BEFORE(X0, X1), IS(X1, P), WHOLE(X2, X0))},
    {"weak previous", 2, F("[back]p"), WORDS(WEAK_BEFORE(X0, X1), IS(X1, P), WHOLE(X2, X0))},
    {"p and q", 2, F("<p?>q"), WORDS(IS(X0, P), SMALLER(X1, X0, X2), IS(X2, Q), WHOLE(X3, X1))},
    {"p at some neighbour", 2, F("<step + back>p"),
     WORDS(NEXT(X0, X3), BEFORE(X1, X3), GREATER(X2, X0, X1), IS(X3, P), WHOLE(X4, X2))},
    {"p at all neighbours", 2, F("[step + back]p"),
     WORDS(WEAK_NEXT(X0, X3), WEAK_BEFORE(X1, X3), SMALLER(X2, X0, X1), IS(X3, P), WHOLE(X4, X2))},
    {"two steps", 2, F("<step ; step>p"), WORDS(NEXT(X0, X1), NEXT(X1, X3), IS(X2, X0), IS(X3, P), WHOLE(X4, X2))},
    {"so far p", 2, F("[back*]p"), WORDS(WEAK_BEFORE(X0, X1), SMALLER(X1, X2, X0), IS(X2, P), WHOLE(X3, X1))},
    {"q as long as p led there", 2, F("[(p? ; step)*]q"),
     WORDS(IS(X0, P), IMPLICATION(X1, X0, X2), WEAK_NEXT(X2, X4), IS(X3, X1), SMALLER(X4, X5, X3), IS(X5, Q),
           WHOLE(X6, X4))},

    /* continuations */
    {"a choice as the first part: both arms go on with the second part", 2, F("<(step + back) ; p?>q"),
     WORDS(NEXT(X0, X4), BEFORE(X1, X4), GREATER(X2, X0, X1), IS(X3, P), SMALLER(X4, X3, X6), IS(X5, X2), IS(X6, Q),
           WHOLE(X7, X5))},
    {"a sequence as the second part", 2, F("[step ; (back ; step)]true"),
     WORDS(WEAK_NEXT(X0, X3), WEAK_BEFORE(X1, X2), WEAK_NEXT(X2, X5), IS(X3, X1), IS(X4, X0), IS(X5, YES),
           WHOLE(X6, X4))},
    {"a sequence as the first part", 2, F("<step ; back ; step>true"),
     WORDS(NEXT(X0, X1), BEFORE(X1, X3), IS(X2, X0), NEXT(X3, X5), IS(X4, X2), IS(X5, YES), WHOLE(X6, X4))},
    {"a star in a star, by a sequence", 2, F("<(step* ; step)*>p"),
     WORDS(NEXT(X0, X1), GREATER(X1, X2, X0), NEXT(X2, X4), IS(X3, X1), GREATER(X4, X5, X3), IS(X5, P), WHOLE(X6, X4))},
    {"a star of a choice", 2, F("[(back + back)*]p"),
     WORDS(WEAK_BEFORE(X0, X3), WEAK_BEFORE(X1, X3), SMALLER(X2, X0, X1), SMALLER(X3, X4, X2), IS(X4, P),
           WHOLE(X5, X3))},
    {"star and star, one after the other", 2, F("<step* ; back*>p"),
     WORDS(NEXT(X0, X1), GREATER(X1, X3, X0), BEFORE(X2, X3), GREATER(X3, X5, X2), IS(X4, X1), IS(X5, P),
           WHOLE(X6, X4))},

    /* a modality inside a test is its own */
    {"a diamond in a test under a box", 2, F("[(<step>p)?]q"),
     WORDS(NEXT(X0, X1), IS(X1, P), IS(X2, X0), IMPLICATION(X3, X2, X4), IS(X4, Q), WHOLE(X5, X3))},
    {"a box in a test under a diamond", 2, F("<([step]p)?>q"),
     WORDS(WEAK_NEXT(X0, X1), IS(X1, P), IS(X2, X0), SMALLER(X3, X2, X4), IS(X4, Q), WHOLE(X5, X3))},
    {"a diamond after a box", 2, F("[step]<step>p"),
     WORDS(WEAK_NEXT(X0, X3), NEXT(X1, X2), IS(X2, P), IS(X3, X1), WHOLE(X4, X0))},

    /* records in another order */
    {"the end before the path", 2, LISTED(ATOM(1), STEP, DIAMOND(1, 0)), WORDS(IS(X0, Q), NEXT(X1, X0), WHOLE(X2, X1))},
    {"the second part before the first", 2, LISTED(BACK, ATOM(0), STEP, SEQUENCE(2, 0), BOX(3, 1)),
     WORDS(WEAK_BEFORE(X0, X1), IS(X1, P), WEAK_NEXT(X2, X0), IS(X3, X2), WHOLE(X4, X3))},
    {"equal parts have labels of their own", 2, LISTED(ATOM(0), ATOM(0), TEST(1), DIAMOND(2, 0)),
     WORDS(IS(X0, P), IS(X1, P), SMALLER(X2, X1, X0), WHOLE(X3, X2))},
};

/* ---- counts of rules and refusals of stars, over two atoms */
#define TAKEN(rules, reason, ...) ROW(ACCEPTED, reason, rules, __VA_ARGS__)
#define REFUSED(refusal, reason, ...) ROW(refusal, reason, 0, __VA_ARGS__)

static const struct starred {
    const char *reason;
    int refusal;
    size_t rules;
    struct source formula;
} starred[] = {
    TAKEN(18, "A, B: 18 rules", F("<(p? ; step)*>q")),
    TAKEN(16, "C: 16 rules", F("[(step ; step)*]p")),
    TAKEN(11, "F: 11 rules", F("<back*>p")),
    REFUSED(STAR_STANDS, "D: a test stands still", F("<p?*>q")),
    REFUSED(STAR_TURNS, "E: a body that turns", F("<(step + back)*>p")),

    /* what stands still */
    REFUSED(STAR_STANDS, "a test stands still under a box too", F("[p?*]q")),
    REFUSED(STAR_STANDS, "a star stands still", F("<step**>true")),
    REFUSED(STAR_STANDS, "a test of a moving formula stands still", F("<(<step>true)?*>true")),
    REFUSED(STAR_STANDS, "a choice's first arm stands still", F("<(p? + step)*>true")),
    REFUSED(STAR_STANDS, "a choice's second arm stands still",
        LISTED(ATOM(0), TEST(0), STEP, CHOICE(2, 1), STAR(3), TRUE_, DIAMOND(4, 5))),
    REFUSED(STAR_STANDS, "a choice with a star", LISTED(STEP, STAR(0), STEP, CHOICE(2, 1), STAR(3), TRUE_, BOX(4, 5))),
    TAKEN(17, "a choice of two that move", F("<(step + step)*>true")),
    REFUSED(STAR_STANDS, "a sequence of two tests", F("<(p? ; q?)*>true")),
    REFUSED(STAR_STANDS, "a sequence of a test and a star",
        LISTED(STEP, STAR(0), ATOM(1), TEST(2), SEQUENCE(3, 1), STAR(4), TRUE_, DIAMOND(5, 6))),
    REFUSED(STAR_STANDS, "a sequence of two stars", F("<(step* ; step*)*>true")),
    REFUSED(STAR_STANDS, "a sequence of two choices with a test each",
        LISTED(ATOM(0), TEST(0), STEP, CHOICE(1, 2), ATOM(1), TEST(4), STEP, CHOICE(6, 5), SEQUENCE(3, 7), STAR(8),
               TRUE_, DIAMOND(9, 10))),
    TAKEN(25, "a sequence of a choice with a test and a step", F("[((p? + step) ; step)*]true")),
    TAKEN(19, "a sequence of a step and a star", F("<(step ; step*)*>true")),
    TAKEN(19, "a sequence of a star and a step", F("[(step* ; step)*]true")),
    TAKEN(27, "two tests and a step", F("[(p? ; q? ; step)*]true")),

    /* directions */
    REFUSED(STAR_TURNS, "step and then back", F("[(step ; back)*]true")),
    REFUSED(STAR_TURNS, "back in a nested star", F("<(back* ; step)*>true")),
    TAKEN(13, "step and back without a star", F("<step ; back>true")),
    TAKEN(19, "step in one star and back in another", F("<step* ; back*>true")),
    TAKEN(16, "step in the star and back after it", F("<step* ; back>true")),

    /* tests' formulas do not count for the star around */
    TAKEN(23, "back in a test's formula", F("<((<back>p)? ; step)*>q")),
    TAKEN(28, "both in a test's formula", F("<((<step ; back>p)? ; step)*>q")),
    TAKEN(26, "a star in a test's formula goes the other way", F("<((<back*>p)? ; step)*>q")),
    REFUSED(STAR_TURNS, "a star in a test's formula turns", F("<((<(step + back)*>p)? ; step)*>q")),
    REFUSED(STAR_TURNS, "a star in a test's formula turns, in no other star", F("<(<(step + back)*>p)?>q")),
    REFUSED(STAR_STANDS, "a star in a test's formula stands still", F("<((<p?*>p)? ; step)*>q")),
    REFUSED(STAR_TURNS, "a star in the formula after turns", F("[step*]<(step + back)*>true")),
    REFUSED(STAR_TURNS, "a star in a test's formula turns and the star around stands still, which is later",
        F("<(<(step + back)*>p)?*>q")),

    /* turning before standing still on the same star, stars from the first */
    REFUSED(STAR_TURNS, "a body that turns and may stand still", F("<(step + back + p?)*>true")),
    REFUSED(STAR_TURNS, "two stars, each one way", F("<(step* ; back*)*>true")),
    REFUSED(STAR_TURNS, "a star that turns, in a star", F("<(step + back)**>true")),
    REFUSED(STAR_STANDS, "a star that stands still, in one that turns", F("<(p?* ; (step + back))*>true")),
    REFUSED(STAR_STANDS, "an earlier star stands still, a later one turns", F("<p?* ; (step + back)*>true")),
    REFUSED(STAR_TURNS, "the same path, its records in another order: the earlier star turns",
        LISTED(ATOM(0), TEST(0), STEP, BACK, CHOICE(2, 3), STAR(4), STAR(1), SEQUENCE(6, 5), TRUE_, DIAMOND(7, 8))),

    /* what comes before a star's refusal */
    REFUSED(NOT_A_TREE, "the tree before a star that turns",
        LISTED(STEP, BACK, CHOICE(0, 1), STAR(2), TRUE_, TRUE_, DIAMOND(3, 4))),
    REFUSED(NOT_A_TREE, "the tree before a star that stands still", LISTED(TRUE_, TEST(0), STAR(1), DIAMOND(2, 0))),
    REFUSED(WRONG_SORT, "the last record's sort before a star that stands still", F("true?*")),
    REFUSED(UNKNOWN_KIND, "a later record's kind before a star that turns",
        LISTED(STEP, BACK, CHOICE(0, 1), STAR(2), TRUE_, R(UINT8_MAX, 3, 4))),
};

/* ---- the longest formulas */
/* The rules that are wanted of one of them. */
static uint16_t wanted[MOST_WORDS];
static size_t words_wanted;

static void want(struct words more)
{
    memcpy(wanted + words_wanted, more.at, sizeof *wanted * more.size);
    words_wanted += more.size;
}

#define WANT(...) want((struct words)WORDS(__VA_ARGS__))

/* The symbol of an atom, and the label of a record where there are as many atoms as there may be. */
enum { ATOMS = PASTUREQUILL_MOST_ATOMS };
#define A(i) (uint16_t)(COLUMN + (i))
#define Y(r) A(ATOMS + (r))

/* A formula of as many records as there may be, whose rules are wanted. */
static void expect_longest(const char *reason, const struct formula *f, size_t rules)
{
    count(f->n == MOST_RECORDS, reason, "records", f->n, MOST_RECORDS);
    count(words_wanted == RULE_SIZE * rules, reason, "words", words_wanted, RULE_SIZE * rules);
    expect_rules(reason, bytes_of(f), ATOMS, (struct output){wanted, words_wanted});
    words_wanted = 0;
}

/* A box over a choice of 127 steps: three rules a record but for two that have two. No formula has more rules: each
 * test under a box has four, but its formula has two, and so have the modality and its end. */
static void wide_choice(void)
{
    struct formula f = {.n = 0};
    size_t path = step(&f);
    while (left(&f) > 2)
        path = choice(&f, path, step(&f));
    size_t end = yes(&f), whole = box(&f, path, end);
    for (size_t r = 0; r < end; r++) {
        if (kind_of(f.records, r) == PASTUREQUILL_CHOICE)
            WANT(SMALLER(Y(r), Y(r - 2), Y(r - 1)));
        else
            WANT(WEAK_NEXT(Y(r), Y(end)));
    }
    WANT(IS(Y(end), YES), WHOLE(Y(whole), Y(path)));
    expect_longest("255 records, a choice of 127 steps: 764 rules", &f, 764);
}

/* A box over a choice of 84 tests and a step: as many rules, 84 times four among them. */
static void tests_in_a_choice(void)
{
    struct formula f = {.n = 0};
    size_t path = step(&f);
    for (size_t i = 0; left(&f) > 2; i++)
        path = choice(&f, test(&f, atom(&f, i % ATOMS)), path);
    size_t end = atom(&f, ATOMS - 1), whole = box(&f, path, end);
    WANT(WEAK_NEXT(Y(0), Y(end)));
    for (size_t r = 1; r < end; r += 3)
        WANT(IS(Y(r), A(r / 3 % ATOMS)), IMPLICATION(Y(r + 1), Y(r), Y(end)), SMALLER(Y(r + 2), Y(r + 1), Y(r - 1)));
    WANT(IS(Y(end), A(ATOMS - 1)), WHOLE(Y(whole), Y(path)));
    expect_longest("255 records, a choice of 84 tests and a step: 764 rules", &f, 764);
}

/* A box over 84 tests one after the other, each of which goes on with the next; at the end a diamond. */
static void tests_in_a_row(void)
{
    enum { TESTS = 84 };
    struct formula f = {.n = 0};
    size_t tests[TESTS], paths[TESTS];
    for (size_t i = 0; i < TESTS; i++) {
        tests[i] = test(&f, atom(&f, i % ATOMS));
        paths[i] = i == 0 ? tests[0] : sequence(&f, paths[i - 1], tests[i]);
    }
    size_t on = step(&f), goal = yes(&f), end = diamond(&f, on, goal), whole = box(&f, paths[TESTS - 1], end);
    for (size_t i = 0; i < TESTS; i++) {
        size_t tested = tests[i] - 1, next = i == TESTS - 1 ? end : tests[i + 1];
        WANT(IS(Y(tested), A(i % ATOMS)), IMPLICATION(Y(tests[i]), Y(tested), Y(next)));
        if (i != 0)
            WANT(IS(Y(paths[i]), Y(paths[i - 1])));
    }
    WANT(NEXT(Y(on), Y(goal)), IS(Y(goal), YES), IS(Y(end), Y(on)), WHOLE(Y(whole), Y(paths[TESTS - 1])));
    expect_longest("255 records, 84 tests in a row: 680 rules", &f, 680);
}

/* Changes a record's kind, after which the formula is refused. */
enum { TURNS = PASTUREQUILL_STAR_TURNS, STANDS = PASTUREQUILL_STAR_STANDS };

static void expect_changed(struct formula *f, size_t r, uint8_t kind, int refusal, const char *reason)
{
    set_kind(f, r, kind);
    expect_refusal(reason, bytes_of(f), 0, refusal);
}

/* A step under 84 stars, with a further step in each: ((step* ; step)* ; step)* and so on. */
static void nested_stars(void)
{
    struct formula f = {.n = 0};
    size_t path = star(&f, step(&f));
    while (left(&f) > 4)
        path = star(&f, sequence(&f, path, step(&f)));
    size_t innermost = 0, body = 120, step_around = 122, outermost = path - 1;
    diamond(&f, path, yes(&f));
    expect_count("84 stars in each other", bytes_of(&f), 0, 675);

    expect_changed(&f, innermost, PASTUREQUILL_BACK, TURNS, "84 stars, the innermost the other way");
    expect_changed(&f, body, PASTUREQUILL_CHOICE, TURNS, "84 stars, the innermost turns, a later one may stand still");
    expect_changed(&f, innermost, PASTUREQUILL_STEP, STANDS, "84 stars, one of which may stand still");
    expect_changed(&f, step_around, PASTUREQUILL_BACK, STANDS, "84 stars, one may stand still, and the next turns");
    expect_changed(&f, body, PASTUREQUILL_SEQUENCE, TURNS, "84 stars, one of which turns");
    set_kind(&f, step_around, PASTUREQUILL_STEP);
    expect_changed(&f, outermost, PASTUREQUILL_CHOICE, STANDS, "84 stars, the outermost may stand still");
}

/* A star over 126 steps in a row, then its first or its last step the other way. */
static void long_body(void)
{
    enum { STEPS = 126 };
    struct formula f = {.n = 0};
    size_t first = step(&f), last = first, path = first;
    for (int i = 1; i < STEPS; i++) {
        last = step(&f);
        path = sequence(&f, path, last);
    }
    path = star(&f, path);
    box(&f, path, yes(&f));
    expect_count("a star over 126 steps", bytes_of(&f), 1, STEPS * 3 + (STEPS - 1) * 2 + 3 + 2 + 2 + 1);
    set_kind(&f, first, PASTUREQUILL_BACK);
    expect_refusal("a star over 126 steps, the first of them back", bytes_of(&f), 1, TURNS);
    set_kind(&f, first, PASTUREQUILL_STEP);
    set_kind(&f, last, PASTUREQUILL_BACK);
    expect_refusal("a star over 126 steps, the last of them back", bytes_of(&f), 1, TURNS);
}

/* Records more than there may be. */
static void too_many(void)
{
    struct formula f = {.n = 0};
    size_t path = step(&f);
    while (f.n < MOST_RECORDS)
        path = sequence(&f, path, step(&f));
    diamond(&f, path, yes(&f));
    expect_refusal("257 records", bytes_of(&f), 0, PASTUREQUILL_WRONG_LENGTH);
    expect_refusal("1,000 records", (struct bytes){f.records, sizeof f.records}, 0, PASTUREQUILL_WRONG_LENGTH);
    expect_refusal("256 records", (struct bytes){f.records, MOST_BYTES + RECORD_SIZE}, 0, PASTUREQUILL_WRONG_LENGTH);
    expect_refusal("255 records and a byte", (struct bytes){f.records, MOST_BYTES + 1}, 0, PASTUREQUILL_WRONG_LENGTH);
}

static void no_addresses(void)
{
    const struct bytes plain = RECORDS(TRUE_), still = RECORDS(TRUE_, TEST(0), STAR(1), TRUE_, DIAMOND(2, 3));
    expect_no_address("no address for no records", (struct bytes)NONE, 0, PASTUREQUILL_WRONG_LENGTH);
    expect_no_address("no address for no records, and 33 atoms", (struct bytes)NONE, 33, PASTUREQUILL_WRONG_LENGTH);
    expect_no_address("no address for no room", plain, 0, PASTUREQUILL_NO_ROOM);
    expect_no_address("no address for no room, and a star", still, 0, STANDS);
}

int main(void)
{
    struct formula room;
    for (const struct translated *v = translated; v < END(translated); v++)
        expect_rules(v->reason, records_of(&v->formula, &room), v->atoms, v->rules);
    for (const struct starred *v = starred; v < END(starred); v++) {
        if (v->refusal == PASTUREQUILL_ACCEPTED)
            expect_count(v->reason, records_of(&v->formula, &room), 2, v->rules);
        else
            expect_refusal(v->reason, records_of(&v->formula, &room), 2, v->refusal);
    }
    expect_faulty(expect_refusal);
    expect_shorthands_refused(expect_refusal);
    wide_choice();
    tests_in_a_choice();
    tests_in_a_row();
    nested_stars();
    long_body();
    too_many();
    no_addresses();
    return counts_told();
}
