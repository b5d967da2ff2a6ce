/* pasturequill_check over tables of cases and around the greatest number of records. Each input is handed over twice,
 * ending and starting at a page that may not be touched, in memory that may only be read. */
#define TEST_NAME "check"

#include "faults.h"
#include "guarded.h"

static void expect(const char *reason, struct bytes records, uint64_t atoms, int refusal)
{
    for (int edge = GUARDED_AT_END; edge <= GUARDED_AT_START; edge++) {
        int got = pasturequill_check(guarded(records.at, records.size, edge), records.size, atoms);
        count(got == refusal, reason, "refusal", (uint64_t)got, (uint64_t)refusal);
        guarded_release();
    }
}

/* Each kind, and the examples of the specification. */
static const struct records_case taken[] = {
    CASE(ACCEPTED, 0, "false", FALSE_),
    CASE(ACCEPTED, 0, "true", TRUE_),
    CASE(ACCEPTED, 1, "an atom", ATOM(0)),
    CASE(ACCEPTED, 32, "the last of 32 atoms", ATOM(31)),
    CASE(ACCEPTED, 2, "A: until", ATOM(0), TEST(0), STEP, SEQUENCE(1, 2), STAR(3), ATOM(1), DIAMOND(4, 5)),
    CASE(ACCEPTED, 1, "C: every second instant", STEP, STEP, SEQUENCE(0, 1), STAR(2), ATOM(0), BOX(3, 4)),
    CASE(ACCEPTED, 2, "D: a star that stands still", ATOM(0), TEST(0), STAR(1), ATOM(1), DIAMOND(2, 3)),
    CASE(ACCEPTED, 1, "E: a star that turns round", STEP, BACK, CHOICE(0, 1), STAR(2), ATOM(0), DIAMOND(3, 4)),
    CASE(ACCEPTED, 0, "G: final", STEP, FALSE_, BOX(0, 1)),
    CASE(ACCEPTED, 0, "children in any order", TRUE_, STEP, DIAMOND(1, 0)),
    CASE(ACCEPTED, 0, "a star of a star", STEP, STAR(0), STAR(1), TRUE_, DIAMOND(2, 3)),
};

/* A formula of stars, of a given number of records, and further bytes. */
static void expect_number(const char *reason, size_t records, size_t more, int refusal)
{
    struct formula f = stars(records, PASTUREQUILL_TRUE);
    expect(reason, (struct bytes){f.records, size_of(&f) + more}, 0, refusal);
}

/* A slice of no bytes may have no address. */
static void no_address(void)
{
    int got = pasturequill_check(NULL, 0, 0), due = PASTUREQUILL_WRONG_LENGTH;
    count(got == due, "no address for no bytes", "refusal", (uint64_t)got, (uint64_t)due);
}

int main(void)
{
    expect("no bytes", (struct bytes)NONE, 0, PASTUREQUILL_WRONG_LENGTH);
    expect("no bytes and 33 atoms", (struct bytes)NONE, 33, PASTUREQUILL_WRONG_LENGTH);
    expect_each(taken, END(taken), expect);
    expect_faulty(expect);
    expect_shorthands_refused(expect);
    expect_number("255 records", MOST_RECORDS, 0, PASTUREQUILL_ACCEPTED);
    expect_number("256 records", MOST_RECORDS + 1, 0, PASTUREQUILL_WRONG_LENGTH);
    expect_number("1,000 records", RECORDS_ROOM, 0, PASTUREQUILL_WRONG_LENGTH);
    expect_number("255 records and a byte", MOST_RECORDS, 1, PASTUREQUILL_WRONG_LENGTH);
    no_address();
    return counts_told();
}
