/* pasturequill_value over tables of cases and around the greatest sizes. Each input is at both edges of memory that may
 * not be touched, records and cells in memory that may only be read, and the table with and without room to spare. All
 * calls are made in a thread with little stack. */
#define TEST_NAME "value"

#include "faults.h"
#include "room.h"
#include "stack.h"

enum { MOST_ATOMS = PASTUREQUILL_MOST_ATOMS, MOST_INSTANTS = PASTUREQUILL_MOST_INSTANTS };

/* ---- the call */
struct input {
    const char *reason;
    uint64_t atoms, instants;
    struct bytes records, cells;
};

/* How many bytes the table of an accepted input has. */
static size_t table_size(const struct input *in) { return in->records.size / RECORD_SIZE * (size_t)in->instants; }

/* What record r has in the table at instant k where that needs no reading of paths; -1 if it does. */
static int plain_value(const struct input *in, size_t r, size_t k)
{
    switch (kind_of(in->records.at, r)) {
    case PASTUREQUILL_TRUE: return 2;
    case PASTUREQUILL_ATOM: return in->cells.at[k * in->atoms + field_a(in->records.at, r)];
    case PASTUREQUILL_DIAMOND:
    case PASTUREQUILL_BOX: return -1;
    default: return 0; /* false, or a path */
    }
}

/* `values` is the whole table, or its last row alone. What needs a reading of paths is not known. */
static void expect_table(const struct input *in, struct bytes values, const uint8_t *table, size_t room)
{
    static uint8_t expected[MOST_RECORDS * MOST_INSTANTS];
    size_t instants = (size_t)in->instants, before = table_size(in) - values.size;
    for (size_t at = 0; at < before; at++) {
        int plain = plain_value(in, at / instants, at % instants);
        expected[at] = plain == -1 ? table[at] : (uint8_t)plain;
    }
    memcpy(expected + before, values.at, values.size);
    expect_room(in->reason, table, room, (struct bytes){expected, table_size(in)});
}

/* One call at each edge: on a refusal the value is 0 and the table stays. */
static void expect(const struct input *in, size_t room, int refusal, struct bytes values)
{
    struct bytes records = in->records, cells = in->cells;
    uint8_t value = refusal ? 0 : values.at[values.size - (size_t)in->instants];
    for (int edge = GUARDED_AT_END; edge <= GUARDED_AT_START; edge++) {
        uint8_t *table = guarded_fresh(room, edge);
        pasturequill_valued got =
            pasturequill_value(guarded(records.at, records.size, edge), records.size, in->atoms, in->instants,
                               guarded(cells.at, cells.size, edge), cells.size, table, room);
        count(got.refusal == refusal, in->reason, "refusal", got.refusal, (uint64_t)refusal);
        count(got.value == value, in->reason, "value", got.value, value);
        if (refusal)
            expect_room(in->reason, table, room, (struct bytes)NONE);
        else
            expect_table(in, values, table, room);
        guarded_release();
    }
}

static void expect_values(struct input in, struct bytes values)
{
    static const size_t spare[] = {0, 1, 40};
    for (const size_t *more = spare; more < END(spare); more++)
        expect(&in, table_size(&in) + *more, PASTUREQUILL_ACCEPTED, values);
}

static void expect_refused(struct input in, size_t room, int refusal)
{
    expect(&in, room, refusal, (struct bytes)NONE);
}

/* ---- accepted inputs */
/* Cells are rows: the atoms at instant 0, then those at instant 1. Values are the whole formula's row of the table,
 * perhaps after those of the other records. */
static const struct valued {
    const char *reason;
    struct source formula;
    const char *cells, *values;
} valued[] = {
    /* the examples of the specification by letter */
    {"A: p until q, p only assumed on the way", F("<(p? ; step)*>q"), "20 10 02", "112"},
    {"A: the whole table, in which paths have zeros", F("<(p? ; step)*>q"), "20 10 02", "210 000 000 000 000 002 112"},
    {"B: p until q, p proved on the way", F("<(p? ; step)*>q"), "20 20 02", "222"},
    {"C: p at every second instant", F("[(step ; step)*]p"), "2 0 2 0", "2020"},
    {"D: a star that stands still gets nowhere", F("<p?*>q"), "20", "0"},
    {"E: a star that turns round gets everywhere", F("<(step + back)*>p"), "0 0 1", "111"},
    {"F: p once", F("<back*>p"), "2 0", "22"},
    {"G: final", F("[step]false"), "", "02"},
    {"H: 1 implies 1", F("[p?]q"), "11", "2"},
    {"I: 2 implies 1", F("[p?]q"), "21", "1"},
    {"J: 1 implies 0", F("[p?]q"), "10", "0"},
    {"K: 0 implies 0", F("[p?]q"), "00", "2"},
    {"M: not p, p assumed", F("[p?]false"), "1", "0"},
    {"N: a box where no step is left", F("[step]p"), "0", "2"},
    {"N: a diamond where no step is left", F("<step>p"), "2", "0"},

    /* each kind by itself */
    {"false", F("false"), "", "00"},
    {"true", F("true"), "", "22"},
    {"an atom has its cells", F("q"), "20 21 02", "012"},
    {"a step leads on", F("<step>p"), "0 1 2", "120"},
    {"a back step leads back", F("<back>p"), "1 2 0", "012"},
    {"a box over a back step asks nothing at the first instant", F("[back]p"), "1 2 0", "212"},
    {"and: the smaller", F("<p?>q"), "21", "1"},
    {"or: the greater", F("<p? + q?>true"), "12", "2"},
    {"a choice of neighbours: the better one", F("<step + back>p"), "1 0 2", "020"},
    {"a box over neighbours: the worse one", F("[step + back]p"), "1 0 2", "010"},
    {"a sequence of two steps", F("<step ; step>p"), "0 1 2", "200"},
    {"a sequence keeps its order: step, then p", F("<step ; p?>true"), "0 1", "10"},
    {"a sequence keeps its order: p, then step", LISTED(STEP, ATOM(0), TEST(1), SEQUENCE(2, 0), TRUE_, DIAMOND(3, 4)),
     "0 1", "00"},
    {"p since q", F("<(p? ; back)*>q"), "12 20 10", "221"},
    {"back, then p, up to q", F("<(back ; p?)*>q"), "12 20 00", "211"},
    {"no atoms: in the end, final", F("<step*>[step]false"), "", "222"},
    {"the formula before its path", LISTED(ATOM(0), STEP, STAR(1), DIAMOND(2, 0)), "0 1", "11"},
    {"A in another order", LISTED(ATOM(1), STEP, ATOM(0), TEST(2), SEQUENCE(3, 1), STAR(4), DIAMOND(5, 0)), "20 10 02",
     "112"},

    /* a box over a star: the conclusion is due as far as the way leads */
    {"as long as p, q: an assumed way to a 0", F("[(p? ; step)*]q"), "12 00", "00"},
    {"as long as p, q: an assumed way to a 1", F("[(p? ; step)*]q"), "12 01", "21"},
    {"as long as p, q: a proved way to a 1", F("[(p? ; step)*]q"), "22 01", "11"},
    {"as long as p, q: no way to a 0", F("[(p? ; step)*]q"), "02 20", "20"},

    /* stars that stand still */
    {"no pass is needed, p or not", F("<p?*>q"), "02", "2"},
    {"a box over standing still asks of where it stands", F("[p?*]q"), "01", "1"},
    {"standing still or stepping: the steps lead there", F("<(p? + step)*>q"), "00 10 01", "111"},
    {"a test taken twice costs no more than once", F("<(p? ; p? ; step)*>q"), "10 10 02", "112"},
    {"a star of a test lets all pass", F("<(p?* ; step)*>q"), "00 01", "11"},

    /* stars that turn round */
    {"step and back is staying", F("<(step ; back)*>p"), "0 1 2", "012"},
    {"two on and one back stops one before the end", F("<(step ; step ; back)*>p"), "0 0 1 2", "1112"},
    {"a box both ways sees the least", F("[(step + back)*]p"), "2 1 2", "111"},
    {"on only where p, back at will", F("<(p? ; step + back)*>q"), "10 02 00", "122"},

    /* stars of stars */
    {"a star of a star is the star", F("<step**>p"), "0 0 2", "222"},
    {"C under one more star", F("[(step ; step)**]p"), "2 0 2 0", "2020"},
    {"the outer star goes from the second inner one to the first again", F("<((p? ; step)* ; (q? ; step)*)*>r"),
     "200 020 100 002", "1112"},
    {"the same without the outer star gets there from the last two alone", F("<(p? ; step)* ; (q? ; step)*>r"),
     "200 020 100 002", "0012"},
    {"on and on, then back and back, again and again", F("<(step* ; back*)*>p"), "0 1 0", "111"},

    /* tests inside tests */
    {"not not p: an assumption is no refutation; with the whole table", F("[([p?]false)?]false"), "0 1 2",
     "012 000 000 200 000 000 022"},
    {"p and q, tested, and r, tested: the least of three", F("<(<(<p?>q)?>r)?>true"), "212", "1"},
    {"on while p comes next, up to q", F("<((<step>p)? ; step)*>q"), "00 10 22", "122"},
    {"a test that looks back in a star that goes on", F("<((<back>p)? ; step)*>q"), "20 20 02", "022"},
    {"always: if p then q in the end", F("[step*][p?]<step*>q"), "10 00 21", "111"},
    {"a test of a box over a star: p always, and q", F("<([step*]p)?>q"), "02 22 12", "011"},
};

/* A row's digits are bytes; spaces are between rows. */
static struct bytes digits(const char *rows, uint8_t *room)
{
    struct bytes bytes = {room, 0};
    for (; *rows; rows++)
        if (*rows != ' ')
            room[bytes.size++] = (uint8_t)(*rows - '0');
    return bytes;
}

static void expect_valued(const struct valued *v)
{
    struct formula room;
    uint8_t cells[MOST_ATOMS * MOST_INSTANTS], values[MOST_RECORDS * MOST_INSTANTS];
    const char *last_row = strrchr(v->values, ' ');
    struct input in = {v->reason, strcspn(v->cells, " "), strlen(last_row ? last_row + 1 : v->values),
                       records_of(&v->formula, &room), digits(v->cells, cells)};
    expect_values(in, digits(v->values, values));
}

/* ---- refused inputs */
/* Room that is enough for each of them, but for those that are refused for want of it. */
enum { ENOUGH = 100 };

/* A fault in the records, at one instant. */
static void expect_records_refused(const char *reason, struct bytes records, uint64_t atoms, int refusal)
{
    static const uint8_t zeros[MOST_ATOMS + 1];
    struct bytes cells = {zeros, atoms <= MOST_ATOMS ? (size_t)atoms : MOST_ATOMS + 1};
    expect_refused((struct input){reason, atoms, 1, records, cells}, ENOUGH, refusal);
}

#define P RECORDS(ATOM(0))
#define YES RECORDS(TRUE_)
#define UNTIL RECORDS(ATOM(0), TEST(0), STEP, SEQUENCE(1, 2), STAR(3), ATOM(1), DIAMOND(4, 5))

static const struct refused {
    const char *reason;
    int refusal;
    uint64_t atoms, instants;
    struct bytes records, cells;
    size_t room;
} refused[] = {
    ROW(WRONG_LENGTH, "no bytes", 0, 1, NONE, NONE, ENOUGH),

    /* atoms, instants, cells */
    ROW(WRONG_SIZE, "33 atoms", 33, 1, P, BYTES([32] = 0), ENOUGH),
    ROW(WRONG_SIZE, "33 instants", 1, 33, P, BYTES([32] = 0), ENOUGH),
    ROW(WRONG_SIZE, "33 instants and no atoms", 0, 33, YES, NONE, ENOUGH),
    ROW(WRONG_SIZE, "no instants", 1, 0, P, NONE, ENOUGH),
    ROW(WRONG_SIZE, "neither atoms nor instants", 0, 0, YES, NONE, ENOUGH),
    ROW(WRONG_SIZE, "a cell too few", 2, 2, P, BYTES(0, 0, 0), ENOUGH),
    ROW(WRONG_SIZE, "a cell too many", 2, 2, P, BYTES(0, 0, 0, 0, 0), ENOUGH),
    ROW(WRONG_SIZE, "no cells", 1, 1, P, NONE, ENOUGH),
    ROW(WRONG_SIZE, "a cell where there are no atoms", 0, 1, YES, BYTES(0), ENOUGH),
    ROW(WRONG_SIZE, "2^63 atoms at 2 instants, a product of 0 in 64 bits", TWO_TO(63), 2, P, NONE, ENOUGH),
    ROW(WRONG_SIZE, "2^63 instants of 2 atoms, a product of 0 in 64 bits", 2, TWO_TO(63), P, NONE, ENOUGH),
    ROW(WRONG_SIZE, "2^32 atoms at 2^32 instants", TWO_TO(32), TWO_TO(32), P, NONE, ENOUGH),
    ROW(WRONG_SIZE, "2^63 + 1 instants of 2 atoms, a product of 2 in 64 bits", 2, TWO_TO(63) + 1, P, BYTES(0, 0),
        ENOUGH),
    ROW(WRONG_SIZE, "2^32 + 1 atoms, whose low half is 1", TWO_TO(32) + 1, 1, P, BYTES(0), ENOUGH),
    ROW(WRONG_SIZE, "2^32 + 1 instants, whose low half is 1", 1, TWO_TO(32) + 1, P, BYTES(0), ENOUGH),
    ROW(WRONG_SIZE, "2^64 - 1 of both, a product of 1 in 64 bits", UINT64_MAX, UINT64_MAX, P, BYTES(0), ENOUGH),

    /* the cells */
    ROW(WRONG_CELL, "a cell of 3", 1, 1, P, BYTES(3), ENOUGH),
    ROW(WRONG_CELL, "a cell of 255", 1, 2, P, BYTES(0, 255), ENOUGH),
    ROW(WRONG_CELL, "a cell of 3 in an atom that the formula does not name", 2, 2, P, BYTES(0, 0, 0, 3), ENOUGH),
    ROW(WRONG_CELL, "a cell of 3 where the formula names no atom", 1, 1, YES, BYTES(3), ENOUGH),

    /* the room */
    ROW(NO_ROOM, "no room", 1, 1, P, BYTES(0), 0),
    ROW(NO_ROOM, "a byte too little for the last row", 2, 3, UNTIL, BYTES(2, 0, 1, 0, 0, 2), 20),
    ROW(NO_ROOM, "room for the last row alone", 2, 3, UNTIL, BYTES(2, 0, 1, 0, 0, 2), 3),
};

/* ---- the greatest sizes */
/* O: as many records as there may be are taken, one more is not. p is assumed at the last instant, so from all. */
static void most_records(void)
{
    static const uint8_t cells[MOST_INSTANTS] = {[MOST_INSTANTS - 1] = 1};
    struct formula most = stars(MOST_RECORDS, PASTUREQUILL_ATOM), more = stars(MOST_RECORDS + 1, PASTUREQUILL_ATOM);
    struct bytes trace = {cells, sizeof cells}, longer = {most.records, size_of(&most) + 1};
    struct input in = {"O: 255 records at 32 instants", 1, MOST_INSTANTS, bytes_of(&most), trace};
    uint8_t values[MOST_INSTANTS];
    memset(values, 1, sizeof values);
    size_t room = MOST_RECORDS * MOST_INSTANTS;
    expect_values(in, (struct bytes){values, sizeof values});
    in.reason = "255 records, a byte of room too little";
    expect_refused(in, room - 1, PASTUREQUILL_NO_ROOM);
    in = (struct input){"O: 256 records", 1, MOST_INSTANTS, bytes_of(&more), trace};
    expect_refused(in, room + MOST_INSTANTS, PASTUREQUILL_WRONG_LENGTH);
    in = (struct input){"255 records and a byte", 1, MOST_INSTANTS, longer, trace};
    expect_refused(in, room + MOST_INSTANTS, PASTUREQUILL_WRONG_LENGTH);
}

/* Not, 84 times, of p next: each not is three records, one test inside the other. As the number is even, the value is 2
 * where p comes next, assumed or proved, and else 0. */
static void deepest_tests(void)
{
    struct formula f = nested(84, "[(", "<step>p", ")?]false");
    uint8_t cells[MOST_INSTANTS], values[MOST_INSTANTS];
    for (size_t k = 0; k < MOST_INSTANTS; k++)
        cells[k] = k % 3;
    for (size_t k = 0; k < MOST_INSTANTS; k++)
        values[k] = k + 1 < MOST_INSTANTS && cells[k + 1] != 0 ? 2 : 0;
    expect_values((struct input){"255 records, 84 tests inside each other", 1, MOST_INSTANTS, bytes_of(&f),
                                 {cells, sizeof cells}}, (struct bytes){values, sizeof values});
}

/* O: 32 instants are taken, and 33 are not, though the cells fit. p until q, where p is only assumed at instant 15. */
static void most_instants(void)
{
    uint8_t cells[2 * (MOST_INSTANTS + 1)], values[MOST_INSTANTS];
    for (size_t k = 0; k <= MOST_INSTANTS; k++) {
        cells[2 * k] = k == 15 ? 1 : 2;
        cells[2 * k + 1] = k == MOST_INSTANTS - 1 ? 2 : 0;
    }
    for (size_t k = 0; k < MOST_INSTANTS; k++)
        values[k] = k <= 15 ? 1 : 2;
    struct input taken = {"O: 32 instants", 2, MOST_INSTANTS, UNTIL, {cells, 2 * MOST_INSTANTS}};
    struct input longer = {"O: 33 instants", 2, MOST_INSTANTS + 1, UNTIL, {cells, sizeof cells}};
    expect_values(taken, (struct bytes){values, sizeof values});
    expect_refused(longer, table_size(&longer), PASTUREQUILL_WRONG_SIZE);
}

/* 32 atoms at 32 instants: the last atom has the last cell of each row. Any one cell of 3 is refused. */
static void most_cells(void)
{
    static const size_t places[] = {0, 30, 31, 32, 1000, 1022, 1023};
    uint8_t cells[MOST_ATOMS * MOST_INSTANTS], values[MOST_INSTANTS];
    for (size_t k = 0; k < MOST_INSTANTS; k++)
        for (size_t i = 0; i < MOST_ATOMS; i++)
            cells[MOST_ATOMS * k + i] = (k + 2 * i) % 3;
    for (size_t k = 0; k < MOST_INSTANTS; k++)
        values[k] = cells[MOST_ATOMS * (k + 1) - 1];
    struct input in = {"32 atoms at 32 instants", MOST_ATOMS, MOST_INSTANTS, RECORDS(ATOM(MOST_ATOMS - 1)),
                       {cells, sizeof cells}};
    expect_values(in, (struct bytes){values, sizeof values});
    in.reason = "O: one cell of 3 among 1,024";
    for (const size_t *place = places; place < END(places); place++) {
        uint8_t kept = cells[*place];
        cells[*place] = 3;
        expect_refused(in, MOST_INSTANTS, PASTUREQUILL_WRONG_CELL);
        cells[*place] = kept;
    }
}

/* A slice of no bytes may have no address. */
static void no_addresses(void)
{
    uint8_t table[2] = {7, 7};
    const uint8_t *records = (const uint8_t[][RECORD_SIZE]){TRUE_}[0];
    pasturequill_valued got = pasturequill_value(records, RECORD_SIZE, 0, 2, NULL, 0, table, sizeof table);
    count(got.refusal == PASTUREQUILL_ACCEPTED && got.value == 2 && table[0] == 2 && table[1] == 2,
          "no address for no cells", "value", got.value, 2);
    got = pasturequill_value(records, RECORD_SIZE, 0, 2, NULL, 0, NULL, 0);
    count(got.refusal == PASTUREQUILL_NO_ROOM && got.value == 0, "no address for no room", "refusal", got.refusal,
          PASTUREQUILL_NO_ROOM);
    got = pasturequill_value(NULL, 0, 0, 2, NULL, 0, NULL, 0);
    count(got.refusal == PASTUREQUILL_WRONG_LENGTH && got.value == 0, "no address for no records", "refusal",
          got.refusal, PASTUREQUILL_WRONG_LENGTH);
}

static void *all(void *argument)
{
    for (const struct valued *v = valued; v < END(valued); v++)
        expect_valued(v);
    for (const struct refused *v = refused; v < END(refused); v++)
        expect_refused((struct input){v->reason, v->atoms, v->instants, v->records, v->cells}, v->room, v->refusal);
    expect_faulty(expect_records_refused);
    expect_shorthands_refused(expect_records_refused);
    most_records();
    deepest_tests();
    most_instants();
    most_cells();
    no_addresses();
    return argument;
}

/* The 1.1 MiB that a call may take of the stack, and 64 KiB for the test that calls. */
enum { STACK = (1126 << 10) + (64 << 10) };

int main(void)
{
    in_stack_of(STACK, all);
    return counts_told();
}
