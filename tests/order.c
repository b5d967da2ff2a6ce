/* The order of refusals, in all services: every set of faults that one input can have, and the answer must be the
 * refusal of the first ground. Each input is handed over at both edges of memory that may not be touched, and on a
 * refusal all room stays as it was. */
#define TEST_NAME "order"

#include "cases.h"
#include "room.h"
#include "rules.h"

/* ---- grounds */
/* What an input may be refused for, in the order in which it is looked at; two of its records may be at fault. */
enum ground {
    LENGTH, SIZES, LONG_TEXT, FORM, FIRST_RECORD, SECOND_RECORD, LAST_RECORD, TREE, SIGN, TURNS, STANDS, TOO_LONG,
    TEXT_ATOM, RULES, CELLS, ROOM, GROUNDS
};

/* For a record at fault this is the first of five refusals. */
static const int refusals[GROUNDS] = {
    [LENGTH] = PASTUREQUILL_WRONG_LENGTH,        [SIZES] = PASTUREQUILL_WRONG_SIZE,
    [LONG_TEXT] = PASTUREQUILL_TOO_LONG,         [FORM] = PASTUREQUILL_NOT_THE_FORM,
    [FIRST_RECORD] = PASTUREQUILL_UNKNOWN_KIND,  [SECOND_RECORD] = PASTUREQUILL_UNKNOWN_KIND,
    [LAST_RECORD] = PASTUREQUILL_WRONG_SORT,     [TREE] = PASTUREQUILL_NOT_A_TREE,
    [SIGN] = PASTUREQUILL_NO_SIGN,               [TURNS] = PASTUREQUILL_STAR_TURNS,
    [STANDS] = PASTUREQUILL_STAR_STANDS,         [TOO_LONG] = PASTUREQUILL_TOO_LONG,
    [TEXT_ATOM] = PASTUREQUILL_NO_SUCH_ATOM,     [RULES] = PASTUREQUILL_WRONG_RULES,
    [CELLS] = PASTUREQUILL_WRONG_CELL,           [ROOM] = PASTUREQUILL_NO_ROOM,
};

/* The ways to be at fault by a ground, counted from 1; most grounds have one. */
enum { RECORD_FAULTS = PASTUREQUILL_WRONG_SORT - PASTUREQUILL_UNKNOWN_KIND + 1 };
enum { TOO_WIDE = 1, NO_INSTANTS, TOO_MANY_INSTANTS, CELL_MISSING, CELL_MORE };
enum { BLANK_BEFORE = 1, BRACKET_MISSING, SIGN_BEHIND, LEADING_ZERO };
enum { WORD_MORE = 1, RULE_MORE, NO_PLACE, SYMBOL_PAST, PREVIOUS_ELSEWHERE, PREVIOUS_CONSTANT };

static int record_refusal(int way) { return PASTUREQUILL_UNKNOWN_KIND + way - 1; }

/* The refusal of a set of faults: for each ground the way that the input is at fault, 0 for none. */
static int earliest(const int *faults)
{
    for (int g = 0; g < GROUNDS; g++)
        if (faults[g] != 0)
            return g == FIRST_RECORD || g == SECOND_RECORD ? record_refusal(faults[g]) : refusals[g];
    return PASTUREQUILL_ACCEPTED;
}

/* Counts on through all sets of faults: 0 when it is round. */
static int next_set(int *faults, const int *ways)
{
    for (int g = 0; g < GROUNDS; g++) {
        if (faults[g] < ways[g]) {
            faults[g]++;
            return 1;
        }
        faults[g] = 0;
    }
    return 0;
}

/* One call. */
struct attempt {
    const char *reason;
    const int *faults;
    int refusal; /* what must come back */
    enum guarded_edge edge;
};

static void expect(const struct attempt *a, const char *what, uint64_t got, uint64_t expected)
{
    count(got == expected, a->reason, what, got, expected);
}

/* Expects a refusal, and else another number. */
static void expect_answer(const struct attempt *a, uint8_t refusal, uint64_t number, uint64_t expected)
{
    expect(a, "refusal", refusal, (uint64_t)a->refusal);
    expect(a, "number", number, a->refusal == PASTUREQUILL_ACCEPTED ? expected : 0);
}

/* The bytes that are written, which are not looked at, unless the input is refused. */
static void expect_written(const struct attempt *a, const void *room, size_t size, size_t written)
{
    expect_room(a->reason, room, size, (struct bytes){NULL, a->refusal == PASTUREQUILL_ACCEPTED ? written : 0});
}

/* ---- records */
enum { ATOMS = 2, MOST_ATOMS = PASTUREQUILL_MOST_ATOMS };
enum { MOST_WIDTH = PASTUREQUILL_MOST_COLUMNS, MOST_INSTANTS = PASTUREQUILL_MOST_INSTANTS };

/* Makes record r be at fault, where record 0 is a formula. */
static void put_fault(struct formula *f, size_t r, int way)
{
    if (way == 0)
        return;
    switch (record_refusal(way)) {
    case PASTUREQUILL_UNKNOWN_KIND: set_kind(f, r, UINT8_MAX); break;
    case PASTUREQUILL_NOT_ZERO: set_record(f, r, PASTUREQUILL_TRUE, 0, 1); break;
    case PASTUREQUILL_LATE_CHILD: set_record(f, r, PASTUREQUILL_TEST, r, 0); break;
    case PASTUREQUILL_NO_SUCH_ATOM: set_record(f, r, PASTUREQUILL_ATOM, ATOMS, 0); break;
    case PASTUREQUILL_WRONG_SORT: set_record(f, r, PASTUREQUILL_STAR, 0, 0); break;
    }
}

/* <(true? ; step ; step)* ; true?>true, which is worth 2, and has 30 rules. */
enum { CORE_RULES = 30 };
static const char core_text[] = "((*((?#true;&t);&t);?#true).>?#true)";

static struct formula core(const int *faults)
{
    struct formula f = {.n = 0};
    uint8_t joint = faults[STANDS] ? PASTUREQUILL_CHOICE : PASTUREQUILL_SEQUENCE;
    size_t zeroth = yes(&f), first = yes(&f), second = yes(&f), tested = test(&f, zeroth);
    size_t on = step(&f), further = faults[TURNS] || faults[SIGN] ? back(&f) : step(&f);
    size_t pass = add(&f, joint, tested, on), body = add(&f, joint, pass, further), path = star(&f, body);
    size_t way = sequence(&f, path, test(&f, faults[TREE] ? zeroth : first));
    add(&f, faults[LAST_RECORD] ? PASTUREQUILL_STAR : PASTUREQUILL_DIAMOND, way, faults[LAST_RECORD] ? 0 : second);
    put_fault(&f, first, faults[FIRST_RECORD]);
    put_fault(&f, second, faults[SECOND_RECORD]);
    return f;
}

/* Three times true under two ands, seven records out, and nexts of two records each, up to as many as there may be. */
static struct formula brief(const int *faults)
{
    enum { NEXTS = (MOST_RECORDS - 7) / 2, MIDDLE = NEXTS / 2 };
    struct formula f = {.n = 0};
    size_t zeroth = yes(&f), first = yes(&f), second = yes(&f);
    size_t g = add(&f, PASTUREQUILL_AND, zeroth, faults[TREE] ? zeroth : first);
    g = add(&f, PASTUREQUILL_AND, g, second);
    for (int i = 1; i <= NEXTS; i++)
        g = add(&f, i == MIDDLE && faults[TOO_LONG] ? PASTUREQUILL_EVENTUALLY : PASTUREQUILL_NEXT, g, 0);
    if (faults[LAST_RECORD])
        set_kind(&f, g, PASTUREQUILL_TEST);
    put_fault(&f, first, faults[FIRST_RECORD]);
    put_fault(&f, second, faults[SECOND_RECORD]);
    return f;
}

/* The records as they are handed over, perhaps with a byte too many. */
static struct bytes handed(const struct formula *f, const struct attempt *a)
{
    size_t size = size_of(f) + (a->faults[LENGTH] != 0);
    return (struct bytes){guarded(f->records, size, a->edge), size};
}

static uint64_t atoms(const struct attempt *a) { return a->faults[SIZES] ? MOST_ATOMS + 1 : ATOMS; }

/* ---- traces */
struct sizes { uint64_t width, instants; size_t cells; };

static struct sizes sizes_by(int way, uint64_t width, uint64_t most, uint64_t instants)
{
    if (way == TOO_WIDE)
        width = most + 1;
    if (way == NO_INSTANTS || way == TOO_MANY_INSTANTS)
        instants = way == NO_INSTANTS ? 0 : MOST_INSTANTS + 1;
    return (struct sizes){width, instants, (size_t)(width * instants) + (way == CELL_MORE) - (way == CELL_MISSING)};
}

/* Cells that are 2, the last of them perhaps wrong. */
static const uint8_t *cells_by(const struct attempt *a, size_t size)
{
    static uint8_t cells[(MOST_WIDTH + 1) * (MOST_INSTANTS + 1)];
    memset(cells, 2, sizeof cells);
    if (a->faults[CELLS] && size != 0)
        cells[size - 1] = 3;
    return guarded(cells, size, a->edge);
}

/* ---- the services */
static void check(const struct attempt *a)
{
    struct formula f = core(a->faults);
    struct bytes records = handed(&f, a);
    expect(a, "refusal", pasturequill_check(records.at, records.size, atoms(a)), (uint64_t)a->refusal);
}

static void expand(const struct attempt *a)
{
    struct formula f = brief(a->faults);
    struct bytes records = handed(&f, a);
    size_t room = MOST_BYTES - (a->faults[ROOM] != 0);
    uint8_t *out = guarded_fresh(room, a->edge);
    pasturequill_counted got = pasturequill_expand(records.at, records.size, atoms(a), out, room);
    expect_answer(a, got.refusal, got.count, MOST_RECORDS);
    expect_written(a, out, room, MOST_BYTES);
}

static void value(const struct attempt *a)
{
    enum { INSTANTS = 2 };
    struct formula f = core(a->faults);
    struct bytes records = handed(&f, a);
    struct sizes s = sizes_by(a->faults[SIZES], ATOMS, MOST_ATOMS, INSTANTS);
    size_t needed = f.n * INSTANTS, room = needed - (a->faults[ROOM] != 0);
    uint8_t *table = guarded_fresh(room, a->edge);
    pasturequill_valued got = pasturequill_value(records.at, records.size, s.width, s.instants, cells_by(a, s.cells),
                                                 s.cells, table, room);
    expect_answer(a, got.refusal, got.value, 2);
    expect_written(a, table, room, needed);
}

static void translate(const struct attempt *a)
{
    struct formula f = core(a->faults);
    struct bytes records = handed(&f, a);
    size_t needed = RULE_SIZE * CORE_RULES, room = needed - (a->faults[ROOM] != 0);
    uint16_t *rules = (uint16_t *)(void *)guarded_fresh(sizeof *rules * room, a->edge);
    pasturequill_counted got = pasturequill_translate(records.at, records.size, atoms(a), rules, room);
    expect_answer(a, got.refusal, got.count, CORE_RULES);
    expect_written(a, rules, sizeof *rules * room, sizeof *rules * needed);
}

static void write_text(const struct attempt *a)
{
    struct formula f = core(a->faults);
    struct bytes records = handed(&f, a);
    size_t needed = strlen(core_text), room = needed - (a->faults[ROOM] != 0);
    uint8_t *text = guarded_fresh(room, a->edge);
    pasturequill_counted got = pasturequill_write_text(records.at, records.size, atoms(a), text, room);
    expect_answer(a, got.refusal, got.count, needed);
    expect_written(a, text, room, needed);
}

/* Stars over a step, and an atom: as many records as there may be, one more, or so many that the text is too long. */
static void read_text(const struct attempt *a)
{
    enum { STARS = MOST_RECORDS - 3, LONG_STARS = PASTUREQUILL_MOST_TEXT };
    const int *faults = a->faults, form = faults[FORM];
    size_t stars = faults[LONG_TEXT] ? LONG_STARS : STARS + (faults[TOO_LONG] != 0);
    char text[LONG_STARS + 32], path[LONG_STARS + 1];
    memset(path, '*', stars);
    path[stars] = 0;
    int size = sprintf(text, "%s(%s&t.>?p%s%d%s%s", form == BLANK_BEFORE ? " " : "", path,
                       form == LEADING_ZERO ? "0" : "", ATOMS - 1 + (faults[TEXT_ATOM] != 0),
                       form == BRACKET_MISSING ? "" : ")", form == SIGN_BEHIND ? ")" : "");
    size_t needed = RECORD_SIZE * (stars + 3), room = needed - (faults[ROOM] != 0);
    uint8_t *records = guarded_fresh(room, a->edge);
    const uint8_t *in = guarded((const uint8_t *)text, (size_t)size, a->edge);
    pasturequill_counted got = pasturequill_read_text(in, (size_t)size, atoms(a), records, room);
    expect_answer(a, got.refusal, got.count, MOST_RECORDS);
    expect_written(a, records, room, needed);
}

/* As many rules as there may be. All of them hold, or the first one fails; the last one may be at fault. */
static struct words rules_by(const struct attempt *a, int fails)
{
    static uint16_t words[MOST_WORDS + RULE_SIZE];
    uint16_t *last = words + MOST_WORDS - RULE_SIZE;
    int way = a->faults[RULES], too_wide = a->faults[SIZES] == TOO_WIDE;
    memset(words, 0, sizeof words);
    if (fails)
        words[1] = words[2] = YES;
    switch (way) {
    case NO_PLACE: last[0] = LAST + 1; break;
    /* One symbol further is a column where there is one more, so that a width too great is a fault by itself. */
    case SYMBOL_PAST: last[5] = (uint16_t)(COLUMN + MOST_WIDTH + too_wide); break;
    case PREVIOUS_ELSEWHERE: last[5] = PREVIOUS + COLUMN; break;
    case PREVIOUS_CONSTANT: last[5] = NOT + PREVIOUS + NO; break;
    }
    size_t size = MOST_WORDS + (way == WORD_MORE ? 1 : way == RULE_MORE ? RULE_SIZE : 0);
    const uint8_t *at = guarded((const uint8_t *)words, sizeof *words * size, a->edge);
    return (struct words){(const uint16_t *)(const void *)at, size};
}

static void judge(const struct attempt *a)
{
    struct sizes s = sizes_by(a->faults[SIZES], MOST_WIDTH, MOST_WIDTH, MOST_INSTANTS);
    for (int fails = 0; fails <= 1; fails++) {
        struct words rules = rules_by(a, fails);
        const uint8_t *cells = cells_by(a, s.cells);
        pasturequill_judged got = pasturequill_judge(rules.at, rules.size, s.width, s.instants, cells, s.cells);
        expect_answer(a, got.refusal, got.holds, !fails);
        expect(a, "rule", got.rule, 0);
        expect(a, "instant", got.instant, 0);
        guarded_release();
    }
}

/* How many ways there are in each service to be at fault by each ground. */
#define RECORDS_AT_FAULT \
    [LENGTH] = 1, [FIRST_RECORD] = RECORD_FAULTS, [SECOND_RECORD] = RECORD_FAULTS, [LAST_RECORD] = 1, [TREE] = 1

static const struct service {
    const char *name;
    void (*call)(const struct attempt *a);
    int ways[GROUNDS];
} services[] = {
    {"check", check, {RECORDS_AT_FAULT, [SIZES] = 1}},
    {"expand", expand, {RECORDS_AT_FAULT, [SIZES] = 1, [TOO_LONG] = 1, [ROOM] = 1}},
    {"value", value, {RECORDS_AT_FAULT, [SIZES] = CELL_MORE, [CELLS] = 1, [ROOM] = 1}},
    {"translate", translate, {RECORDS_AT_FAULT, [SIZES] = 1, [TURNS] = 1, [STANDS] = 1, [ROOM] = 1}},
    {"write text", write_text, {RECORDS_AT_FAULT, [SIZES] = 1, [SIGN] = 1, [ROOM] = 1}},
    {"read text", read_text,
     {[SIZES] = 1, [LONG_TEXT] = 1, [FORM] = LEADING_ZERO, [TOO_LONG] = 1, [TEXT_ATOM] = 1, [ROOM] = 1}},
    {"judge", judge, {[SIZES] = CELL_MORE, [RULES] = PREVIOUS_CONSTANT, [CELLS] = 1}},
};

static void every_set(const struct service *s)
{
    int faults[GROUNDS] = {0};
    do {
        char reason[96];
        int end = snprintf(reason, sizeof reason, "%s, faults by ground", s->name);
        for (int g = 0; g < GROUNDS; g++)
            end += snprintf(reason + end, sizeof reason - (size_t)end, " %d", faults[g]);
        for (int edge = GUARDED_AT_END; edge <= GUARDED_AT_START; edge++) {
            s->call(&(struct attempt){reason, faults, earliest(faults), (enum guarded_edge)edge});
            guarded_release();
        }
    } while (next_set(faults, s->ways));
}

int main(void)
{
    for (size_t i = 0; i < sizeof services / sizeof *services; i++)
        every_set(&services[i]);
    return counts_told();
}
