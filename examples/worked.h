/* What the worked examples share: traces written out atom by atom, a formula's values over them, and whether these are
 * what the source says. Each program ends with status 1 if anything differs from it. */
#ifndef WORKED_H
#define WORKED_H

#include "written.h"

/* For what the library must take. */
static inline void must_be_accepted(const char *service, uint8_t refusal)
{
    if (refusal != PASTUREQUILL_ACCEPTED) {
        fprintf(stderr, "%s refused: %d\n", service, refusal);
        exit(2);
    }
}

/* The formula that a text says, over atoms with these letters, its shorthands written out. */
static inline struct formula formula_of(const char *atoms, const char *text)
{
    struct formula brief = written(atoms, text), core = {.n = 0};
    pasturequill_counted c =
        pasturequill_expand(brief.records, size_of(&brief), strlen(atoms), core.records, MOST_BYTES);
    must_be_accepted("expanding", c.refusal);
    core.n = (size_t)c.count;
    return core;
}

/* ---- traces */
struct trace {
    size_t atoms, instants;
    uint8_t cells[PASTUREQUILL_MOST_ATOMS * PASTUREQUILL_MOST_INSTANTS];
};

/* The trace in which each atom has the cells of its row, one digit for each instant. */
static inline struct trace trace_of(size_t atoms, const char *const rows[])
{
    struct trace t = {.atoms = atoms, .instants = strlen(rows[0])};
    for (size_t k = 0; k < t.instants; k++)
        for (size_t i = 0; i < atoms; i++)
            t.cells[k * atoms + i] = (uint8_t)(rows[i][k] - '0');
    return t;
}

/* Counts on through all cells of 0 to 2, from zeros to zeros: 0 when it is round. */
static inline int next_cells(uint8_t *cells, size_t n)
{
    for (size_t c = 0; c < n; c++) {
        if (cells[c] < 2) {
            cells[c]++;
            return 1;
        }
        cells[c] = 0;
    }
    return 0;
}

static inline int next_trace(struct trace *t) { return next_cells(t->cells, t->atoms * t->instants); }

/* ---- values */
/* A formula's values at each instant, for a formula and a trace that the library takes; gives the one at the first. */
static inline uint8_t value_row(const struct formula *f, const struct trace *t, uint8_t *row)
{
    static uint8_t table[MOST_RECORDS * PASTUREQUILL_MOST_INSTANTS];
    pasturequill_valued v = pasturequill_value(f->records, size_of(f), t->atoms, t->instants, t->cells,
                                               t->atoms * t->instants, table, sizeof table);
    must_be_accepted("valuing", v.refusal);
    memcpy(row, table + (f->n - 1) * t->instants, t->instants);
    return v.value;
}

static inline uint8_t value_at_first(const struct formula *f, const struct trace *t)
{
    uint8_t row[PASTUREQUILL_MOST_INSTANTS];
    return value_row(f, t, row);
}

/* ---- telling */
static int differing;

/* The word for whether something is as the source says. */
static inline const char *word(int same)
{
    differing += !same;
    return same ? "agrees" : "DIFFERS";
}

/* Ends the output with how much differs, and gives the program's status. */
static inline int status(void)
{
    printf("%d differ\n", differing);
    return differing > 0;
}

static inline void print_row(const char *name, const uint8_t *row, size_t instants)
{
    printf("    %-6s", name);
    for (size_t k = 0; k < instants; k++)
        printf(" %d", row[k]);
}

/* The row of each atom, an atom's name being one letter. */
static inline void print_trace(const struct trace *t, const char *names)
{
    for (size_t i = 0; i < t->atoms; i++) {
        char name[] = {names[i], 0};
        uint8_t row[PASTUREQUILL_MOST_INSTANTS];
        for (size_t k = 0; k < t->instants; k++)
            row[k] = t->cells[k * t->atoms + i];
        print_row(name, row, t->instants);
        printf("\n");
    }
}

/* Prints a formula's values over a trace, and the word: they are due as digits. Gives the first instant's value. */
static inline uint8_t show_values(const char *name, const struct formula *f, const struct trace *t, const char *due)
{
    uint8_t row[PASTUREQUILL_MOST_INSTANTS], value = value_row(f, t, row);
    int same = strlen(due) == t->instants;
    for (size_t k = 0; same && k < t->instants; k++)
        same = row[k] == due[k] - '0';
    print_row(name, row, t->instants);
    printf("   %s\n", word(same));
    return value;
}

/* A trace, what the source says of it, and what the formula is worth at each instant by that. */
struct claim {
    const char *says, *atoms[2], *values;
};

static inline uint8_t show_claim(const struct claim *c, const char *names, const char *name, const struct formula *f)
{
    struct trace t = trace_of(strlen(names), c->atoms);
    printf("\n  %s\n", c->says);
    print_trace(&t, names);
    return show_values(name, f, &t, c->values);
}

/* ---- rules */
struct rules {
    size_t count;
    uint16_t words[PASTUREQUILL_MOST_RULE_WORDS];
};

/* A formula's rules; prints how many there are, which is due by the sum in the specification. */
static inline struct rules show_rules(const struct formula *f, size_t atoms, size_t due)
{
    struct rules r;
    pasturequill_counted c =
        pasturequill_translate(f->records, size_of(f), atoms, r.words, PASTUREQUILL_MOST_RULE_WORDS);
    r.count = c.count;
    printf("  its translation: %zu records, %zu rules   %s\n", f->n, r.count,
           word(c.refusal == PASTUREQUILL_ACCEPTED && r.count == due));
    return r;
}

#endif
