/* How the time of each service grows with the number of records, and that of the two that take a trace with its
 * instants. The formula is of one typical shape: p until, at the next instant, q until, and so on. */
#include <stdio.h>
#include <stdlib.h>

#include "filled.h"
#include "formula.h"
#include "random.h"
#include "timing.h"

enum { ATOMS = PASTUREQUILL_MOST_ATOMS, MOST_INSTANTS = PASTUREQUILL_MOST_INSTANTS };

/* What grows. */
static const size_t records_taken[] = {15, 31, 63, 127, MOST_RECORDS};
static const size_t instants_taken[] = {1, 2, 4, 8, 16, MOST_INSTANTS};

struct size {
    size_t records, instants;
};

static struct size with_records(size_t n) { return (struct size){n, MOST_INSTANTS}; }
static struct size with_instants(size_t instants) { return (struct size){MOST_RECORDS, instants}; }

/* ---- what the services take */
static struct subject {
    size_t instants;
    struct formula core, brief; /* the same formula in core records and in shorthands */
    uint8_t text[PASTUREQUILL_MOST_TEXT]; /* and as text */
    size_t text_size;
    uint8_t cells[ATOMS * MOST_INSTANTS];
    struct filled filled;
} subject;

/* An until and a next have so many core records; the first until has no next, and is followed by an atom. */
enum { EACH = 8 };

static void put_core(struct formula *f, size_t n)
{
    size_t g = atom(f, 0);
    for (size_t i = 0; i < (n + 1) / EACH; i++) {
        if (i > 0)
            g = diamond(f, step(f), g);
        g = diamond(f, star(f, go(f, i % ATOMS)), g);
    }
}

/* The same in shorthands. */
static void put_brief(struct formula *f, size_t n)
{
    size_t g = atom(f, 0);
    for (size_t i = 0; i < (n + 1) / EACH; i++) {
        if (i > 0)
            g = add(f, PASTUREQUILL_NEXT, g, 0);
        g = add(f, PASTUREQUILL_UNTIL, atom(f, i % ATOMS), g);
    }
}

/* The text of a formula; gives its size. */
static size_t write_to(const struct formula *f, uint8_t *text)
{
    return (size_t)pasturequill_write_text(f->records, size_of(f), ATOMS, text, PASTUREQUILL_MOST_TEXT).count;
}

/* The formula, a trace, and as many rules as so many records may have, over as many columns as they may ask for. */
static void build(struct size size)
{
    size_t n = size.records, instants = size.instants;
    subject = (struct subject){.instants = instants};
    subject.filled = (struct filled){.rules = 4 * n + 1, .width = ATOMS + n, .instants = instants};
    put_core(&subject.core, n);
    put_brief(&subject.brief, n);
    subject.text_size = write_to(&subject.core, subject.text);
    for (size_t c = 0; c < ATOMS * instants; c++)
        subject.cells[c] = (uint8_t)below(3);
    fill(&subject.filled);
}

/* ---- one call each, which gives whether the answer is the one that it must be */
static int check(const struct subject *s)
{
    return pasturequill_check(s->core.records, size_of(&s->core), ATOMS) == PASTUREQUILL_ACCEPTED;
}

static int expand(const struct subject *s)
{
    static uint8_t out[MOST_BYTES];
    return pasturequill_expand(s->brief.records, size_of(&s->brief), ATOMS, out, sizeof out).count == s->core.n;
}

static int write_text(const struct subject *s)
{
    static uint8_t text[PASTUREQUILL_MOST_TEXT];
    return write_to(&s->core, text) > s->core.n;
}

static int read_text(const struct subject *s)
{
    static uint8_t out[MOST_BYTES];
    return pasturequill_read_text(s->text, s->text_size, ATOMS, out, sizeof out).count == s->core.n;
}

static int translate(const struct subject *s)
{
    static uint16_t rules[MOST_WORDS];
    return pasturequill_translate(s->core.records, size_of(&s->core), ATOMS, rules, MOST_WORDS).count > s->core.n;
}

static int value(const struct subject *s)
{
    static uint8_t table[MOST_RECORDS * MOST_INSTANTS];
    pasturequill_valued got = pasturequill_value(s->core.records, size_of(&s->core), ATOMS, s->instants, s->cells,
                                                 ATOMS * s->instants, table, sizeof table);
    return got.refusal == PASTUREQUILL_ACCEPTED;
}

static int judge(const struct subject *s)
{
    const struct filled *f = &s->filled;
    size_t cells = f->width * f->instants;
    return pasturequill_judge(f->words, RULE_SIZE * f->rules, f->width, f->instants, f->cells, cells).holds;
}

enum { CHECK, EXPAND, WRITE_TEXT, READ_TEXT, TRANSLATE, VALUE, JUDGE, SERVICES, WITH_TRACE = VALUE };

static const struct service {
    const char *name, *takes;
    int (*call)(const struct subject *s);
} services[SERVICES] = {
    [CHECK] = {"check", "untils inside untils", check},
    [EXPAND] = {"expand", "the same in shorthands, n out", expand},
    [WRITE_TEXT] = {"write text", "untils, 2.5n to 2.7n bytes", write_text},
    [READ_TEXT] = {"read text", "the same text", read_text},
    [TRANSLATE] = {"translate", "untils inside untils", translate},
    [VALUE] = {"value", "untils inside untils", value},
    [JUDGE] = {"judge", "4n + 1 rules, 32 + n columns", judge},
};

/* ---- time */
static void run(int contender, const void *work, size_t rounds)
{
    const struct service *s = work;
    (void)contender;
    for (size_t i = 0; i < rounds; i++)
        s->call(&subject);
}

/* Microseconds a call over the subject. */
static double microseconds(const struct service *s)
{
    double median;
    if (!s->call(&subject)) {
        fprintf(stderr, "%s, %zu records, %zu instants: not accepted\n", s->name, subject.core.n, subject.instants);
        exit(1);
    }
    measure(run, 1, s, 1, &median);
    return median / 1000;
}

/* A line for each of the services from one on, a column for each of the numbers of what the letter stands for. */
static void print_table(const struct service *first, const char *letter, const size_t *numbers, size_t count,
                        struct size (*size_with)(size_t number))
{
    printf("%-10s %-26s %s:", "service", "takes", letter);
    for (size_t i = 0; i < count; i++)
        printf(" %8zu", numbers[i]);
    printf("\n");
    for (const struct service *s = first; s < services + SERVICES; s++) {
        printf("%-10s %-29s", s->name, s->takes);
        for (size_t i = 0; i < count; i++) {
            build(size_with(numbers[i]));
            printf(" %8.2f", microseconds(s));
            fflush(stdout);
        }
        printf("\n");
    }
}

#define COUNT(numbers) (sizeof(numbers) / sizeof *(numbers))

int main(void)
{
    seed = 23;
    printf("\nGrowth: microseconds a call of the library, by the number of records n; traces have %d instants:\n\n",
           MOST_INSTANTS);
    print_table(services, "n", records_taken, COUNT(records_taken), with_records);
    printf("\nThe same, by the number of instants L; formulas have %d records:\n\n", MOST_RECORDS);
    print_table(services + WITH_TRACE, "L", instants_taken, COUNT(instants_taken), with_instants);
    return 0;
}
