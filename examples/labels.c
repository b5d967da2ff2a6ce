/* Source 004, section 3: its two worked translations, "p until q" and "p at all even instants".
 *
 * The paper names the formula gamma, one pass and then gamma alpha, a step and then gamma beta, and gives equations (2)
 * to (6) and (7) to (12) between their labels. They stand below as rules, unfolded as the paper unfolds (2), and the
 * rule that asserts gamma at last. By its lemma 1 the labels that keep the equations have their formulas' values; by
 * its theorem 3 a trace satisfies gamma exactly if labels keep the last rule too. Both are seen here: with the paper's
 * rules over all small traces and all fillings, and with our translation, in which each record has its label, and which
 * leaves out (3) and (8), since they follow. */
#include "rules.h"
#include "worked.h"

enum { MOST_SHOWN = 5, LABELS = 3, MOST_COLUMNS = 9, PAPER_RULES = 12 };

/* The symbols of the paper's rules, a column each. */
enum { GAMMA = COLUMN, ALPHA, BETA, P, Q, SYMBOLS };

/* Each symbol's values at each instant. */
struct rows {
    uint8_t of[SYMBOLS][PASTUREQUILL_MOST_INSTANTS];
};

/* ---- the examples */
static const struct example {
    const char *heading, *atoms;
    const char *gamma, *before[LABELS]; /* the formula gamma, and what each label's formula has before it */
    uint16_t paper[RULE_SIZE * PAPER_RULES];
    size_t ours;                   /* how many rules our translation has, by the specification */
    uint8_t columns[MOST_COLUMNS]; /* our columns, the atoms and then a label for each record: whose values they have */
    size_t most_searched;          /* all fillings are tried up to so many instants */
    struct claim shown[MOST_SHOWN];
} examples[] = {
    {"p until q: q holds at some instant, and p at each one before it", "pq",
     "<(p? ; step)*>q", {"", "<p? ; step>", "<step>"},
     {
         GREATER(GAMMA, Q, ALPHA),             /* (2): gamma is q or alpha */
         SAME(LAST, GAMMA, Q),                 /* (3): at last, q */
         SMALLER(ALPHA, P, BETA),              /* (4): alpha is p and beta */
         SAME(LATER, PREVIOUS + BETA, GAMMA),  /* (5): beta is gamma next */
         ARROW(LAST, BETA, NO),                /* (6): at last, false */
         ARROW(FIRST, YES, GAMMA),
     },
     18, {P, Q, P, ALPHA, BETA, ALPHA, GAMMA, Q, GAMMA}, 2,
     {
         {"q comes, and p holds until then", {"220", "002"}, "222"},
         {"p is only assumed on the way: the total trace satisfies it, this one does not", {"210", "002"}, "112"},
         {"p breaks off before q comes", {"200", "002"}, "002"},
         {"q never comes", {"222", "000"}, "000"},
         {"q comes at once, and nothing is asked of p", {"000", "200"}, "200"},
     }},
    {"p at all even instants", "p",
     "[(step ; step)*]p", {"", "[step ; step]", "[step]"},
     {
         SMALLER(GAMMA, P, ALPHA),             /* (7): gamma is p and alpha */
         SAME(LAST, GAMMA, P),                 /* (8): at last, p */
         SAME(LATER, PREVIOUS + ALPHA, BETA),  /* (9): alpha is beta next */
         ARROW(LAST, YES, ALPHA),              /* (10): at last, true */
         SAME(LATER, PREVIOUS + BETA, GAMMA),  /* (11): beta is gamma next */
         ARROW(LAST, YES, BETA),               /* (12): at last, true */
         ARROW(FIRST, YES, GAMMA),
     },
     16, {P, ALPHA, BETA, ALPHA, GAMMA, P, GAMMA}, 3,
     {
         {"p at the even instants alone", {"20202"}, "20202"},
         {"p not at the third instant, which is even", {"20022"}, "00022"},
         {"p not at the second instant, which is odd", {"20222"}, "20222"},
         {"p only assumed at the third", {"22122"}, "12122"},
     }},
};

static const uint8_t paper_columns[] = {GAMMA, ALPHA, BETA, P, Q};

/* ---- values and verdicts */
static struct formula label_formula(const struct example *e, size_t label)
{
    char text[64];
    snprintf(text, sizeof text, "%s%s", e->before[label], e->gamma);
    return formula_of(e->atoms, text);
}

static struct rows rows_over(const struct example *e, const struct trace *t)
{
    struct rows rows = {0};
    for (size_t i = 0; i < LABELS; i++) {
        struct formula f = label_formula(e, i);
        value_row(&f, t, rows.of[GAMMA + i]);
    }
    for (size_t i = 0; i < t->atoms; i++)
        for (size_t k = 0; k < t->instants; k++)
            rows.of[P + i][k] = t->cells[k * t->atoms + i];
    return rows;
}

/* What the judge says of rules over the rows, laid out as these columns. */
static pasturequill_judged judged(const uint16_t *rules, size_t count, const struct rows *rows, const uint8_t *columns,
                                  size_t width, size_t instants)
{
    uint8_t cells[MOST_COLUMNS * PASTUREQUILL_MOST_INSTANTS];
    for (size_t k = 0; k < instants; k++)
        for (size_t c = 0; c < width; c++)
            cells[k * width + c] = rows->of[columns[c]][k];
    pasturequill_judged j = pasturequill_judge(rules, RULE_SIZE * count, width, instants, cells, width * instants);
    must_be_accepted("judging", j.refusal);
    return j;
}

/* Theorem 3: yes where gamma is worth 2 at the first instant. Elsewhere the last rule fails there, and no other. */
static void print_verdict(const char *whose, size_t count, pasturequill_judged j, uint8_t gamma)
{
    printf("    %s %zu rules: ", whose, count);
    if (j.holds)
        printf("yes   %s\n", word(gamma == 2));
    else
        printf("no, rule %d at instant %d   %s\n", (int)j.rule, (int)j.instant,
               word(gamma < 2 && j.rule == count - 1 && j.instant == 0));
}

static void show_trace(const struct example *e, const struct formula *f, const struct rules *ours,
                       const struct claim *c)
{
    static const char *const names[] = {"gamma", "alpha", "beta"};
    struct trace t = trace_of(strlen(e->atoms), c->atoms);
    struct rows rows = rows_over(e, &t);
    uint8_t gamma = show_claim(c, e->atoms, names[0], f);
    for (size_t i = 1; i < LABELS; i++) {
        print_row(names[i], rows.of[GAMMA + i], t.instants);
        printf("\n");
    }
    print_verdict("the paper's", PAPER_RULES,
                  judged(e->paper, PAPER_RULES, &rows, paper_columns, LABELS + t.atoms, t.instants), gamma);
    print_verdict("our", ours->count, judged(ours->words, ours->count, &rows, e->columns, t.atoms + f->n, t.instants),
                  gamma);
}

/* ---- lemma 1, over all traces and all fillings of the labels */
struct search {
    size_t traces, fillings, kept, right;
};

/* Tries all fillings over one trace with all rules but the last; counts those that keep them, and the right ones. */
static void try_fillings(const struct example *e, const struct trace *t, struct search *s)
{
    size_t n = LABELS * t->instants;
    uint8_t filling[LABELS * PASTUREQUILL_MOST_INSTANTS] = {0};
    struct rows values = rows_over(e, t), rows = values;
    do {
        for (size_t i = 0; i < LABELS; i++)
            memcpy(rows.of[GAMMA + i], filling + i * t->instants, t->instants);
        s->fillings++;
        if (judged(e->paper, PAPER_RULES - 1, &rows, paper_columns, LABELS + t->atoms, t->instants).holds) {
            s->kept++;
            s->right += memcmp(&rows, &values, sizeof rows) == 0;
        }
    } while (next_cells(filling, n));
}

static void search(const struct example *e)
{
    struct search s = {0};
    for (size_t instants = 1; instants <= e->most_searched; instants++) {
        struct trace t = {.atoms = strlen(e->atoms), .instants = instants};
        do {
            s.traces++;
            try_fillings(e, &t, &s);
        } while (next_trace(&t));
    }
    printf("\n  all %zu traces of up to %zu instants, all %zu fillings of the three labels, "
           "the paper's rules but the last:\n",
           s.traces, e->most_searched, s.fillings);
    printf("    %zu fillings keep them, %zu of these are the values   %s\n", s.kept, s.right,
           word(s.kept == s.traces && s.right == s.traces));
}

static void show_example(const struct example *e)
{
    struct formula f = label_formula(e, 0);
    printf("%s\n  alpha %sgamma\n  beta  %sgamma\n  gamma %s\n", e->heading, e->before[1], e->before[2], e->gamma);
    struct rules ours = show_rules(&f, strlen(e->atoms), e->ours);
    for (size_t i = 0; i < MOST_SHOWN && e->shown[i].says; i++)
        show_trace(e, &f, &ours, &e->shown[i]);
    search(e);
    printf("\n");
}

int main(void)
{
    for (size_t i = 0; i < sizeof examples / sizeof *examples; i++)
        show_example(&examples[i]);
    return status();
}
