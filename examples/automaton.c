/* Source 003, section 4, formula (1): b always holds, and a holds at the next instant.
 *
 * The paper has it as one modality, with a test of a formula in its path, and as an "and" of the two; a trace that its
 * automaton accepts (figure 2) and one that it rejects (figure 3); and a deterministic automaton for it (listing 6).
 * Here the two forms are compared over all small traces, and the automaton runs over the total ones among them: it
 * should accept where the value is 2. */
#include "worked.h"

enum { A, B, ATOMS, MOST_INSTANTS = 5 };

static const char names[] = "ab", one_modality[] = "<([step*]b)? ; step>a", two_parts[] = "[step*]b and <step>a";

static const struct claim claims[] = {
    {"figure 2, accepted: {b}, {a, b}, {b}", {"020", "222"}, "200"},
    {"figure 3, rejected: {b}, {a}, {b}", {"020", "202"}, "000"},
};

/* ---- the automaton */
/* Listing 6: where each state leads, by whether a and b hold. State 1 is first, 4 final, and 2 has no way out. */
static const int leads_to[][2][2] = {
    [1] = {{2, 3}, {2, 3}},
    [2] = {{2, 2}, {2, 2}},
    [3] = {{2, 2}, {2, 4}},
    [4] = {{2, 4}, {2, 4}},
};

static int accepts(const struct trace *t)
{
    int state = 1;
    for (size_t k = 0; k < t->instants; k++)
        state = leads_to[state][t->cells[ATOMS * k + A] > 0][t->cells[ATOMS * k + B] > 0];
    return state == 4;
}

static int is_total(const struct trace *t) { return memchr(t->cells, 1, t->atoms * t->instants) == NULL; }

/* ---- all traces */
struct counts {
    size_t traces, equal, total, accepted, right;
};

/* Compares the values of the two forms over a trace, and the automaton's word with them if it is total. */
static void compare(const struct formula *one, const struct formula *two, const struct trace *t, struct counts *c)
{
    uint8_t row[MOST_INSTANTS], other[MOST_INSTANTS], value = value_row(one, t, row);
    value_row(two, t, other);
    c->traces++;
    c->equal += memcmp(row, other, t->instants) == 0;
    if (is_total(t)) {
        c->total++;
        c->accepted += accepts(t);
        c->right += accepts(t) == (value == 2);
    }
}

static void compare_all(const struct formula *one)
{
    struct formula two = formula_of(names, two_parts);
    struct counts c = {0};
    for (size_t instants = 1; instants <= MOST_INSTANTS; instants++) {
        struct trace t = {.atoms = ATOMS, .instants = instants};
        do
            compare(one, &two, &t, &c);
        while (next_trace(&t));
    }
    printf("\n  all %zu traces of up to %d instants\n", c.traces, MOST_INSTANTS);
    printf("    the same values as ([step*]b) and <step>a over %zu   %s\n", c.equal, word(c.equal == c.traces));
    printf("    total ones: %zu; the automaton accepts %zu; "
           "it accepts where the value is 2, and rejects elsewhere: %zu   %s\n",
           c.total, c.accepted, c.right, word(c.right == c.total));
}

int main(void)
{
    struct formula f = formula_of(names, one_modality);
    printf("(1)  %s\n", one_modality);
    show_rules(&f, ATOMS, 23);
    for (size_t i = 0; i < sizeof claims / sizeof *claims; i++)
        show_claim(&claims[i], names, "(1)", &f);
    compare_all(&f);
    printf("\n");
    return status();
}
