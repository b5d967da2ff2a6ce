/* The specification's examples by letter that are not among those computed by proofs.
 *
 * N: at the only instant a box over a step asks for nothing, and a diamond is worth 0. O: what is just taken and just
 * not, by the numbers that the services give back. */
#include "worked.h"

/* ---- N */
static void show_n(const char *text, uint8_t due)
{
    struct formula f = formula_of("p", text);
    for (uint8_t p = 0; p <= 2; p++) {
        struct trace t = {.atoms = 1, .instants = 1, .cells = {p}};
        uint8_t value = value_at_first(&f, &t);
        printf("  %s where p is %d: %d   %s\n", text, p, value, word(value == due));
    }
}

/* ---- O: records */
/* Asks the services over records, with one atom at one instant. */
static void show_records(const struct formula *f, uint8_t due)
{
    static uint8_t table[MOST_RECORDS + 1];
    static uint16_t rules[PASTUREQUILL_MOST_RULE_WORDS];
    static const uint8_t p = 2;
    size_t size = size_of(f);
    uint8_t checked = pasturequill_check(f->records, size, 1);
    uint8_t valued = pasturequill_value(f->records, size, 1, 1, &p, 1, table, sizeof table).refusal;
    uint8_t translated = pasturequill_translate(f->records, size, 1, rules, PASTUREQUILL_MOST_RULE_WORDS).refusal;
    printf("  %zu records: checking %d, valuing %d, translating %d   %s\n", f->n, checked, valued, translated,
           word(checked == due && valued == due && translated == due));
}

/* So many nexts around a formula. */
static void show_nexts(const char *text, size_t often, uint8_t due)
{
    struct formula f = formula_of("p", text);
    for (size_t end = f.n - 1; often-- > 0;) {
        size_t on = step(&f);
        end = diamond(&f, on, end);
    }
    show_records(&f, due);
}

/* ---- O: cells */
enum { MOST_INSTANTS = PASTUREQUILL_MOST_INSTANTS };

/* Asks the services over cells, with the formula p, which is atom 0, and with no rules. */
static void show_cells(const char *what, size_t atoms, size_t instants, const uint8_t *cells, uint8_t due)
{
    uint8_t table[MOST_INSTANTS + 1];
    struct formula f = {.n = 0};
    atom(&f, 0);
    size_t size = atoms * instants;
    uint8_t valued =
        pasturequill_value(f.records, size_of(&f), atoms, instants, cells, size, table, sizeof table).refusal;
    uint8_t judged = pasturequill_judge(NULL, 0, atoms, instants, cells, size).refusal;
    printf("  %s: valuing %d, judging %d   %s\n", what, valued, judged, word(valued == due && judged == due));
}

int main(void)
{
    static const uint8_t zeros[MOST_INSTANTS + 1], in_p[] = {3, 0}, beside_p[] = {0, 3};
    printf("N  over one instant\n");
    show_n("[step]p", 2);
    show_n("<step>p", 0);
    printf("\nO  taken, 0, or refused\n");
    show_nexts("p", 127, PASTUREQUILL_ACCEPTED);
    /* Nothing is wrong with these 256 records but their number. */
    show_nexts("p and p", 126, PASTUREQUILL_WRONG_LENGTH);
    show_cells("32 instants", 1, MOST_INSTANTS, zeros, PASTUREQUILL_ACCEPTED);
    show_cells("33 instants", 1, MOST_INSTANTS + 1, zeros, PASTUREQUILL_WRONG_SIZE);
    show_cells("a cell 3 in p, the formula being p", 2, 1, in_p, PASTUREQUILL_WRONG_CELL);
    show_cells("a cell 3 in another atom", 2, 1, beside_p, PASTUREQUILL_WRONG_CELL);
    printf("\n");
    return status();
}
