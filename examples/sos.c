/* Source 004, section 2, formula (1): while no help is perceived, send an sos. It is the paper's example for stable
 * traces, and for what was concluded being given up when more is known.
 *
 * A total trace, without the value 1, is stable if it satisfies the formula and no trace does that has the same there
 * and less here. The paper says: of each length there is one stable trace of the formula, with an sos at each instant
 * and help at none. With the further demand that there is help after five steps, there is one of each length above
 * five: an sos five times, then help and no sos, then neither. Here all traces of some lengths are tried. */
#include "worked.h"

enum { H, S, ATOMS };

static const char names[] = "hs";

/* Formula (1), and help after five steps; true? is the path of no move, which the paper takes as no repetition. */
#define KEEP_SENDING "[(not h? ; step)*](not h implies s)"
#define HELP_AFTER_FIVE "<step ; step ; step ; step ; step ; true?>h"

/* What the paper says of the stable traces, as formulas: [step*](not h and s), and
 * <(not h and s)^5 ; (h and not s) ; (not h and not s)*>true. Each formula in the second one's path is tested and time
 * steps on, so that the path asks for an instant after the one of the help. */
#define SENT "(not h and s)? ; step ; "
static const char always_sending[] = "[step*](not h and s)";
static const char sent_five_times[] =
    "<" SENT SENT SENT SENT SENT "(h and not s)? ; step ; ((not h and not s)? ; step)*>true";

/* ---- formula (1) on single traces */
static const struct claim claims[] = {
    {"no help, and an sos always", {"0000", "2222"}, "2222"},
    {"one sos only assumed: not satisfied, so this sos cannot be taken away from the trace above", {"0000", "2212"},
     "1112"},
    {"no help, and the sos stops", {"0000", "2200"}, "0000"},
    {"help only assumed: satisfied, so the total trace with this help is not stable", {"0010", "2200"}, "2220"},
    {"sos five times, then help", {"00000200", "22222000"}, "22222200"},
};

static void show_claims(void)
{
    struct formula f = formula_of(names, KEEP_SENDING);
    printf("(1)  %s\n", KEEP_SENDING);
    show_rules(&f, ATOMS, 43);
    for (size_t i = 0; i < sizeof claims / sizeof *claims; i++)
        show_claim(&claims[i], names, "(1)", &f);
}

/* ---- stable traces */
/* Counts on through the total traces: 0 when it is round. */
static int next_total(struct trace *t)
{
    for (size_t c = 0; c < t->atoms * t->instants; c++) {
        t->cells[c] = 2 - t->cells[c];
        if (t->cells[c] == 2)
            return 1;
    }
    return 0;
}

/* Counts on through the traces with the same there and less here, from a total one: 0 when it is back at it. */
static int next_lower(struct trace *t)
{
    for (size_t c = 0; c < t->atoms * t->instants; c++) {
        if (t->cells[c] == 0)
            continue;
        t->cells[c] = 3 - t->cells[c];
        if (t->cells[c] == 1)
            return 1;
    }
    return 0;
}

static int satisfies(const struct trace *t, const struct formula *f) { return value_at_first(f, t) == 2; }

/* Whether no trace below a total one satisfies the formula. */
static int least(struct trace t, const struct formula *f)
{
    while (next_lower(&t))
        if (satisfies(&t, f))
            return 0;
    return 1;
}

struct found {
    size_t traces, satisfying, stable;
    struct trace last; /* the last stable one */
};

/* Tries all total traces of so many instants. */
static struct found find_stable(const struct formula *f, size_t instants)
{
    struct trace t = {.atoms = ATOMS, .instants = instants};
    struct found found = {.last = t};
    do {
        found.traces++;
        if (!satisfies(&t, f))
            continue;
        found.satisfying++;
        if (least(t, f)) {
            found.stable++;
            found.last = t;
        }
    } while (next_total(&t));
    return found;
}

/* What holds at each instant, a letter each: h, s, b for both, - for neither. */
static void write_letters(const struct trace *t, char *letters)
{
    for (size_t k = 0; k < t->instants; k++) {
        const uint8_t *cells = t->cells + ATOMS * k;
        letters[k] = cells[H] ? (cells[S] ? 'b' : 'h') : (cells[S] ? 's' : '-');
    }
    letters[t->instants] = 0;
}

/* The stable trace that is due, one of each length or none; what the paper's two descriptions are worth over it; and
 * where that is not what the paper says, a word on it. */
struct due {
    size_t instants;
    const char *letters;
    uint8_t always, five;
    const char *but;
};

static const struct due without_help[] = {
    {1, "s", 2, 0, ""},    {2, "ss", 2, 0, ""},    {3, "sss", 2, 0, ""},
    {4, "ssss", 2, 0, ""}, {5, "sssss", 2, 0, ""}, {6, "ssssss", 2, 0, ""},
};

/* Of five instants none is five steps away. Of six the help is at the last one, and the second description's path, as
 * the paper writes it, cannot step on from there. */
static const struct due with_help[] = {
    {5, NULL, 0, 0, ""},
    {6, "sssssh", 0, 0, ", but the description asks for a seventh instant"},
    {7, "sssssh-", 0, 2, ""},
    {8, "sssssh--", 0, 2, ""},
};

static void show_stable(const struct formula *f, const struct due *due)
{
    struct found found = find_stable(f, due->instants);
    printf("  %8zu  %6zu  %7zu  %6zu", due->instants, found.traces, found.satisfying, found.stable);
    if (due->letters == NULL) {
        printf("  %-8s  %6s  %6s   %s\n", "none", "", "", word(found.stable == 0));
        return;
    }
    char letters[PASTUREQUILL_MOST_INSTANTS + 1];
    write_letters(&found.last, letters);
    struct formula always = formula_of(names, always_sending), five = formula_of(names, sent_five_times);
    uint8_t is_always = value_at_first(&always, &found.last), is_five = value_at_first(&five, &found.last);
    int same =
        found.stable == 1 && strcmp(letters, due->letters) == 0 && is_always == due->always && is_five == due->five;
    printf("  %-8s  %6d  %6d   %s%s\n", letters, is_always, is_five, word(same), due->but);
}

static void show_all_stable(const char *heading, const char *text, const struct due *dues, size_t n)
{
    struct formula f = formula_of(names, text);
    printf("\n%s\n  instants  traces  satisfy  stable  it is     always  5 times\n", heading);
    for (size_t i = 0; i < n; i++)
        show_stable(&f, &dues[i]);
}

int main(void)
{
    show_claims();
    show_all_stable("the stable traces of (1), among all total traces", KEEP_SENDING, without_help,
                    sizeof without_help / sizeof *without_help);
    show_all_stable("the stable traces of (1) and <step^5>h", KEEP_SENDING " and " HELP_AFTER_FIVE, with_help,
                    sizeof with_help / sizeof *with_help);
    printf("\n  always   [step*](not h and s)\n"
           "  5 times  <(not h and s)^5 ; (h and not s) ; (not h and not s)*>true\n\n");
    return status();
}
