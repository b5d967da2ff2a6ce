/* The workloads: the most that 255 records and 32 instants can ask for, each in another way; rules as they are written
 * in practice; and random formulas from a fixed seed. */
#include "workloads.h"

#include <string.h>

#include "elevator.h"
#include "random.h"
#include "shapes.h"

enum { ATOMS = PASTUREQUILL_MOST_ATOMS, INSTANTS = PASTUREQUILL_MOST_INSTANTS };

struct workload workloads[MOST_WORKLOADS];
static size_t count;

/* The next input of the newest workload, its cells drawn at random: one in seven 0, one in seven 1, the others 2. */
static struct input *next(size_t atoms, size_t instants)
{
    struct workload *w = &workloads[count - 1];
    if (w->inputs == MOST_INPUTS) {
        fprintf(stderr, "%s has more than %d inputs\n", w->name, MOST_INPUTS);
        exit(2);
    }
    struct input *in = &w->input[w->inputs++];
    in->atoms = atoms;
    in->instants = instants;
    in->value = -1;
    for (size_t c = 0; c < atoms * instants; c++)
        in->cells[c] = (uint8_t[]){0, 1, 2, 2, 2, 2, 2}[below(7)];
    return in;
}

/* A new workload and its first input. */
static struct input *one(const char *name, size_t atoms, size_t instants)
{
    if (count == MOST_WORKLOADS) {
        fprintf(stderr, "more than %d workloads\n", MOST_WORKLOADS);
        exit(2);
    }
    workloads[count++].name = name;
    return next(atoms, instants);
}

/* A workload of one formula at as many instants as there may be, its cells at random. */
static void built(const char *name, size_t atoms, void (*build)(struct formula *f))
{
    build(&one(name, atoms, INSTANTS)->formula);
}

/* ---- rules as they are written */
/* p holds at least there until q comes at the last instant. */
static void kept_until(void)
{
    struct input *in = one("p until q", 2, INSTANTS);
    until(&in->formula);
    for (size_t k = 0; k < INSTANTS; k++) {
        in->cells[2 * k] = k == 9 ? 1 : 2;
        in->cells[2 * k + 1] = k == INSTANTS - 1 ? 2 : 0;
    }
    in->value = 1;
}

/* Always, if p then q within eight steps, and r until then. */
static void respond(struct formula *f)
{
    size_t always = star(f, step(f)), asked = test(f, atom(f, 0));
    size_t way = go(f, 2);
    for (int i = 0; i < 7; i++)
        way = sequence(f, way, go(f, 2));
    size_t answered = diamond(f, way, atom(f, 1));
    box(f, always, box(f, asked, answered));
}

/* The elevator of source 004 with 11 floors: it goes up, serves, goes down, serves, and waits four times. Besides the
 * rule's atoms there are those that say what ready means. */
enum { FLOORS = 11, AT = ELEVATOR_ATOMS, CALLED = AT + FLOORS, MEANT_ATOMS = CALLED + FLOORS };

static void ride(struct input *in)
{
    static const char plan[] = "uuuuusddddddddddswwww";
    struct elevator e = elevator_at_first(FLOORS);
    memset(in->cells, 0, sizeof in->cells);
    for (size_t k = 0; k < in->instants; k++) {
        uint8_t *cells = in->cells + k * in->atoms;
        put_instant(&e, plan[k], cells);
        cells[AT + e.floor] = 2;
        for (int x = 0; x < FLOORS; x++)
            cells[CALLED + x] = is_called(&e, x) ? 2 : 0;
        e = after(e, plan[k]);
    }
}

/* The test that the elevator was called to a floor and is there. */
static size_t called_here(struct formula *f, size_t x)
{
    size_t called = test(f, atom(f, CALLED + x)), at = test(f, atom(f, AT + x));
    return sequence(f, called, at);
}

/* Ready as an atom, or written out: called to some floor and there. */
static size_t ready_test(struct formula *f, int written_out)
{
    if (!written_out)
        return test(f, atom(f, READY));
    size_t ready = called_here(f, 0);
    for (size_t x = 1; x < FLOORS; x++)
        ready = choice(f, ready, called_here(f, x));
    return ready;
}

static void elevator(const char *name, int written_out)
{
    struct input *in = one(name, MEANT_ATOMS, 22);
    struct formula *f = &in->formula;
    rule_13(f, ready_test(f, written_out));
    ride(in);
    in->value = 2;
}

/* ---- 255 records at 32 instants */
static void dense_stars(struct formula *f)
{
    size_t p = starred(f, either_way(f));
    diamond(f, p, atom(f, 0));
}

static void sparse_stars(struct formula *f)
{
    size_t p = starred(f, step(f));
    box(f, p, atom(f, 0));
}

/* The star of a pass, a further star and a further pass after it, and again. */
static void stars_in_stars(struct formula *f)
{
    size_t p = star(f, go(f, 0));
    for (size_t i = 1; left(f) > 2 + 6; i++)
        p = star(f, sequence(f, p, go(f, i % 8)));
    diamond(f, p, atom(f, 7));
}

static void dense_sequences(struct formula *f)
{
    size_t p = star(f, either_way(f));
    while (left(f) > 2 + 5)
        p = sequence(f, p, star(f, either_way(f)));
    diamond(f, p, atom(f, 0));
}

/* The path that goes back where an atom holds: G? ; back. */
static size_t go_back(struct formula *f, size_t i)
{
    size_t tested = test(f, atom(f, i));
    return sequence(f, tested, back(f));
}

static void long_sequence(struct formula *f)
{
    size_t p = go(f, 0);
    for (size_t i = 1; left(f) > 2 + 6; i++)
        p = sequence(f, p, (i % 2 == 0 ? go : go_back)(f, i % ATOMS));
    diamond(f, p, atom(f, 0));
}

static void many_tests(struct formula *f)
{
    size_t p = go(f, 0);
    for (size_t i = 1; left(f) > 3 + 5; i++)
        p = choice(f, p, go(f, i % ATOMS));
    box(f, star(f, p), atom(f, 1));
}

static void nested_tests(struct formula *f)
{
    size_t g = atom(f, 0);
    while (left(f) >= 5) {
        size_t p = either_way(f), q = test(f, g);
        p = sequence(f, q, p);
        g = left(f) % 2 ? box(f, p, no(f)) : diamond(f, p, yes(f));
    }
}

static void boxes_over_choices(struct formula *f)
{
    size_t g = atom(f, 0);
    for (size_t i = 0; left(f) >= 7; i++) {
        size_t p = either_way(f), tested = test(f, atom(f, i % 4));
        g = box(f, choice(f, p, tested), g);
    }
}

static void deep_modalities(struct formula *f)
{
    size_t g = atom(f, 0);
    for (size_t i = 0; left(f) >= 2; i++) {
        size_t p = i % 4 < 2 ? step(f) : back(f);
        g = i % 3 == 0 ? box(f, p, g) : diamond(f, p, g);
    }
}

static void nested_untils(struct formula *f)
{
    size_t g = atom(f, 0);
    for (size_t i = 1; left(f) >= 6; i++)
        g = diamond(f, star(f, go(f, i % ATOMS)), g);
}

/* ---- random formulas */
static size_t random_path(struct input *in, size_t size);

static size_t random_formula(struct input *in, size_t size)
{
    struct formula *f = &in->formula;
    if (size == 1)
        return below(8) == 0 ? yes(f) : atom(f, below(in->atoms));
    /* No formula has two records, so none is left for the second part. */
    size_t first = 1 + below(size - 2);
    if (size - 1 - first == 2)
        first++;
    size_t path = random_path(in, first), end = random_formula(in, size - 1 - first);
    return below(2) ? box(f, path, end) : diamond(f, path, end);
}

static size_t random_path(struct input *in, size_t size)
{
    struct formula *f = &in->formula;
    if (size == 1)
        return below(3) == 0 ? back(f) : step(f);
    if (size != 3 && below(3) == 0)
        return test(f, random_formula(in, size - 1));
    if (size == 2 || below(4) == 0)
        return star(f, random_path(in, size - 1));
    size_t first = 1 + below(size - 2);
    size_t p = random_path(in, first), q = random_path(in, size - 1 - first);
    return below(3) == 0 ? choice(f, p, q) : sequence(f, p, q);
}

static void random_formulas(const char *name, size_t size, size_t instants)
{
    random_formula(one(name, 8, instants), size);
    for (size_t i = 1; i < MOST_INPUTS; i++)
        random_formula(next(8, instants), size);
}

size_t build_workloads(void)
{
    seed = 13;
    kept_until();
    built("always p answered by q", 3, respond);
    elevator("elevator, rule (13)", 0);
    elevator("elevator, ready written out", 1);
    built("stars over step + back", 1, dense_stars);
    built("stars over step", 1, sparse_stars);
    built("stars in stars, with tests", 8, stars_in_stars);
    built("sequences of dense stars", 1, dense_sequences);
    built("one long sequence", ATOMS, long_sequence);
    built("a star of many tests", ATOMS, many_tests);
    built("tests inside tests", 1, nested_tests);
    built("boxes over choices", 4, boxes_over_choices);
    built("deep modalities", 1, deep_modalities);
    built("untils inside untils", ATOMS, nested_untils);
    random_formulas("random, 7 records", 7, INSTANTS);
    random_formulas("random, 31 records, 8 instants", 31, 8);
    random_formulas("random, 31 records", 31, INSTANTS);
    random_formulas("random, 127 records", 127, INSTANTS);
    random_formulas("random, 255 records, 16 instants", MOST_RECORDS, 16);
    random_formulas("random, 255 records", MOST_RECORDS, INSTANTS);
    return count;
}
