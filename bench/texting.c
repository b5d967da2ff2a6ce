/* The time of one call of pasturequill_write_text and of one of pasturequill_read_text, beside those of a writer and a
 * reader in C with the same refusals: both in one run and in turn. The formulas are small ones as they are written in
 * practice, and the widest, the deepest and the longest of 255 records; what is read is their text, or text that is
 * refused only after its last byte. */
#include <stdio.h>
#include <stdlib.h>
#include <string.h>

#include "comparison.h"
#include "damage.h"
#include "shapes.h"
#include "texter.h"

enum { ATOMS = PASTUREQUILL_MOST_ATOMS, MOST_TEXT = PASTUREQUILL_MOST_TEXT };

/* ---- the two, both ways */
enum { PEER, LIBRARY, CONTENDERS };
enum { WRITE, READ, SERVICES };

static texting *const by[SERVICES][CONTENDERS] = {
    [WRITE] = {write_text_checked, pasturequill_write_text},
    [READ] = {read_text_checked, pasturequill_read_text},
};

/* As much room as any output needs. */
enum { ROOM = MOST_BYTES };

/* What one of the services takes. */
struct work {
    const char *name;
    int service;
    size_t atoms, room, size;
    uint8_t in[MOST_TEXT + 2]; /* damaged text may have two bytes more */
};

static struct work work_of(const char *name, int service, size_t size)
{
    return (struct work){name, service, ATOMS, ROOM, size, {0}};
}

static pasturequill_counted call(int contender, const struct work *w, uint8_t *out)
{
    return by[w->service][contender](w->in, w->size, w->atoms, out, w->room);
}

static void run(int contender, const void *work, size_t rounds)
{
    static uint8_t out[ROOM];
    const struct work *w = work;
    for (size_t i = 0; i < rounds; i++)
        call(contender, w, out);
}

static struct comparison comparisons[SERVICES] = {
    [WRITE] = {"write text", "formula", "records bytes refusal", CONTENDERS, .names = {"writer", "library"},
               .against = {"from the root down, same refusals"}, .run = run},
    [READ] = {"read text", "text", "bytes records refusal", CONTENDERS, .names = {"reader", "library"},
              .against = {"recursive descent, same refusals"}, .run = run},
};

/* ---- formulas */
/* Always, p implies eventually q. */
static void response(struct formula *f)
{
    size_t always = star(f, step(f)), asked = test(f, atom(f, 0)), on = star(f, step(f));
    size_t answered = diamond(f, on, atom(f, 1));
    box(f, always, box(f, asked, answered));
}

static size_t halved(struct formula *f, size_t steps)
{
    if (steps == 1)
        return step(f);
    size_t first = halved(f, steps / 2);
    return choice(f, first, halved(f, steps - steps / 2));
}

static void widest(struct formula *f)
{
    size_t path = halved(f, (MOST_RECORDS - 1) / 2);
    diamond(f, path, atom(f, 0));
}

/* No 255 records have more bytes. */
static void longest(struct formula *f)
{
    size_t path = step(f), g = diamond(f, path, no(f));
    while (left(f) >= 3) {
        path = test(f, no(f));
        g = diamond(f, path, g);
    }
}

static const struct built {
    const char *name;
    void (*build)(struct formula *f);
} built[] = {
    {"p until q", until},
    {"always p answered by q", response},
    {"widest, choices by halves", widest},
    {"longest, tests of false", longest},
    {"127 steps in a row", steps_in_a_row},
    {"stars inside stars", stars_of_stars},
    {"tests inside tests", negations},
    {"127 modalities", modalities},
};

/* ---- the same answers */
/* What both give; stops unless they give and write the same. */
static pasturequill_counted by_both(const struct work *w, uint8_t *out)
{
    static uint8_t outs[CONTENDERS][ROOM];
    pasturequill_counted got[CONTENDERS];
    memset(outs, UINT8_MAX, sizeof outs);
    for (int c = 0; c < CONTENDERS; c++)
        got[c] = call(c, w, outs[c]);
    if (got[PEER].refusal != got[LIBRARY].refusal || got[PEER].count != got[LIBRARY].count ||
        memcmp(outs[PEER], outs[LIBRARY], ROOM) != 0) {
        fprintf(stderr, "%s: the peer gives refusal %d and counts %zu, the library %d and %zu, or writes otherwise\n",
                w->name, got[PEER].refusal, (size_t)got[PEER].count, got[LIBRARY].refusal, (size_t)got[LIBRARY].count);
        exit(1);
    }
    memcpy(out, outs[LIBRARY], ROOM);
    return got[LIBRARY];
}

/* Changes one or two bytes to signs, or drops them, or doubles them. */
static void damage_text(struct work *w)
{
    static const char signs[] = "#falsetrup0123456789&?*+;().>";
    for (size_t changes = 1 + below(2); changes > 0 && w->size > 0; changes--) {
        uint8_t *at = w->in + below(w->size), *end = w->in + w->size;
        switch (below(3)) {
        case 0:
            *at = (uint8_t)signs[below(sizeof signs - 1)];
            break;
        case 1:
            memmove(at, at + 1, (size_t)(end - at - 1));
            w->size--;
            break;
        default:
            memmove(at + 1, at, (size_t)(end - at));
            w->size++;
        }
    }
}

static void damage_records(struct work *w)
{
    struct formula f = {.n = w->size / RECORD_SIZE};
    memcpy(f.records, w->in, w->size);
    damage(&f);
    memcpy(w->in, f.records, w->size);
}

/* Stops unless both give the refusal that is expected, and the same where bytes are changed, and the atoms and the room
 * too; then compares their times. Gives the count. */
static size_t agree_and_compare(const struct work *w, uint8_t refusal, uint8_t *out)
{
    char sizes[64];
    uint8_t other[ROOM];
    pasturequill_counted got = by_both(w, out);
    if (got.refusal != refusal) {
        fprintf(stderr, "%s: refusal %d, expected %d\n", w->name, got.refusal, refusal);
        exit(1);
    }
    for (int change = 0; change < DAMAGES; change++) {
        struct work harmed = *w;
        (w->service == READ ? damage_text : damage_records)(&harmed);
        if (change % 2 != 0) {
            harmed.atoms = below(ATOMS + 2);
            harmed.room = below(ROOM + 1);
        }
        by_both(&harmed, other);
    }
    if (w->service == READ)
        snprintf(sizes, sizeof sizes, "%5zu %7zu %7d", w->size, (size_t)got.count, refusal);
    else
        snprintf(sizes, sizeof sizes, "%7zu %5zu %7d", w->size / RECORD_SIZE, (size_t)got.count, refusal);
    compare(&comparisons[w->service], w->name, sizes, w, 1);
    return (size_t)got.count;
}

/* As much text as is read: a start, the same sign all along, and an end. */
static void compare_refused(const char *name, const char *start, char sign, const char *end, uint8_t refusal)
{
    struct work w = work_of(name, READ, MOST_TEXT);
    uint8_t out[ROOM];
    memset(w.in, sign, MOST_TEXT);
    memcpy(w.in, start, strlen(start));
    memcpy(w.in + MOST_TEXT - strlen(end), end, strlen(end));
    agree_and_compare(&w, refusal, out);
}

int main(void)
{
    enum { FORMULAS = sizeof built / sizeof *built };
    static struct work texts[FORMULAS];
    seed = 41;
    printf("\nText: writer and reader are in C, with the same refusals as the library's pasturequill_write_text and\n"
           "pasturequill_read_text. They agree with these on every byte, for damaged records and text too.\n");
    begin_table(&comparisons[WRITE]);
    for (size_t i = 0; i < FORMULAS; i++) {
        struct formula f = {.n = 0};
        built[i].build(&f);
        struct work w = work_of(built[i].name, WRITE, size_of(&f));
        memcpy(w.in, f.records, w.size);
        texts[i] = work_of(w.name, READ, 0);
        texts[i].size = agree_and_compare(&w, PASTUREQUILL_ACCEPTED, texts[i].in);
    }
    end_table(&comparisons[WRITE]);
    printf("\n");
    begin_table(&comparisons[READ]);
    for (size_t i = 0; i < FORMULAS; i++) {
        uint8_t out[ROOM];
        agree_and_compare(&texts[i], PASTUREQUILL_ACCEPTED, out);
    }
    compare_refused("brackets alone", "", '(', "", PASTUREQUILL_NOT_THE_FORM);
    compare_refused("stars, the last byte wrong", "(", '*', "&t.>?p0(", PASTUREQUILL_NOT_THE_FORM);
    compare_refused("stars, too many records", "(", '*', "&t.>?p0)", PASTUREQUILL_TOO_LONG);
    end_table(&comparisons[READ]);
    return 0;
}
