/* Formulas as the specification writes them, with <P>F for a diamond: <(p? ; step)*>q, always (p implies next q). Atoms
 * are letters. What stands before a part binds it most, then what stands after it, ? and *, then the shorthands of two
 * formulas, then ; and +. The records are in postorder: those of a, those of b, then the parent. */
#ifndef WRITTEN_H
#define WRITTEN_H

#include <ctype.h>

#include "formula.h"
#include "shorthands.h"

struct reading {
    struct formula *f;
    const char *atoms, *at; /* the atoms' letters, and the rest of the text */
};

/* Whether the text goes on with a word or a sign, which is then passed. */
static inline int passes(struct reading *in, const char *word)
{
    size_t n = strlen(word);
    in->at += strspn(in->at, " ");
    if (strncmp(in->at, word, n) != 0 || (isalpha(word[0]) && isalpha(in->at[n])))
        return 0;
    in->at += n;
    return 1;
}

static inline void must_pass(int fine, const struct reading *in)
{
    if (!fine) {
        fprintf(stderr, "this can't be read as a formula: %s\n", in->at);
        exit(2);
    }
}

static inline size_t read_whole(struct reading *in);

static inline size_t read_enclosed(struct reading *in, const char *end)
{
    size_t r = read_whole(in);
    must_pass(passes(in, end), in);
    return r;
}

/* A word, something in parentheses, or a modality or shorthand and what it is of. */
static inline size_t read_part(struct reading *in)
{
    static const char *const leaves[] = {[PASTUREQUILL_FALSE] = "false", [PASTUREQUILL_TRUE] = "true",
                                         [PASTUREQUILL_STEP] = "step", [PASTUREQUILL_BACK] = "back"};
    for (uint8_t kind = 0; kind < sizeof leaves / sizeof *leaves; kind++)
        if (leaves[kind] && passes(in, leaves[kind]))
            return add(in->f, kind, 0, 0);
    for (const struct shorthand *s = shorthands; s < shorthands + SHORTHANDS; s++)
        if (s->arguments < 2 && passes(in, s->name))
            return add(in->f, s->kind, s->arguments == 1 ? read_part(in) : 0, 0);
    if (passes(in, "("))
        return read_enclosed(in, ")");
    int boxed = passes(in, "[");
    if (boxed || passes(in, "<")) {
        size_t path = read_enclosed(in, boxed ? "]" : ">");
        return add(in->f, boxed ? PASTUREQUILL_BOX : PASTUREQUILL_DIAMOND, path, read_part(in));
    }
    const char *letter = strchr(in->atoms, *in->at);
    must_pass(*in->at && letter, in);
    in->at++;
    return atom(in->f, (size_t)(letter - in->atoms));
}

/* Tests and stars of a part. */
static inline size_t read_marked(struct reading *in)
{
    size_t r = read_part(in);
    for (;;)
        if (passes(in, "?"))
            r = test(in->f, r);
        else if (passes(in, "*"))
            r = star(in->f, r);
        else
            return r;
}

/* A shorthand of two formulas, or a marked part. */
static inline size_t read_pair(struct reading *in)
{
    size_t r = read_marked(in);
    for (const struct shorthand *s = shorthands; s < shorthands + SHORTHANDS; s++)
        if (s->arguments == 2 && passes(in, s->name))
            return add(in->f, s->kind, r, read_marked(in));
    return r;
}

static inline size_t read_sequence(struct reading *in)
{
    size_t r = read_pair(in);
    while (passes(in, ";"))
        r = sequence(in->f, r, read_pair(in));
    return r;
}

static inline size_t read_whole(struct reading *in)
{
    size_t r = read_sequence(in);
    while (passes(in, "+"))
        r = choice(in->f, r, read_sequence(in));
    return r;
}

/* The formula that a text says, over atoms with these letters. */
static inline struct formula written(const char *atoms, const char *text)
{
    struct formula f = {.n = 0};
    struct reading in = {&f, atoms, text};
    read_whole(&in);
    must_pass(*in.at == 0, &in);
    return f;
}

#endif
