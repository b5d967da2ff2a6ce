/* A fourth of the columns is drawn at random, and each other one has a shape over columns before it. The rules say so,
 * as often as it takes to have as many as asked for. */
#include "filled.h"

#include "random.h"
#include "values.h"
#include "writing.h"

/* Rules of every instant say the first of them. */
enum shape {
    COPY, SMALLER, GREATER, IMPLICATION, EVERYWHERE_SHAPES,
    NEXT = EVERYWHERE_SHAPES, WEAK_NEXT, BEFORE, WEAK_BEFORE, SHAPES
};

/* What column x is: its shape over columns a and b. */
struct column {
    enum shape shape;
    size_t a, b;
};

static uint8_t *cell(struct filled *f, size_t column, size_t k)
{
    return &f->cells[k * f->width + column];
}

/* What it is worth at instant k. */
static uint8_t shaped(struct filled *f, const struct column *c, size_t k)
{
    uint8_t u = *cell(f, c->a, k), v = *cell(f, c->b, k);
    switch (c->shape) {
    case SMALLER:
        return smaller(u, v);
    case GREATER:
        return greater(u, v);
    case IMPLICATION:
        return implies(u, v);
    case NEXT:
    case WEAK_NEXT:
        return k + 1 < f->instants ? *cell(f, c->a, k + 1) : c->shape == NEXT ? 0 : 2;
    case BEFORE:
    case WEAK_BEFORE:
        return k > 0 ? *cell(f, c->a, k - 1) : c->shape == BEFORE ? 0 : 2;
    default:
        return u;
    }
}

static int symbol_of(size_t column) { return COLUMN + (int)column; }

/* The rules that say so. */
static void say(struct rules *to, const struct column *c, size_t column)
{
    int x = symbol_of(column), a = symbol_of(c->a), b = symbol_of(c->b);
    switch (c->shape) {
    case SMALLER:
        put_smaller(to, x, a, b);
        break;
    case GREATER:
        put_greater(to, x, a, b);
        break;
    case IMPLICATION:
        put_implication(to, x, a, b);
        break;
    case NEXT:
    case WEAK_NEXT:
        put_same(to, LATER, PREVIOUS + x, a);
        put_end(to, LAST, x, c->shape == WEAK_NEXT);
        break;
    case BEFORE:
    case WEAK_BEFORE:
        put_same(to, LATER, x, PREVIOUS + a);
        put_end(to, FIRST, x, c->shape == WEAK_BEFORE);
        break;
    default:
        put_same(to, EVERY, x, a);
        break;
    }
}

/* A shape over columns before x. */
static struct column draw(const struct filled *f, size_t x)
{
    struct column c;
    c.shape = (enum shape)below(f->everywhere ? EVERYWHERE_SHAPES : SHAPES);
    c.a = below(x);
    c.b = below(x);
    return c;
}

void fill(struct filled *f)
{
    struct column columns[PASTUREQUILL_MOST_COLUMNS];
    struct rules to = {f->words, 0};
    size_t given = f->width / 4;

    seed = 17;
    for (size_t x = 0; x < given; x++)
        for (size_t k = 0; k < f->instants; k++)
            *cell(f, x, k) = (uint8_t)below(3);
    for (size_t x = given; x < f->width; x++) {
        columns[x] = draw(f, x);
        for (size_t k = 0; k < f->instants; k++)
            *cell(f, x, k) = shaped(f, &columns[x], k);
    }
    for (size_t x = given; to.count < f->rules; x = x + 1 < f->width ? x + 1 : given)
        say(&to, &columns[x], x);
}
