/* The valuer by bits with every short way that the library takes. */
enum { SHORT_WAYS = 1 };

#include "bits.h"

void value_bits_best(const struct task *t)
{
    value_formula(t, t->n - 1);
}
