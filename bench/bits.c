/* The valuer by bits as it is: a fixed yardstick. */
enum { SHORT_WAYS = 0 };

#include "bits.h"

void value_bits(const struct task *t)
{
    value_formula(t, t->n - 1);
}
