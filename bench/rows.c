/* The valuer by rows as it is: a fixed yardstick. */
enum { SHORT_WAYS = 0 };

#include "rows.h"

void value_rows(const struct task *t)
{
    value_formula(t, t->n - 1);
}
