/* The valuer by rows with every short way that the library takes. */
enum { SHORT_WAYS = 1 };

#include "rows.h"

void value_rows_best(const struct task *t)
{
    value_formula(t, t->n - 1);
}
