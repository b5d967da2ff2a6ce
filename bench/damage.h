/* Records with bytes changed, on which the library and a peer must agree too, so that every refusal is met. The seed
 * is random.h's. */
#ifndef DAMAGE_H
#define DAMAGE_H

#include "formula.h"
#include "random.h"

/* How often each formula is damaged. */
enum { DAMAGES = 2000 };

/* Changes one or two bytes: to what may be a core kind, or any kind, or to any byte. */
static inline void damage(struct formula *f)
{
    static const size_t limits[] = {PASTUREQUILL_STAR + 1, PASTUREQUILL_SINCE + 1, UINT8_MAX + 1};
    for (size_t changes = 1 + below(2); changes > 0; changes--) {
        size_t at = below(size_of(f));
        f->records[at] = (uint8_t)below(limits[below(sizeof limits / sizeof *limits)]);
    }
}

#endif
