/* An expander in C that the library's time is measured against: it checks, adds up what comes out, and writes the tree
 * from its root down. */
#ifndef EXPANDER_H
#define EXPANDER_H

#include "pasturequill.h"

/* As pasturequill_expand, for any input. */
pasturequill_counted expand_checked(const uint8_t *records, size_t records_size, uint64_t atoms, uint8_t *out,
                                    size_t out_size);

#endif
