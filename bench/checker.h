/* A checker in C that the library's time is measured against: one pass over the records, each kind's demands from a
 * table. The translator and the expander in C check by it too. */
#ifndef CHECKER_H
#define CHECKER_H

#include "pasturequill.h"

/* As pasturequill_check, for any input: the first refusal that applies, or 0. */
uint8_t check_core(const uint8_t *records, size_t records_size, uint64_t atoms);

/* The same where shorthands are taken too. */
uint8_t check_full(const uint8_t *records, size_t records_size, uint64_t atoms);

#endif
