/* A translator in C that the library's time is measured against: a pass down for continuations, one up for rules. */
#ifndef TRANSLATOR_H
#define TRANSLATOR_H

#include "pasturequill.h"

/* Takes what pasturequill_translate accepts and refuses nothing; `rules` has room for all. Gives their number. */
size_t translate_plain(const uint8_t *records, size_t n, size_t atoms, uint16_t *rules);

/* The same after all refusals, for any input. */
pasturequill_counted translate_checked(const uint8_t *records, size_t records_size, uint64_t atoms, uint16_t *rules,
                                       size_t rules_size);

#endif
