/* A writer and a reader of formulas as text in C, that the library's time is measured against. */
#ifndef TEXTER_H
#define TEXTER_H

#include "pasturequill.h"

/* Either service: what it takes and what it writes are bytes. */
typedef pasturequill_counted texting(const uint8_t *in, size_t in_size, uint64_t atoms, uint8_t *out, size_t out_size);

/* As pasturequill_write_text, for any input: it checks, adds up what comes out, and writes the tree from the root. */
pasturequill_counted write_text_checked(const uint8_t *records, size_t records_size, uint64_t atoms, uint8_t *text,
                                        size_t text_size);

/* As pasturequill_read_text, for any input: it goes down the text once, and keeps the records as they come. */
pasturequill_counted read_text_checked(const uint8_t *text, size_t text_size, uint64_t atoms, uint8_t *records,
                                       size_t records_size);

#endif
