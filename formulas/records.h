/* A record's bytes: where its parts are, reading them and writing them. */
#ifndef RECORDS_H
#define RECORDS_H

#include <string.h>

#include "pasturequill.h"

enum { RECORD_SIZE = PASTUREQUILL_RECORD_SIZE };
enum { MOST_RECORDS = PASTUREQUILL_MOST_RECORDS, MOST_BYTES = PASTUREQUILL_MOST_RECORD_BYTES };
enum { KIND = PASTUREQUILL_KIND, ZERO = PASTUREQUILL_ZERO };
enum { FIELD_A = PASTUREQUILL_FIELD_A, FIELD_B = PASTUREQUILL_FIELD_B, HIGH = 1 };

static inline uint8_t kind_of(const uint8_t *records, size_t r) { return records[RECORD_SIZE * r + KIND]; }

static inline size_t word_at(const uint8_t *bytes) { return bytes[0] | (size_t)bytes[HIGH] << 8; }

static inline size_t field_a(const uint8_t *records, size_t r) { return word_at(records + RECORD_SIZE * r + FIELD_A); }
static inline size_t field_b(const uint8_t *records, size_t r) { return word_at(records + RECORD_SIZE * r + FIELD_B); }

/* What a record has besides its kind and fields is 0. */
static inline void put_record(uint8_t *to, uint8_t kind, size_t a, size_t b)
{
    memset(to, 0, RECORD_SIZE);
    to[KIND] = kind;
    to[FIELD_A] = (uint8_t)a;
    to[FIELD_A + HIGH] = (uint8_t)(a >> 8);
    to[FIELD_B] = (uint8_t)b;
    to[FIELD_B + HIGH] = (uint8_t)(b >> 8);
}

#endif
