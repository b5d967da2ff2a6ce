/* Tables of cases, and how often a test in C found what it expected and how often not. TEST_NAME is its name. */
#ifndef TABLES_H
#define TABLES_H

#include <inttypes.h>
#include <stdarg.h>
#include <stddef.h>
#include <stdio.h>

/* ---- tables: slices of bytes or of 16-bit words, and rows with a refusal */
struct bytes { const uint8_t *at; size_t size; };
struct words { const uint16_t *at; size_t size; }; /* in words */

#define BYTES(...) {(const uint8_t[]){__VA_ARGS__}, sizeof((const uint8_t[]){__VA_ARGS__})}
#define WORDS(...) {(const uint16_t[]){__VA_ARGS__}, sizeof((const uint16_t[]){__VA_ARGS__}) / sizeof(uint16_t)}
#define NONE {NULL, 0}

/* A row that starts with its reason and a refusal, which is named as in the header but for its beginning. */
#define ROW(refusal, reason, ...) {reason, PASTUREQUILL_##refusal, __VA_ARGS__}

/* Where a table ends. */
#define END(table) (table + sizeof table / sizeof *table)

#define TWO_TO(n) (UINT64_C(1) << (n))

/* ---- counts */
static int passed, failed;

/* A reason with numbers in it, until the next one. */
__attribute__((format(printf, 1, 2))) static inline const char *reason_with(const char *format, ...)
{
    static char reason[128];
    va_list numbers;
    va_start(numbers, format);
    vsnprintf(reason, sizeof reason, format, numbers);
    va_end(numbers);
    return reason;
}

static inline void count(int fine, const char *reason, const char *what, uint64_t got, uint64_t expected)
{
    if (fine) {
        passed++;
    } else {
        failed++;
        printf(TEST_NAME ": %s: %s %" PRIu64 ", expected %" PRIu64 "\n", reason, what, got, expected);
    }
}

/* Prints both numbers; what main gives back. */
static inline int counts_told(void)
{
    printf(TEST_NAME " in C: %d passed, %d failed\n", passed, failed);
    return failed != 0;
}

#endif
