/* The least of two values, the greatest, and what an implication of them is worth. */
#ifndef VALUES_H
#define VALUES_H

#include <stdint.h>

static inline uint8_t smaller(uint8_t u, uint8_t v) { return u < v ? u : v; }
static inline uint8_t greater(uint8_t u, uint8_t v) { return u > v ? u : v; }
static inline uint8_t implies(uint8_t u, uint8_t v) { return u <= v ? 2 : v; }

#endif
