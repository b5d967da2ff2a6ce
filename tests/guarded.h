/* Bytes that end, or start, at a page that may not be touched: a read or a write outside them stops the test. What a
 * function may only read is in pages that can only be read; what it may write has fresh bytes. */
#ifndef GUARDED_H
#define GUARDED_H

#include <stdint.h>
#include <stdio.h>
#include <stdlib.h>
#include <string.h>
#include <sys/mman.h>
#include <unistd.h>

/* Fresh bytes: none is a value or a kind, no two of them are a literal of a translation, and they are not the same
 * everywhere. */
static inline uint8_t fresh_byte(size_t at) { return 0xc0 | at % 61; }

static inline void make_fresh(void *room, size_t size)
{
    for (size_t at = 0; at < size; at++)
        ((uint8_t *)room)[at] = fresh_byte(at);
}

enum guarded_edge { GUARDED_AT_END, GUARDED_AT_START };

/* Ends the program where something is not as it must be. */
static inline void must(int fine, const char *what)
{
    if (!fine) {
        fprintf(stderr, "%s\n", what);
        exit(2);
    }
}

static inline size_t guarded_page(void) { return (size_t)sysconf(_SC_PAGESIZE); }

/* Pages of `size` bytes, a multiple of a page's, with an untouchable page before and after them. */
static inline uint8_t *guarded_pages(size_t size)
{
    size_t page = guarded_page();
    uint8_t *base = mmap(NULL, size + 2 * page, PROT_NONE, MAP_PRIVATE | MAP_ANONYMOUS, -1, 0);
    must(base != MAP_FAILED && mprotect(base + page, size, PROT_READ | PROT_WRITE) == 0, "there are no pages");
    return base + page;
}

/* The copies that there are, up to as many as one call takes. */
enum { MOST_GUARDED = 3 };

static struct { uint8_t *start; size_t size; } guarded_copies[MOST_GUARDED];
static size_t guarded_count;

/* A copy of `size` bytes in pages of its own with this protection, untouchable pages around, until the next release. */
static inline uint8_t *guarded_copy(const uint8_t *bytes, size_t size, enum guarded_edge edge, int protection)
{
    size_t inner = (size / guarded_page() + 1) * guarded_page();
    uint8_t *start = guarded_pages(inner);
    uint8_t *at = edge == GUARDED_AT_END ? start + inner - size : start;
    must(guarded_count < MOST_GUARDED, "there are too many copies");
    guarded_copies[guarded_count].start = start;
    guarded_copies[guarded_count++].size = inner;
    if (size != 0)
        memcpy(at, bytes, size);
    must(mprotect(start, inner, protection) == 0, "pages can't be protected");
    return at;
}

/* Gives all copies back. */
static inline void guarded_release(void)
{
    while (guarded_count > 0) {
        guarded_count--;
        size_t page = guarded_page(), size = guarded_copies[guarded_count].size + 2 * page;
        must(munmap(guarded_copies[guarded_count].start - page, size) == 0, "pages can't be given back");
    }
}

/* A copy that may only be read. */
static inline const uint8_t *guarded(const uint8_t *bytes, size_t size, enum guarded_edge edge)
{
    return guarded_copy(bytes, size, edge, PROT_READ);
}

#endif
