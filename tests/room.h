/* Room for a function to write: what is in it before a call, and what must be in it after. */
#ifndef ROOM_H
#define ROOM_H

#include "guarded.h"
#include "tables.h"

/* More than any function writes. */
enum { MOST_ROOM = 1 << 14 };

/* Fresh room of so many bytes. */
static inline uint8_t *guarded_fresh(size_t size, enum guarded_edge edge)
{
    static uint8_t fresh[MOST_ROOM];
    make_fresh(fresh, size);
    return guarded_copy(fresh, size, edge, PROT_READ | PROT_WRITE);
}

/* What was written is at the start, if its bytes are known, and the rest is fresh; the first other byte is told. */
static inline void expect_room(const char *reason, const void *room, size_t size, struct bytes written)
{
    const uint8_t *bytes = room;
    for (size_t at = written.at == NULL ? written.size : 0; at < size; at++) {
        uint8_t expected = at < written.size ? written.at[at] : fresh_byte(at);
        if (bytes[at] != expected) {
            char what[64];
            snprintf(what, sizeof what, "byte %zu of %zu is", at, size);
            count(0, reason, what, bytes[at], expected);
            return;
        }
    }
    count(1, reason, "", 0, 0);
}

#endif
