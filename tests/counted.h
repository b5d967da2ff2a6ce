/* Calls of a service that writes and counts. Whoever includes this says which: SERVICE is its function, ELEMENT what
 * its room is made of, EACH how many of these one has of what it counts, and ROOMS what room each refusal is tried in. */
#ifndef COUNTED_H
#define COUNTED_H

#include "faults.h"
#include "room.h"

/* What is written: elements, if they are known, and how many. */
struct output { const ELEMENT *at; size_t size; };

/* Compares an outcome: on a refusal all room stays; else what is due is at its start, and the rest stays. */
static void compare(const char *reason, pasturequill_counted got, const ELEMENT *out, size_t room, int refusal,
                    struct output due)
{
    size_t written = refusal ? 0 : due.size;
    count(got.refusal == refusal, reason, "refusal", got.refusal, (uint64_t)refusal);
    count(got.count == written / EACH, reason, "count", got.count, written / EACH);
    expect_room(reason, out, sizeof *out * room, (struct bytes){(const uint8_t *)due.at, sizeof *out * written});
}

/* One call at each edge. */
static void expect(const char *reason, struct bytes records, uint64_t atoms, size_t room, int refusal,
                   struct output due)
{
    for (int edge = GUARDED_AT_END; edge <= GUARDED_AT_START; edge++) {
        ELEMENT *out = (ELEMENT *)(void *)guarded_fresh(sizeof *out * room, edge);
        const uint8_t *in = guarded(records.at, records.size, edge);
        compare(reason, SERVICE(in, records.size, atoms, out, room), out, room, refusal, due);
        guarded_release();
    }
}

/* An accepted formula in room that is exact, longer, shorter by an element or by a record or rule, and none. */
static void expect_output(const char *reason, struct bytes records, uint64_t atoms, struct output due)
{
    const size_t enough[] = {due.size, due.size + 1, due.size + 40}, less[] = {due.size - 1, due.size - EACH, 0};
    for (size_t i = 0; i < sizeof enough / sizeof *enough; i++)
        expect(reason, records, atoms, enough[i], PASTUREQUILL_ACCEPTED, due);
    for (size_t i = 0; i < sizeof less / sizeof *less; i++)
        expect(reason, records, atoms, less[i], PASTUREQUILL_NO_ROOM, due);
}

/* A refused formula, whatever the room. */
static void expect_refusal(const char *reason, struct bytes records, uint64_t atoms, int refusal)
{
    static const size_t rooms[] = {ROOMS};
    for (const size_t *room = rooms; room < END(rooms); room++)
        expect(reason, records, atoms, *room, refusal, (struct output)NONE);
}

/* A slice of no elements may have no address. */
static void expect_no_address(const char *reason, struct bytes records, uint64_t atoms, int refusal)
{
    compare(reason, SERVICE(records.at, records.size, atoms, NULL, 0), NULL, 0, refusal, (struct output)NONE);
}

#endif
