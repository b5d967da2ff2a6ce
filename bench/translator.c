/* The plain translator, each line of the specification's list of rules as a line here; then its refusals. */
#include "translator.h"

#include "checker.h"
#include "records.h"
#include "writing.h"

size_t translate_plain(const uint8_t *records, size_t n, size_t atoms, uint16_t *rules)
{
    struct rules to = {rules, 0};
    int label = COLUMN + (int)atoms;     /* that of record 0 */
    uint16_t continuation[MOST_RECORDS]; /* of paths: a label */
    uint8_t box[MOST_RECORDS];           /* of paths: whether the modality above is one */

    for (size_t r = n; r-- > 0;) {
        size_t a = field_a(records, r), b = field_b(records, r);
        switch (kind_of(records, r)) {
        case PASTUREQUILL_DIAMOND:
        case PASTUREQUILL_BOX:
            continuation[a] = (uint16_t)(label + (int)b);
            box[a] = kind_of(records, r) == PASTUREQUILL_BOX;
            break;
        case PASTUREQUILL_CHOICE:
            continuation[a] = continuation[b] = continuation[r];
            box[a] = box[b] = box[r];
            break;
        case PASTUREQUILL_SEQUENCE:
            continuation[a] = (uint16_t)(label + (int)b);
            continuation[b] = continuation[r];
            box[a] = box[b] = box[r];
            break;
        case PASTUREQUILL_STAR:
            continuation[a] = (uint16_t)(label + (int)r);
            box[a] = box[r];
            break;
        }
    }
    for (size_t r = 0; r < n; r++) {
        int x = label + (int)r, a = label + (int)field_a(records, r), b = label + (int)field_b(records, r);
        switch (kind_of(records, r)) {
        case PASTUREQUILL_FALSE:
            put_same(&to, EVERY, x, NO);
            break;
        case PASTUREQUILL_TRUE:
            put_same(&to, EVERY, x, YES);
            break;
        case PASTUREQUILL_ATOM:
            put_same(&to, EVERY, x, COLUMN + (int)field_a(records, r));
            break;
        case PASTUREQUILL_STEP:
            put_same(&to, LATER, PREVIOUS + x, continuation[r]);
            put_end(&to, LAST, x, box[r]);
            break;
        case PASTUREQUILL_BACK:
            put_same(&to, LATER, x, PREVIOUS + continuation[r]);
            put_end(&to, FIRST, x, box[r]);
            break;
        case PASTUREQUILL_TEST:
            (box[r] ? put_implication : put_smaller)(&to, x, a, continuation[r]);
            break;
        case PASTUREQUILL_CHOICE:
            (box[r] ? put_smaller : put_greater)(&to, x, a, b);
            break;
        case PASTUREQUILL_STAR:
            (box[r] ? put_smaller : put_greater)(&to, x, continuation[r], a);
            break;
        default: /* a diamond, a box, a sequence */
            put_same(&to, EVERY, x, a);
            break;
        }
    }
    put(&to, FIRST, YES, YES, label + (int)n - 1, NO, NO);
    return to.count;
}

/* ---- refusals */
/* Stars from the first, each 12 then 11. */
static uint8_t star_refusal(const uint8_t *records, size_t n)
{
    enum { FORTH = 1, BACK = 2 };
    uint8_t ways[MOST_RECORDS], still[MOST_RECORDS];
    for (size_t r = 0; r < n; r++) {
        size_t a = field_a(records, r), b = field_b(records, r);
        ways[r] = 0;
        still[r] = 0;
        switch (kind_of(records, r)) {
        case PASTUREQUILL_STEP:
            ways[r] = FORTH;
            break;
        case PASTUREQUILL_BACK:
            ways[r] = BACK;
            break;
        case PASTUREQUILL_TEST:
            still[r] = 1;
            break;
        case PASTUREQUILL_CHOICE:
            ways[r] = ways[a] | ways[b];
            still[r] = still[a] | still[b];
            break;
        case PASTUREQUILL_SEQUENCE:
            ways[r] = ways[a] | ways[b];
            still[r] = still[a] & still[b];
            break;
        case PASTUREQUILL_STAR:
            if (ways[a] == (FORTH | BACK))
                return PASTUREQUILL_STAR_TURNS;
            if (still[a])
                return PASTUREQUILL_STAR_STANDS;
            ways[r] = ways[a];
            still[r] = 1;
            break;
        }
    }
    return 0;
}

/* How many rules come from one record. */
static size_t rules_from(uint8_t kind, uint8_t box)
{
    if (kind <= PASTUREQUILL_BOX || kind == PASTUREQUILL_SEQUENCE)
        return 2;
    return kind == PASTUREQUILL_TEST && box ? 4 : 3;
}

static size_t rules_of(const uint8_t *records, size_t n)
{
    uint8_t box[MOST_RECORDS] = {0};
    size_t count = 1;
    for (size_t r = n; r-- > 0;) {
        size_t a = field_a(records, r), b = field_b(records, r);
        uint8_t kind = kind_of(records, r);
        switch (kind) {
        case PASTUREQUILL_DIAMOND:
        case PASTUREQUILL_BOX:
            box[a] = kind == PASTUREQUILL_BOX;
            break;
        case PASTUREQUILL_CHOICE:
        case PASTUREQUILL_SEQUENCE:
            box[a] = box[b] = box[r];
            break;
        case PASTUREQUILL_STAR:
            box[a] = box[r];
            break;
        }
        count += rules_from(kind, box[r]);
    }
    return count;
}

static uint8_t refusal(const uint8_t *records, size_t records_size, uint64_t atoms, size_t rules_size)
{
    uint8_t number = check_core(records, records_size, atoms);
    if (number != 0)
        return number;
    size_t n = records_size / RECORD_SIZE;
    number = star_refusal(records, n);
    if (number != 0)
        return number;
    return rules_size < RULE_SIZE * rules_of(records, n) ? PASTUREQUILL_NO_ROOM : PASTUREQUILL_ACCEPTED;
}

pasturequill_counted translate_checked(const uint8_t *records, size_t records_size, uint64_t atoms, uint16_t *rules,
                                       size_t rules_size)
{
    uint8_t number = refusal(records, records_size, atoms, rules_size);
    if (number != 0)
        return (pasturequill_counted){.refusal = number};
    return (pasturequill_counted){.count = translate_plain(records, records_size / RECORD_SIZE, (size_t)atoms, rules)};
}
