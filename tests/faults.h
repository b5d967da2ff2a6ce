/* What the services over records refuse, by tables of cases. */
#ifndef FAULTS_H
#define FAULTS_H

#include "cases.h"

/* What every one of them refuses. */
static const struct records_case faulty[] = {
    /* the length */
    ROW(WRONG_LENGTH, "a part of a record", 0, BYTES(PASTUREQUILL_TRUE)),
    ROW(WRONG_LENGTH, "a record without its last byte", 0, BYTES(PASTUREQUILL_TRUE, [RECORD_SIZE - 2] = 0)),
    ROW(WRONG_LENGTH, "a record and a byte", 0, BYTES(PASTUREQUILL_TRUE, [RECORD_SIZE] = 0)),

    /* the atoms */
    CASE(WRONG_SIZE, 33, "33 atoms", TRUE_),
    CASE(WRONG_SIZE, TWO_TO(63), "2^63 atoms", TRUE_),
    CASE(WRONG_SIZE, UINT64_MAX, "2^64 - 1 atoms", TRUE_),
    CASE(WRONG_SIZE, TWO_TO(32), "2^32 atoms, whose low half is 0", TRUE_),

    /* the kind */
    CASE(UNKNOWN_KIND, 0, "the first kind past the core", R(PASTUREQUILL_STAR + 1, 0, 0)),
    CASE(UNKNOWN_KIND, 0, "the last kind before the shorthands", R(PASTUREQUILL_NOT - 1, 0, 0)),
    CASE(UNKNOWN_KIND, 0, "a kind past the shorthands", R(PASTUREQUILL_SINCE + 1, 0, 0)),
    CASE(UNKNOWN_KIND, 0, "the largest kind", R(UINT8_MAX, 0, 0)),
    CASE(UNKNOWN_KIND, 0, "an unknown kind, whatever its other bytes hold", Z(PASTUREQUILL_STAR + 1, 1, 65535, 65535)),

    /* what must be zero */
    CASE(NOT_ZERO, 0, "the zero byte", Z(PASTUREQUILL_TRUE, 1, 0, 0)),
    CASE(NOT_ZERO, 0, "a constant's field a", K(FALSE, 1, 0)),
    CASE(NOT_ZERO, 0, "a constant's field b", K(TRUE, 0, 1)),
    CASE(NOT_ZERO, 0, "the high byte of an unused field", K(TRUE, 0, 256)),
    CASE(NOT_ZERO, 1, "an atom's field b", K(ATOM, 0, 1)),
    CASE(NOT_ZERO, 1, "an atom's field b, high byte", K(ATOM, 0, 256)),
    CASE(NOT_ZERO, 0, "a step's field a", K(STEP, 1, 0), TRUE_, DIAMOND(0, 1)),
    CASE(NOT_ZERO, 0, "a back step's field b", K(BACK, 0, 1), TRUE_, DIAMOND(0, 1)),
    CASE(NOT_ZERO, 0, "a test's field b", TRUE_, K(TEST, 0, 1), TRUE_, DIAMOND(1, 2)),
    CASE(NOT_ZERO, 0, "a star's field b", STEP, K(STAR, 0, 1), TRUE_, DIAMOND(1, 2)),

    /* the child's place */
    CASE(LATE_CHILD, 0, "a test of itself", TEST(0)),
    CASE(LATE_CHILD, 0, "a later child", TEST(1), TRUE_, DIAMOND(0, 1)),
    CASE(LATE_CHILD, 0, "a diamond's second field", STEP, DIAMOND(0, 1)),
    CASE(LATE_CHILD, 0, "a field of 256, whose low byte is an earlier record", STEP, TRUE_, DIAMOND(256, 1)),
    CASE(LATE_CHILD, 0, "a field of 65535", STEP, TRUE_, BOX(0, 65535)),
    CASE(LATE_CHILD, 0, "a child past the end", STEP, TRUE_, DIAMOND(0, 3)),
    CASE(LATE_CHILD, 0, "a choice of itself", STEP, CHOICE(0, 1), TRUE_, DIAMOND(1, 2)),

    /* the atom */
    CASE(NO_SUCH_ATOM, 0, "an atom where there are none", ATOM(0)),
    CASE(NO_SUCH_ATOM, 2, "the first atom past the last", ATOM(2)),
    CASE(NO_SUCH_ATOM, 32, "atom 32 of 32", ATOM(32)),
    CASE(NO_SUCH_ATOM, 32, "atom 256, whose low byte is 0", ATOM(256)),

    /* the sort */
    CASE(WRONG_SORT, 0, "a lone step", STEP),
    CASE(WRONG_SORT, 0, "a lone test", TRUE_, TEST(0)),
    CASE(WRONG_SORT, 0, "a diamond's path that is a formula", TRUE_, TRUE_, DIAMOND(0, 1)),
    CASE(WRONG_SORT, 0, "a box's formula that is a path", STEP, STEP, BOX(0, 1)),
    CASE(WRONG_SORT, 0, "a test of a path", STEP, TEST(0), TRUE_, DIAMOND(1, 2)),
    CASE(WRONG_SORT, 0, "a choice's first arm", TRUE_, STEP, CHOICE(0, 1), TRUE_, DIAMOND(2, 3)),
    CASE(WRONG_SORT, 0, "a choice's second arm", STEP, TRUE_, CHOICE(0, 1), TRUE_, DIAMOND(2, 3)),
    CASE(WRONG_SORT, 0, "a sequence's second part", STEP, TRUE_, SEQUENCE(0, 1), TRUE_, DIAMOND(2, 3)),
    CASE(WRONG_SORT, 0, "a star of a formula", TRUE_, STAR(0), TRUE_, DIAMOND(1, 2)),
    CASE(WRONG_SORT, 0, "an earlier record's sort before a later record's kind", STEP, TEST(0), R(UINT8_MAX, 0, 0)),
    CASE(WRONG_SORT, 0, "the last record's sort before the tree", TRUE_, STEP),

    /* the tree */
    CASE(NOT_A_TREE, 0, "a record that nothing names", TRUE_, TRUE_),
    CASE(NOT_A_TREE, 0, "a path that nothing names", STEP, TRUE_),
    CASE(NOT_A_TREE, 0, "the same record as both arms of a choice", STEP, CHOICE(0, 0), TRUE_, DIAMOND(1, 2)),
    CASE(NOT_A_TREE, 0, "the same record in a sequence twice", STEP, SEQUENCE(0, 0), TRUE_, DIAMOND(1, 2)),
    CASE(NOT_A_TREE, 0, "one record under two parents", STEP, TRUE_, DIAMOND(0, 1), TEST(2), DIAMOND(3, 1)),
    CASE(NOT_A_TREE, 0, "one named three times", STEP, SEQUENCE(0, 0), SEQUENCE(1, 0), TRUE_, DIAMOND(2, 3)),
};

/* What those refuse that take core kinds alone. */
static const struct records_case not_core[] = {
    CASE(UNKNOWN_KIND, 2, "the first shorthand", ATOM(0), K(NOT, 0, 0)),
    CASE(UNKNOWN_KIND, 2, "the last shorthand", ATOM(0), ATOM(1), K(SINCE, 0, 1)),
};

/* All cases of these tables. */
static inline void expect_faulty(expect_records *expect) { expect_each(faulty, END(faulty), expect); }
static inline void expect_shorthands_refused(expect_records *expect) { expect_each(not_core, END(not_core), expect); }

#endif
