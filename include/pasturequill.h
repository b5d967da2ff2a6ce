/* Pasturequill: rules of conduct for robots.
 *
 * A formula is a run of six-byte records: kind, a zero byte, field a and field b (two bytes each, low byte first). A
 * child's record stands before its parent's; the last record is the whole formula. "Eventually p", over the plan in
 * which p holds at the third of three instants:
 *
 *     #include <stdio.h>
 *     #include "pasturequill.h"
 *
 *     int main(void)
 *     {
 *         static const uint8_t eventually[] = {
 *             PASTUREQUILL_STEP,    0, 0, 0, 0, 0,    // 0: step
 *             PASTUREQUILL_STAR,    0, 0, 0, 0, 0,    // 1: step*
 *             PASTUREQUILL_ATOM,    0, 0, 0, 0, 0,    // 2: p
 *             PASTUREQUILL_DIAMOND, 0, 1, 0, 2, 0,    // 3: <step*>p
 *         };
 *         static const uint8_t plan[] = {0, 0, 2};
 *         uint8_t table[4 * 3];
 *         pasturequill_valued v = pasturequill_value(eventually, sizeof eventually, 1, 3, plan, sizeof plan, table, sizeof table);
 *         printf("%d %d\n", v.refusal, v.value);      // 0 2
 *     }
 *
 * examples/planner.c is a small planner. Link with libpasturequill.a.
 *
 * Every function takes any bytes, lengths and numbers and gives an answer. A slice is a pointer and the number of its
 * elements, which must be readable (writable, where the pointer is not const); where the number is 0 the pointer is not
 * read. An output must not overlap an input or another output. There is no state, so calls may run side by side. A call
 * takes at most 1.1 MiB of stack: valuing a formula of 255 records, stars inside stars. What each function answers is
 * proved for all inputs: crates/pasturequill states it by the definitions in crates/meaning. */
#ifndef PASTUREQUILL_H
#define PASTUREQUILL_H

#include <stddef.h>
#include <stdint.h>

#ifdef __cplusplus
extern "C" {
#endif

/* The number of the last change request that is in this edition. */
enum { PASTUREQUILL_EDITION = 2 };

/* ---- a record's bytes: where its kind is, its zero byte, and the low bytes of its fields, whose high bytes follow */
enum { PASTUREQUILL_KIND = 0, PASTUREQUILL_ZERO = 1, PASTUREQUILL_FIELD_A = 2, PASTUREQUILL_FIELD_B = 4 };

/* ---- sizes */
enum {
    PASTUREQUILL_RECORD_SIZE = 6,    /* bytes of one record */
    PASTUREQUILL_MOST_RECORDS = 255, /* records of one formula */
    PASTUREQUILL_MOST_RECORD_BYTES = PASTUREQUILL_RECORD_SIZE * PASTUREQUILL_MOST_RECORDS,
    PASTUREQUILL_MOST_TEXT = 1530,   /* bytes of one formula as text that are read; none that is written has more */
    PASTUREQUILL_MOST_ATOMS = 32,
    PASTUREQUILL_MOST_INSTANTS = 32,
    PASTUREQUILL_RULE_SIZE = 6,     /* words of one rule */
    PASTUREQUILL_MOST_RULES = 1021, /* rules of one list: a formula has at most four for each record, and one */
    PASTUREQUILL_MOST_RULE_WORDS = PASTUREQUILL_RULE_SIZE * PASTUREQUILL_MOST_RULES,
    PASTUREQUILL_MOST_COLUMNS = 287 /* cells of a row of a filled trace: one for each atom and each record */
};

/* ---- kinds: F is a formula, P a path; what fields a and b hold follows, and a field that holds nothing is zero */
enum {
    PASTUREQUILL_FALSE = 0,    /* F */
    PASTUREQUILL_TRUE = 1,     /* F */
    PASTUREQUILL_ATOM = 2,     /* F: a the atom's number */
    PASTUREQUILL_DIAMOND = 3,  /* F: a a path, b a formula */
    PASTUREQUILL_BOX = 4,      /* F: a a path, b a formula */
    PASTUREQUILL_STEP = 5,     /* P */
    PASTUREQUILL_BACK = 6,     /* P */
    PASTUREQUILL_TEST = 7,     /* P: a a formula */
    PASTUREQUILL_CHOICE = 8,   /* P: a and b paths */
    PASTUREQUILL_SEQUENCE = 9, /* P: a and b paths */
    PASTUREQUILL_STAR = 10,    /* P: a a path */

    /* shorthands, which only expanding takes */
    PASTUREQUILL_NOT = 32,           /* F: a a formula */
    PASTUREQUILL_AND = 33,           /* F: a and b formulas */
    PASTUREQUILL_OR = 34,            /* F: a and b formulas */
    PASTUREQUILL_IMPLIES = 35,       /* F: a and b formulas */
    PASTUREQUILL_FINAL = 36,         /* F */
    PASTUREQUILL_INITIAL = 37,       /* F */
    PASTUREQUILL_NEXT = 38,          /* F: a a formula */
    PASTUREQUILL_WEAK_NEXT = 39,     /* F: a a formula */
    PASTUREQUILL_PREVIOUS = 40,      /* F: a a formula */
    PASTUREQUILL_WEAK_PREVIOUS = 41, /* F: a a formula */
    PASTUREQUILL_EVENTUALLY = 42,    /* F: a a formula */
    PASTUREQUILL_ALWAYS = 43,        /* F: a a formula */
    PASTUREQUILL_ONCE = 44,          /* F: a a formula */
    PASTUREQUILL_SO_FAR = 45,        /* F: a a formula */
    PASTUREQUILL_UNTIL = 46,         /* F: a and b formulas */
    PASTUREQUILL_SINCE = 47          /* F: a and b formulas */
};

/* ---- refusals: the number that is given back where an input is not accepted. The most of each is under sizes. */
enum {
    PASTUREQUILL_ACCEPTED = 0,
    PASTUREQUILL_WRONG_LENGTH = 1, /* no record bytes, a part of a record, or too many records */
    PASTUREQUILL_UNKNOWN_KIND = 2, /* a kind that the service does not take */
    PASTUREQUILL_NOT_ZERO = 3,     /* the zero byte or an unused field is not zero */
    PASTUREQUILL_LATE_CHILD = 4,   /* a child is not earlier than its parent */
    PASTUREQUILL_NO_SUCH_ATOM = 5, /* an atom's number is not below the number of atoms */
    PASTUREQUILL_WRONG_SORT = 6,   /* a formula in a path's place or a path in a formula's; the last record is a path */
    PASTUREQUILL_NOT_A_TREE = 7,   /* a record before the last is the child of no place or of several */
    PASTUREQUILL_WRONG_SIZE = 8,   /* too many atoms, columns or instants; no instants; cells that do not fit these */
    PASTUREQUILL_WRONG_CELL = 9,   /* a cell over 2 */
    PASTUREQUILL_NO_ROOM = 10,     /* output shorter than needed */
    PASTUREQUILL_STAR_STANDS = 11, /* a star's body may stand still (translating only) */
    PASTUREQUILL_STAR_TURNS = 12,  /* a star's body has step and back step (translating only) */
    PASTUREQUILL_WRONG_RULES = 13, /* a part of a rule, too many rules, no such place or symbol, a mark out of place */
    PASTUREQUILL_TOO_LONG = 14,    /* a formula that comes out has too many records, or its text too many bytes */
    PASTUREQUILL_NO_SIGN = 18,     /* a back step, which text has no sign for (writing text only) */
    PASTUREQUILL_NOT_THE_FORM = 19 /* text that is not a formula in the one form (reading text only) */
};

/* Whether the bytes are the records of a formula over so many atoms, numbered from 0.
 *   records, records_size   any bytes
 *   atoms                   any number; 0 to 32 are taken
 * Gives 0, or the first of these that applies: 1; 8; for each record from the first 2, 3, 4, 5, 6; 6 for the last
 * record; 7. */
uint8_t pasturequill_check(const uint8_t *records, size_t records_size, uint64_t atoms);

/* ---- expand
 * Writes shorthands out, so that the other services take the formula: not F is [F?]false; F and G <F?>G; F or G
 * <F? + G?>true; F implies G [F?]G; final [step]false; initial [back]false; next <step>F, weak next [step]F, previous
 * <back>F, weak previous [back]F; eventually <step*>F, always [step*]F, once <back*>F, so far [back*]F; F until G
 * <(F? ; step)*>G; F since G <(F? ; back)*>G. */
typedef struct {
    uint8_t refusal; /* 0, or the number of the first refusal that applies */
    uint64_t count;  /* how many were written: records by expand and read_text, bytes by write_text, rules by
                        translate; 0 on a refusal */
} pasturequill_counted;

/* The records of a formula in core kinds, in postorder: those of a, those of b, then the parent.
 *   records, records_size   any bytes; core kinds and shorthands are taken
 *   atoms                   any number; 0 to 32 are taken
 *   out, out_size           the records are written at its start, the rest stays; on a refusal all stays
 * Gives the first refusal that applies: 1; 8; for each record from the first 2, 3, 4, 5, 6; 6 for the last record; 7;
 * 14; 10. */
pasturequill_counted pasturequill_expand(const uint8_t *records, size_t records_size, uint64_t atoms, uint8_t *out,
                                         size_t out_size);

/* ---- text
 * A formula in the signs of telingo, in one form: without blanks, and in round brackets exactly where these are here.
 *     F   #false   #true   p0 to p31, the atoms   (P.>?F) a diamond   (P.>*F) a box
 *     P   &t the step   ?F a test   *P a star   (P+P) a choice   (P;P) a sequence
 * An atom's number has no leading zeros. A back step has no sign. <(p0?;step)*>p1 is (*(?p0;&t).>?p1). A formula that
 * was written is read as the same tree, its records in postorder; one that was read is written as the same bytes. */

/* The text of a formula, without a zero at its end.
 *   records, records_size   any bytes
 *   atoms                   any number; 0 to 32 are taken
 *   text, text_size         the text is written at its start, the rest stays; on a refusal all stays
 * Gives the first refusal that applies: 1; 8; for each record from the first 2, 3, 4, 5, 6; 6 for the last record; 7;
 * 18; 10. */
pasturequill_counted pasturequill_write_text(const uint8_t *records, size_t records_size, uint64_t atoms,
                                             uint8_t *text, size_t text_size);

/* The records of the formula that a text is, in postorder: those of a, those of b, then the parent.
 *   text, text_size         any bytes; all of them must be the formula
 *   atoms                   any number; 0 to 32 are taken
 *   records, records_size   the records are written at its start, the rest stays; on a refusal all stays
 * Gives the first refusal that applies: 8; 14 for over 1,530 bytes; 19; 14 for over 255 records; 5; 10. */
pasturequill_counted pasturequill_read_text(const uint8_t *text, size_t text_size, uint64_t atoms, uint8_t *records,
                                            size_t records_size);

/* ---- value
 * A trace has instants 1 to 32, and a row of `atoms` cells for each: 0 false, 1 true there only, 2 true here. The table
 * gets a row of `instants` bytes for each record: a formula's values at each instant, 0 for a path. */
typedef struct {
    uint8_t refusal; /* 0, or the number of the first refusal that applies */
    uint8_t value;   /* the whole formula's value at the first instant; 0 on a refusal */
} pasturequill_valued;

/* The values of a formula over a trace.
 *   records, records_size   any bytes
 *   atoms, instants         any numbers; 0 to 32 atoms and 1 to 32 instants are taken
 *   cells, cells_size       any bytes; atoms times instants cells of 0 to 2 are taken, rows in order
 *   table, table_size       records times instants bytes are written at its start, the rest stays; on a refusal all
 *                           stays
 * Gives the first refusal that applies: 1; 8; for each record from the first 2, 3, 4, 5, 6; 6 for the last record; 7;
 * 9; 10. */
pasturequill_valued pasturequill_value(const uint8_t *records, size_t records_size, uint64_t atoms, uint64_t instants,
                                       const uint8_t *cells, size_t cells_size, uint8_t *table, size_t table_size);

/* ---- rules
 * A rule is six words: its place, two literals of its body, three of its head. It holds at an instant if the least
 * value of the body implies the greatest of the head. Where a rule needs fewer literals, the last ones of the body are
 * true and those of the head false. */

/* Places: at which instants a rule is to hold. */
enum {
    PASTUREQUILL_AT_EVERY = 0, /* at every instant */
    PASTUREQUILL_AT_FIRST = 1, /* at the first */
    PASTUREQUILL_AT_LATER = 2, /* at all but the first */
    PASTUREQUILL_AT_LAST = 3   /* at the last */
};

/* Symbols: the constants, and the columns of a filled trace. The atoms are the first columns. */
enum {
    PASTUREQUILL_SYMBOL_FALSE = 0,
    PASTUREQUILL_SYMBOL_TRUE = 1,
    PASTUREQUILL_SYMBOL_COLUMN = 2 /* column 0; column i is this plus i */
};

/* A literal is a symbol, to which either mark may be added, or both. */
enum {
    PASTUREQUILL_MARK_PREVIOUS = 16384, /* its value at the previous instant; only in rules of PASTUREQUILL_AT_LATER */
    PASTUREQUILL_MARK_NOT = 32768       /* its negation: 2 where the value is 0, else 0 */
};

/* ---- translate
 * Rules over the atoms and one label for each record: the labels are the columns after the atoms, in the order of the
 * records. Without the last rule, one filling of the labels meets the rules over any trace, and in it each formula's
 * label has that formula's value; the last rule asserts the whole formula at the first instant. */

/* The rules of a formula.
 *   records, records_size   any bytes
 *   atoms                   any number; 0 to 32 are taken
 *   rules, rules_size       rules_size counts words; the rules are written at its start, the rest stays; on a refusal
 *                           all stays
 * Gives the first refusal that applies: 1; 8; for each record from the first 2, 3, 4, 5, 6; 6 for the last record; 7;
 * for each star from the first 12, 11; 10. */
pasturequill_counted pasturequill_translate(const uint8_t *records, size_t records_size, uint64_t atoms,
                                            uint16_t *rules, size_t rules_size);

/* ---- judge */
typedef struct {
    uint8_t refusal;  /* 0, or the number of the first refusal that applies */
    uint8_t holds;    /* 1 if every rule holds at all its instants; 0 if not, and on a refusal */
    uint64_t rule;    /* the first rule that fails, from 0; 0 if none does */
    uint64_t instant; /* its first failing instant */
} pasturequill_judged;

/* Whether all rules hold over a filled trace.
 *   rules, rules_size    any words, rules_size counts them; up to 1,021 rules are taken, none is a yes
 *   width, instants      any numbers; 0 to 287 columns and 1 to 32 instants are taken
 *   cells, cells_size    any bytes; width times instants cells of 0 to 2 are taken, rows in order
 * Gives the first refusal that applies: 8; 13; 9. */
pasturequill_judged pasturequill_judge(const uint16_t *rules, size_t rules_size, uint64_t width, uint64_t instants,
                                       const uint8_t *cells, size_t cells_size);

#ifdef __cplusplus
}
#endif

#endif
