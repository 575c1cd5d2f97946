/* Seeded generators for tests that compare the twin with the project. Users print the seed
 * they give, so that every run can be repeated. */
#ifndef TWIN_GEN_H
#define TWIN_GEN_H

#include "twin.h"

struct gen {
    uint64_t x; /* never 0 */
};

void gen_seed(struct gen *gen, uint64_t seed);
uint64_t gen_next(struct gen *gen);
/* A number from 0 up to, not including, the bound (at least 1). */
uint32_t gen_below(struct gen *gen, uint32_t bound);
/* A number from the lowest to the highest, both included. */
uint32_t gen_from_to(struct gen *gen, uint32_t lowest, uint32_t highest);
/* True in that many of a hundred cases. */
bool gen_chance(struct gen *gen, unsigned in_hundred);

/* ---- sets ---- */

enum gen_set_kind {
    GEN_SET_SMALL,   /* admissible, short hyper-period, often feasible */
    GEN_SET_TIGHT,   /* admissible, any deadlines and patterns, so that L may exceed D */
    GEN_SET_LARGE,   /* admissible, numbers at and near their upper bounds */
    GEN_SET_NEAR,    /* admissible but for one field, which lies just beside its bounds */
    GEN_SET_GARBAGE, /* any bytes, counts mostly within their bounds */
    GEN_SET_KINDS
};

/* Entries not in use are zero, except in garbage. */
struct twin_set gen_set(struct gen *gen, enum gen_set_kind kind);

/* Fills the entries that are not in use with any bytes. Only for a valid set. */
void gen_litter(struct gen *gen, struct twin_set *set);

/* ---- lists ---- */

enum {
    GEN_MAX_LIST = 8192
};

enum gen_list_kind {
    GEN_LIST_GOOD,    /* an admissible set with comments, gaps and leading zeros */
    GEN_LIST_TINY,    /* up to eight bytes */
    GEN_LIST_BOUNDS,  /* any number of lines and fields, numbers at every bound */
    GEN_LIST_CUT,     /* a good list cut anywhere */
    GEN_LIST_DAMAGED, /* a good list with some bytes replaced, added or taken away */
    GEN_LIST_LONG,    /* up to, at and beyond 4,096 bytes, good or damaged */
    GEN_LIST_BYTES,   /* any bytes */
    GEN_LIST_KINDS
};

/* All lists need GEN_MAX_LIST bytes of space; the length is returned. */
size_t gen_list(struct gen *gen, enum gen_list_kind kind, uint8_t *list);

/* The set as a list, with comments, blank lines, gaps and leading zeros. */
size_t gen_list_of_set(struct gen *gen, const struct twin_set *set, uint8_t *list);

/* Puts that byte somewhere into the list, in the place of another or between two;
 * returns the new length. For tests that go through every value. */
size_t gen_put_byte(struct gen *gen, uint8_t *list, size_t length, uint8_t byte);

/* ---- tables ---- */

enum {
    GEN_MAX_TABLE = TWIN_MAX_TIME + 8
};

enum gen_table_kind {
    GEN_TABLE_GOOD,    /* the first schedule, or idle slots where none is found */
    GEN_TABLE_DAMAGED, /* a good one with entries changed or swapped, or another length */
    GEN_TABLE_GARBAGE, /* any owners, idle slots and other bytes */
    GEN_TABLE_KINDS
};

/* For a valid set. Needs GEN_MAX_TABLE bytes of space; the length is returned. */
size_t gen_table(struct gen *gen, enum gen_table_kind kind, const struct twin_set *set,
                 uint8_t *table);

/* ---- reports ---- */

enum gen_report_kind {
    GEN_REPORT_EXACT,   /* every step and wait takes all its slots */
    GEN_REPORT_EARLY,   /* steps and waits may take fewer */
    GEN_REPORT_LATE,    /* some steps and waits take too many */
    GEN_REPORT_FALSE,   /* some reports 1 or 2 at the wrong time */
    GEN_REPORT_GARBAGE, /* some reports of any value */
    GEN_REPORT_MIXED,   /* each report of any kind above, most of them compliant */
    GEN_REPORT_KINDS
};

/* One report for each task at the tick the observer waits for. */
void gen_reports(struct gen *gen, enum gen_report_kind kind,
                 const struct twin_observer *observer, uint8_t *reports);

/* ---- states ---- */

enum gen_state_kind {
    GEN_STATE_REACHABLE, /* after a play from the start; needs a schedule */
    GEN_STATE_FORMED,    /* of the stated form, reachable or not */
    GEN_STATE_DAMAGED,   /* of the stated form but for one field */
    GEN_STATE_GARBAGE,   /* any bytes */
    GEN_STATE_KINDS
};

/* For a valid set and its table of length H. False if no state of that kind was found: no
 * schedule to play, or no live position at the slots that were tried. */
bool gen_state(struct gen *gen, enum gen_state_kind kind, const struct twin_set *set,
               const uint8_t *table, struct twin_state *state);

#endif
