/* Differential trials: the library, called as C calls it, against the twin.
 *
 * reader.c    lists, random and damaged
 * sets.c      sets handed over as records
 * planner.c   plans in areas of every room
 * play.c      a start, and plays of many ticks under the observer's eyes
 * tick.c      single ticks of any state, table and reports
 * common.c    what several of them use
 * main.c      seeds, counting, and making a found input smaller
 *
 * The byte strings of docs/STATE.md are read and written by tests/boundary/bytes.c.
 */
#ifndef TRIALS_H
#define TRIALS_H

#include "bytes.h"
#include "gen.h"
#include "kiluvsaat.h"
#include "twin.h"

/* One kind of trial. An input is made from a seed alone, so the seed repeats it. */
struct part {
    const char *name;
    const char *unit; /* what `weight` counts */
    size_t input_size;
    void (*make)(struct gen *gen, void *input);
    /* What differs between library and twin; NULL for nothing. */
    const char *(*difference)(const void *input);
    /* Makes the input smaller in one of the ways from 0 up. False beyond the last way; a
     * way that has nothing to take leaves the input as it is. */
    bool (*reduce)(void *input, size_t way);
    void (*show)(const void *input);
    size_t (*weight)(const void *input);
};

extern const struct part reader_part;
extern const struct part sets_part;
extern const struct part planner_part;
extern const struct part start_part;
extern const struct part play_part;
extern const struct part tick_part;

/* ---- sets ---- */

/* The refusal of a set string, whatever its length. */
uint8_t string_refusal(const uint8_t *bytes, size_t length);

/* An admissible set of one of the three admissible kinds. */
struct twin_set admissible_set(struct gen *gen);

/* One with its first schedule; false if none was found. The table needs GEN_MAX_TABLE. */
bool feasible_set(struct gen *gen, struct twin_set *set, uint8_t *table);

bool is_schedule(const struct twin_set *set, const uint8_t *table, size_t length);

/* For calls of the twin: lent buffers that are long enough. */
extern const struct twin_lent roomy;

/* ---- bytes ---- */

void any_fill(struct gen *gen, void *bytes, size_t count);
bool all_are(const uint8_t *bytes, size_t count, uint8_t value);

/* ---- making a set smaller ---- */

/* The set without that task; later ones move down. */
void remove_task(struct twin_set *set, unsigned task);

/* Each task away, its last step away, each of its numbers halved or one less. */
enum {
    NUMBERS_OF_A_TASK = 2 + TWIN_MAX_SEGMENTS,
    WAYS_OF_A_SET = TWIN_MAX_TASKS * (2 + 2 * NUMBERS_OF_A_TASK)
};
void reduce_set(struct twin_set *set, size_t way);

/* A table without a task's slots, for the tasks that are left; returns its new length.
 * What was a schedule remains one. */
size_t table_without(const struct twin_set *left, unsigned task, uint8_t *table,
                     size_t length);

/* ---- showing ---- */

void show_bytes(const char *name, const uint8_t *bytes, size_t count);
/* The tasks as lines of a list. */
void show_set(const struct twin_set *set);
/* A table as the program writes it; entries that are no task or idle as `?`. */
void show_table(const uint8_t *table, size_t length);

#endif
