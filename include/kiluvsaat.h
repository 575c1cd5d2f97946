/* Kiluvsaat: reads a task list, plans one processor, and follows the plan slot by slot.
 *
 * A task computes, waits for a device, and computes again. A plan gives each slot of a hyper-period to a task or to
 * nobody. In use:
 *
 *   before the first slot   kiluvsaat_read    the list becomes a task set
 *                           kiluvsaat_slots   how long the set's table is
 *                           kiluvsaat_plan    the table: who runs in which slot
 *                           kiluvsaat_start   the first state
 *   at the start of a slot  kiluvsaat_tick    reports on the slot before go in; who runs, faults and the next state come out
 *
 * examples/controller is a whole program. Every function is proved to do what docs/PROMISES.md says, for every input of
 * every length: there is no wrong argument, only a refusal, as long as each pointer and its length are true.
 *
 * Memory. The caller owns each buffer and lends it for one call. No function keeps a pointer, allocates, has memory of
 * its own or needs an operating system, so calls on different buffers may run at the same time. A pointer is never null
 * and is aligned for its type; where its length is 0 it need point to nothing. A buffer that is written overlaps no other
 * buffer of that call. A refusal changes no byte. Any other reply leaves the bytes beyond its own as they were.
 *
 * Lengths count elements: bytes, or the 16-bit numbers of the planner's area.
 *
 * Stack, as tests/boundary measures it: at most 8 KB.
 *
 * Link with -lkiluvsaat (x86-64, System V calls), which needs memcpy, memmove, memset and memcmp at most. The header
 * needs stdint.h and stddef.h alone; C99 or later, or C++11 or later.
 */
#ifndef KILUVSAAT_H
#define KILUVSAAT_H

#include <stddef.h>
#include <stdint.h>

#ifdef __cplusplus
extern "C" {
#endif

/* The version of this header; kiluvsaat_version() gives the library's. */
#define KILUVSAAT_VERSION 1

/* Sizes in bytes, and bounds. */
#define KILUVSAAT_LIST_MAX 4096  /* a longer list is refused */
#define KILUVSAAT_TASKS_MAX 8    /* tasks in a set */
#define KILUVSAAT_SLOTS_MAX 4096 /* slots of a hyper-period */
#define KILUVSAAT_SET_SIZE 97    /* a task set as a byte string, layout in docs/STATE.md */
#define KILUVSAAT_STATE_SIZE 140 /* a player state as a byte string, layout in docs/STATE.md */

/* Nobody: as a slot of a table and as the runner of a tick. Any other value is the task's number less 1. */
#define KILUVSAAT_IDLE 255

/* Refusals. 0 means none. */
#define KILUVSAAT_LIST_TOO_LONG 1     /* list longer than 4,096 bytes */
#define KILUVSAAT_BAD_LINE 2          /* another byte, 5 digits, or another number of fields; in a set, steps outside 1 to 4 */
#define KILUVSAAT_OUT_OF_RANGE 3      /* a number outside its range */
#define KILUVSAAT_DEADLINE_TOO_LATE 4 /* deadline greater than period */
#define KILUVSAAT_TASK_COUNT 5        /* no task, or a ninth; a set string of another length */
#define KILUVSAAT_HYPER_PERIOD 6      /* hyper-period above 4,096 */
#define KILUVSAAT_TABLE_TOO_SHORT 7   /* table lent to the planner shorter than the hyper-period */
#define KILUVSAAT_BUFFER_TOO_SHORT 8  /* buffer lent for the set, the new state or the faults too short */
#define KILUVSAAT_BAD_STATE 10        /* player state not of the stated form, or of another length */
#define KILUVSAAT_REPORT_COUNT 11     /* number of reports differs from number of tasks */
#define KILUVSAAT_BAD_TABLE 12        /* table of another length; at a start, no schedule; at a tick, a bad entry for this slot */

/* Words of kiluvsaat_plan. */
#define KILUVSAAT_SCHEDULE 100    /* the table holds the first schedule */
#define KILUVSAAT_INFEASIBLE 101  /* no schedule exists */
#define KILUVSAAT_OUT_OF_ROOM 102 /* the area is too small to tell */

/* Reports on the slot just ended, one byte for each task. */
#define KILUVSAAT_NOTHING 0       /* nothing to report */
#define KILUVSAAT_STEP_FINISHED 1 /* the task ran, and its computing step is finished */
#define KILUVSAAT_WAIT_ENDED 2    /* the device that the task waits for is ready */

/* Faults of a tick, one byte for each task. A fault stops the task's job; its next release starts a new one. */
#define KILUVSAAT_NO_FAULT 0 /* none */
#define KILUVSAAT_OVERRUN 1  /* the step has used all its slots and is not finished */
#define KILUVSAAT_LATE 2     /* not ready at the slot that the plan gives it */
#define KILUVSAAT_FALSE 3    /* a report that cannot be */

/* The version of the library. */
uint32_t kiluvsaat_version(void);

/* Reads a list. Gives 0 and writes the set to set[0 .. 96], or a refusal: 1 to 6 of the list, then 8 if set_len < 97. */
uint8_t kiluvsaat_read(const uint8_t *list, size_t list_len, uint8_t *set, size_t set_len);

/* Where a refused list is bad: line number * 2^32 + start of the line * 2^16 + its length, in bytes of the list and
 * without the line feed; lines count from 1. 0 where no line is to blame (refusals 1, 6, no task), and for a list that
 * is not refused. */
uint64_t kiluvsaat_refused_line(const uint8_t *list, size_t list_len);
#define KILUVSAAT_LINE(place) ((uint32_t)((place) >> 32))
#define KILUVSAAT_LINE_START(place) ((uint32_t)(((place) >> 16) & 0xffff))
#define KILUVSAAT_LINE_LENGTH(place) ((uint32_t)((place) & 0xffff))

/* The hyper-period of a set: how many slots its table has. 0 for a set that is refused. */
uint16_t kiluvsaat_slots(const uint8_t *set, size_t set_len);

/* Plans a set. Gives KILUVSAAT_SCHEDULE, KILUVSAAT_INFEASIBLE or KILUVSAAT_OUT_OF_ROOM, or a refusal: 2 to 6 of the set,
 * then 7. table[0 .. slots-1] then holds the first schedule (task number less 1, or 255), or 255 throughout.
 * The area is working room for the dead ends of the search: records of tasks + 1 numbers, a slot and each task's
 * progress. *count is how many were found, or at out of room how many the area holds. A larger area changes neither a
 * schedule nor an "infeasible". A refusal leaves *count alone. */
uint8_t kiluvsaat_plan(const uint8_t *set, size_t set_len, uint8_t *table, size_t table_len, uint16_t *area, size_t area_len,
                       uint64_t *count);

/* Starts a player. table_len is the hyper-period exactly, and the table any schedule of the set.
 * Gives 0 and writes the fresh state to state[0 .. 139], or a refusal: 2 to 6 of the set, 12, then 8 if state_len < 140. */
uint8_t kiluvsaat_start(const uint8_t *set, size_t set_len, const uint8_t *table, size_t table_len, uint8_t *state, size_t state_len);

/* One tick, at the start of a slot: takes the reports on the slot just ended and says who runs in this one. The table is
 * the same at every tick. Writes the new state to next[0 .. 139] and a fault byte for each task to faults[0 .. tasks-1].
 * Gives refusal * 256 + runner. Refusals: 10, 11, 12, then 8 if next_len < 140 or faults_len < tasks; runner 255 then. */
uint16_t kiluvsaat_tick(const uint8_t *state, size_t state_len, const uint8_t *table, size_t table_len, const uint8_t *reports,
                        size_t reports_len, uint8_t *next, size_t next_len, uint8_t *faults, size_t faults_len);
#define KILUVSAAT_REFUSAL(ticked) ((uint8_t)((ticked) >> 8))
#define KILUVSAAT_RUNNER(ticked) ((uint8_t)((ticked) & 0xff))

#ifdef __cplusplus
}
#endif

#endif
