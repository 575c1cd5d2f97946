/* The twin: the rules of document 01 (01-scope.md) written a second time, from that
 * document alone, to be compared with the verified project.
 *
 * reader.c    lists of tasks, and the judgement of a task set
 * planner.c   jobs, the search for a schedule, the planner's reply
 * player.c    the player's state, its start and its tick
 * observer.c  what a controller may expect of a player (condition 3)
 * plan_text.c what the program `plan` writes
 */
#ifndef TWIN_H
#define TWIN_H

#include <stdbool.h>
#include <stddef.h>
#include <stdint.h>

enum {
    TWIN_MAX_TASKS = 8,
    TWIN_MAX_STEPS = 4,
    TWIN_MAX_SEGMENTS = 7, /* four steps and the three waits between them */
    TWIN_MAX_FIELDS = 9,   /* of a list line: period, deadline, segments */
    TWIN_MAX_TIME = 4096,  /* of a period, a deadline and the hyper-period */
    TWIN_MAX_UNITS = 255,  /* of one step or wait */
    TWIN_MAX_LIST = 4096,  /* bytes */
    TWIN_MAX_RECORD = 9,   /* numbers: the slot and eight progresses */
    TWIN_IDLE = 255,       /* in a table, and as a runner */
    TWIN_PLAN_AREA = 24000 /* numbers lent by the program `plan` */
};

/* The document's refusal numbers. */
enum twin_refusal {
    TWIN_ACCEPTED = 0,
    TWIN_LONG_LIST = 1,
    TWIN_BAD_SHAPE = 2,
    TWIN_BAD_NUMBER = 3,
    TWIN_LATE_DEADLINE = 4,
    TWIN_BAD_COUNT = 5,
    TWIN_LONG_HYPER_PERIOD = 6,
    TWIN_SHORT_TABLE = 7,
    TWIN_SHORT_BUFFER = 8,
    TWIN_BAD_STATE = 10,
    TWIN_BAD_REPORT_COUNT = 11,
    TWIN_BAD_TABLE = 12
};

/* A task as a record: every field may hold anything until it is judged. */
struct twin_task {
    uint16_t period;
    uint16_t deadline;
    uint8_t steps;
    uint8_t pattern[TWIN_MAX_SEGMENTS]; /* step, wait, step, .. */
};

struct twin_set {
    uint8_t count;
    struct twin_task tasks[TWIN_MAX_TASKS];
};

/* ---- reader.c ---- */

struct twin_read_reply {
    uint8_t refusal;
    size_t line;        /* counted from 1; 0 where no line is shown */
    size_t shown_start; /* the shown part of the list */
    size_t shown_length;
    struct twin_set set; /* all zero on a refusal; unused entries zero */
};

struct twin_read_reply twin_read(const uint8_t *list, size_t length);

/* The refusal of a set handed over as a record. Entries not in use are ignored. */
uint8_t twin_set_refusal(const struct twin_set *set);

/* The least common multiple of the periods (none may be 0). Above TWIN_MAX_TIME the
 * result is only some number above it, as the true one may not fit 64 bits. */
uint64_t twin_hyper_period(const struct twin_set *set);

/* The set with zeros in all entries that are not in use. Only for a valid set. */
struct twin_set twin_set_in_use(const struct twin_set *set);

/* ---- planner.c: jobs ---- */

/* One job: the segment of the pattern it is in, and the time it has. */
struct twin_job {
    uint8_t segment;    /* even: a step; odd: a wait; past the last one: done */
    uint8_t units_left; /* in that segment; 0 when done */
    uint32_t release;
    uint32_t deadline; /* on the same clock as the release */
};

unsigned twin_segment_count(const struct twin_task *task);
unsigned twin_length(const struct twin_task *task);

/* The job that has passed `progress` units (at most the length) by time `now`. */
struct twin_job twin_job_at(const struct twin_task *task, uint32_t now, unsigned progress);
unsigned twin_job_progress(const struct twin_task *task, const struct twin_job *job);

/* Done, or still able to finish by the deadline if it is never held up (laxity >= 0). */
bool twin_job_in_time(const struct twin_task *task, const struct twin_job *job,
                      uint32_t now);

/* The jobs at time 0; false if that position isn't live. */
bool twin_jobs_at_start(const struct twin_set *set, struct twin_job *jobs);

/* Passes the slot with that choice. False if the choice isn't allowed or doesn't lead to
 * a live position; `next` is then of no use. */
bool twin_jobs_pass_slot(const struct twin_set *set, uint32_t slot,
                         const struct twin_job *jobs, uint8_t choice,
                         struct twin_job *next);

/* ---- planner.c: the search ---- */

enum twin_outcome {
    TWIN_SCHEDULE,
    TWIN_INFEASIBLE,
    TWIN_OUT_OF_ROOM
};

/* A hash set of positions, which also keeps them in the order they were found. */
struct twin_positions {
    unsigned width;    /* numbers in a record */
    size_t count;      /* records held */
    size_t capacity;   /* records that fit `numbers` */
    uint16_t *numbers; /* the records, one after the other */
    size_t *buckets;   /* 0, or 1 + the index of a record */
    size_t bucket_count;
};

/* What a search finds, whatever the room. With more than `cap` dead positions the outcome
 * is TWIN_OUT_OF_ROOM and only the first `cap` found are held. */
struct twin_search {
    enum twin_outcome outcome;
    uint32_t hyper_period;
    uint8_t table[TWIN_MAX_TIME]; /* the first schedule, if that is the outcome */
    struct twin_positions dead;   /* the dead positions that precede the reply */
};

/* Only for a valid set. To be released with twin_search_free. */
void twin_search_run(const struct twin_set *set, size_t cap, struct twin_search *search);
void twin_search_free(struct twin_search *search);

/* The dead positions found: `*count` records of n + 1 numbers each. */
const uint16_t *twin_dead_list(const struct twin_search *search, size_t *count);

/* Are the first `count` records of an area distinct, and all in the dead list? With more
 * dead positions than the cap the list isn't whole, so that "no" then proves nothing. */
bool twin_area_holds_dead(const struct twin_search *search, const uint16_t *area,
                          size_t count);

struct twin_plan_reply {
    uint8_t refusal;
    enum twin_outcome outcome; /* of no meaning on a refusal, like the count */
    size_t count;
};

/* The planner's reply for a room of at most the search's cap. */
struct twin_plan_reply twin_reply_for_room(const struct twin_search *search, size_t room);

struct twin_plan_reply twin_plan(const struct twin_set *set, uint8_t *table,
                                 size_t table_length, uint16_t *area, size_t area_length);

/* ---- player.c ---- */

enum twin_standing {
    TWIN_READY = 0,
    TWIN_WAITING = 1,
    TWIN_DONE = 2,
    TWIN_STOPPED = 3
};

/* Causes of a stop, and the fault bytes of a tick. */
enum twin_fault {
    TWIN_NO_FAULT = 0,
    TWIN_OVERRUN = 1,
    TWIN_LATE = 2,
    TWIN_FALSE_REPORT = 3
};

enum twin_report {
    TWIN_NOTHING = 0,
    TWIN_STEP_FINISHED = 1,
    TWIN_WAIT_ENDED = 2
};

/* How one task stands; parts not in use are zero. */
struct twin_progress {
    uint8_t standing; /* enum twin_standing */
    uint8_t cause;    /* enum twin_fault, if stopped */
    uint8_t step;     /* from 0: of a ready task, or the one a waiting task finished */
    uint8_t given;    /* slots given in that step, if ready */
};

struct twin_state {
    struct twin_set set;
    uint16_t slot;
    uint16_t planned[TWIN_MAX_TASKS]; /* progress in the plan */
    struct twin_progress tasks[TWIN_MAX_TASKS];
    uint8_t last; /* who ran last, TWIN_IDLE for nobody */
};

/* The lent buffers, for refusal 8. How long a state string is belongs to the project's own
 * layout, so the caller says it. */
struct twin_lent {
    size_t state_needed;
    size_t state_length;
    size_t faults_length; /* not looked at by a start */
};

struct twin_tick_reply {
    uint8_t runner;
    uint8_t faults[TWIN_MAX_TASKS]; /* zero beyond the tasks */
    struct twin_state state;
};

/* 0, or 10 if the state isn't of the stated form. */
uint8_t twin_form(const struct twin_state *state);

/* Both return the refusal; on a refusal nothing is written. */
uint8_t twin_start(const struct twin_set *set, const uint8_t *table, size_t table_length,
                   const struct twin_lent *lent, struct twin_state *state);
uint8_t twin_tick(const struct twin_state *state, const uint8_t *reports,
                  size_t report_count, const uint8_t *table, size_t table_length,
                  const struct twin_lent *lent, struct twin_tick_reply *reply);

/* ---- observer.c ---- */

/* What the observer may find wrong with a player. */
enum twin_finding {
    TWIN_NOTHING_WRONG,
    TWIN_KEEPER_UNFINISHED, /* a keeping job not finished by its deadline */
    TWIN_KEEPER_FAULTED,    /* a fault for a keeping and quiet job */
    TWIN_UNKNOWN_FAULT,     /* a fault byte above 3 */
    TWIN_NOT_THE_OWNER,     /* a runner the table doesn't give this slot to */
    TWIN_SLOT_WHILE_WAITING,
    TWIN_SLOT_AFTER_FINISH,
    TWIN_SLOT_AFTER_STOP,
    TWIN_SLOT_BEYOND_STEP /* more slots in a step than written */
};

/* One job as a controller sees it. */
struct twin_seen_job {
    uint64_t release;
    uint64_t waited; /* slots of this wait that have ended */
    unsigned got;    /* slots in this step */
    uint8_t step;    /* from 0; of a waiting job the one it finished */
    bool waiting;
    bool finished;
    bool stopped; /* by a false report, an overrun or a fault that was shown */
    bool keeping; /* its reports keep within its pattern so far */
    bool quiet;   /* no report after its finish */
};

struct twin_observer {
    struct twin_set set;
    uint32_t hyper_period;
    const uint8_t *table;
    uint64_t now; /* the tick to come */
    uint8_t last_runner;
    struct twin_seen_job jobs[TWIN_MAX_TASKS];
};

/* Begins together with a start. The table must live as long as the observer. */
void twin_observer_begin(struct twin_observer *observer, const struct twin_set *set,
                         const uint8_t *table);

/* Looks at one tick: the reports that went in, the runner and the faults that came out. */
enum twin_finding twin_observe(struct twin_observer *observer, const uint8_t *reports,
                               uint8_t runner, const uint8_t *faults);

/* ---- plan_text.c ---- */

/* Enough for every text: a line of words, 4,096 slots and their line feeds. */
enum {
    TWIN_MAX_TEXT = 4352
};

/* What `plan` writes for the list. Returns the text's length; writes nothing if it doesn't
 * fit the capacity. */
size_t twin_text(const uint8_t *list, size_t length, char *out, size_t capacity);

#endif
