/* The planner as a recursive search over jobs, with a hash set of dead positions. */
#include "twin.h"

#include <stdio.h>
#include <stdlib.h>
#include <string.h>

/* ---- jobs ---- */

unsigned twin_segment_count(const struct twin_task *task)
{
    return 2u * task->steps - 1;
}

/* The units of the pattern from that segment on. */
static unsigned units_from(const struct twin_task *task, unsigned segment)
{
    unsigned units = 0;

    for (; segment < twin_segment_count(task); segment++)
        units += task->pattern[segment];
    return units;
}

unsigned twin_length(const struct twin_task *task)
{
    return units_from(task, 0);
}

static bool is_done(const struct twin_task *task, const struct twin_job *job)
{
    return job->segment == twin_segment_count(task);
}

static bool is_ready(const struct twin_task *task, const struct twin_job *job)
{
    return !is_done(task, job) && job->segment % 2 == 0;
}

static bool is_waiting(const struct twin_task *task, const struct twin_job *job)
{
    return !is_done(task, job) && job->segment % 2 == 1;
}

static void enter_segment(const struct twin_task *task, struct twin_job *job,
                          unsigned segment)
{
    job->segment = (uint8_t)segment;
    job->units_left = segment < twin_segment_count(task) ? task->pattern[segment] : 0;
}

static void pass_unit(const struct twin_task *task, struct twin_job *job)
{
    job->units_left--;
    if (job->units_left == 0)
        enter_segment(task, job, job->segment + 1u);
}

static unsigned units_to_go(const struct twin_task *task, const struct twin_job *job)
{
    return is_done(task, job) ? 0 : job->units_left + units_from(task, job->segment + 1u);
}

struct twin_job twin_job_at(const struct twin_task *task, uint32_t now, unsigned progress)
{
    uint32_t release = now - now % task->period;
    struct twin_job job = {.release = release, .deadline = release + task->deadline};
    unsigned segment = 0;

    while (segment < twin_segment_count(task) && progress >= task->pattern[segment])
        progress -= task->pattern[segment++];
    enter_segment(task, &job, segment);
    job.units_left = (uint8_t)(job.units_left - progress);
    return job;
}

unsigned twin_job_progress(const struct twin_task *task, const struct twin_job *job)
{
    return twin_length(task) - units_to_go(task, job);
}

bool twin_job_in_time(const struct twin_task *task, const struct twin_job *job,
                      uint32_t now)
{
    return is_done(task, job) || now + units_to_go(task, job) <= job->deadline;
}

bool twin_jobs_at_start(const struct twin_set *set, struct twin_job *jobs)
{
    for (unsigned i = 0; i < set->count; i++) {
        jobs[i] = twin_job_at(&set->tasks[i], 0, 0);
        if (!twin_job_in_time(&set->tasks[i], &jobs[i], 0))
            return false;
    }
    return true;
}

/* One task's job after the slot, restarted if its period is over. With D <= T a job that
 * isn't done by then has already failed the test of its time. */
static bool job_pass_slot(const struct twin_task *task, uint32_t slot, bool chosen,
                          struct twin_job *job)
{
    uint32_t end = slot + 1;

    if (chosen || is_waiting(task, job))
        pass_unit(task, job);
    if (!twin_job_in_time(task, job, end))
        return false;
    if (end % task->period != 0)
        return true;
    *job = twin_job_at(task, end, 0);
    return twin_job_in_time(task, job, end);
}

static bool choice_allowed(const struct twin_set *set, const struct twin_job *jobs,
                           uint8_t choice)
{
    return choice == TWIN_IDLE ||
           (choice < set->count && is_ready(&set->tasks[choice], &jobs[choice]));
}

bool twin_jobs_pass_slot(const struct twin_set *set, uint32_t slot,
                         const struct twin_job *jobs, uint8_t choice, struct twin_job *next)
{
    if (!choice_allowed(set, jobs, choice))
        return false;
    for (unsigned i = 0; i < set->count; i++) {
        next[i] = jobs[i];
        if (!job_pass_slot(&set->tasks[i], slot, i == choice, &next[i]))
            return false;
    }
    return true;
}

/* ---- the hash set of positions ---- */

static void *memory_or_exit(void *memory)
{
    if (memory == NULL) {
        fputs("twin: out of memory\n", stderr);
        exit(2);
    }
    return memory;
}

static uint64_t record_hash(const uint16_t *record, unsigned width)
{
    uint64_t hash = 14695981039346656037u;

    for (unsigned i = 0; i < width; i++)
        hash = (hash ^ record[i]) * 1099511628211u;
    return hash ^ hash >> 32;
}

/* The bucket that holds the record, or the free one where it belongs. */
static size_t *bucket_of(const struct twin_positions *set, const uint16_t *record)
{
    size_t at = (size_t)record_hash(record, set->width) & (set->bucket_count - 1);

    while (set->buckets[at] != 0 &&
           memcmp(set->numbers + (set->buckets[at] - 1) * set->width, record,
                  set->width * sizeof *record) != 0)
        at = (at + 1) & (set->bucket_count - 1);
    return &set->buckets[at];
}

/* Doubles the space; a quarter of the buckets is in use at most. */
static void positions_grow(struct twin_positions *set)
{
    set->capacity = set->capacity == 0 ? 64 : 2 * set->capacity;
    set->numbers = memory_or_exit(
        realloc(set->numbers, set->capacity * set->width * sizeof *set->numbers));
    free(set->buckets);
    set->bucket_count = 4 * set->capacity;
    set->buckets = memory_or_exit(calloc(set->bucket_count, sizeof *set->buckets));
    for (size_t i = 0; i < set->count; i++)
        *bucket_of(set, set->numbers + i * set->width) = i + 1;
}

static void positions_begin(struct twin_positions *set, unsigned width)
{
    *set = (struct twin_positions){.width = width};
    positions_grow(set);
}

static void positions_free(struct twin_positions *set)
{
    free(set->numbers);
    free(set->buckets);
}

static bool positions_hold(const struct twin_positions *set, const uint16_t *record)
{
    return *bucket_of(set, record) != 0;
}

static void positions_add(struct twin_positions *set, const uint16_t *record)
{
    if (positions_hold(set, record))
        return;
    if (set->count == set->capacity)
        positions_grow(set);
    *bucket_of(set, record) = set->count + 1;
    memcpy(set->numbers + set->count * set->width, record, set->width * sizeof *record);
    set->count++;
}

/* ---- the search ---- */

enum branch {
    REACHES_THE_END,
    IS_DEAD,
    IS_OVER_THE_CAP
};

struct explorer {
    const struct twin_set *set;
    size_t cap;
    struct twin_search *found;
};

static void write_record(const struct twin_set *set, uint32_t slot,
                         const struct twin_job *jobs, uint16_t *record)
{
    record[0] = (uint16_t)slot;
    for (unsigned i = 0; i < set->count; i++)
        record[1 + i] = (uint16_t)twin_job_progress(&set->tasks[i], &jobs[i]);
}

static enum branch bury(struct explorer *explorer, const uint16_t *record)
{
    if (explorer->found->dead.count == explorer->cap)
        return IS_OVER_THE_CAP;
    positions_add(&explorer->found->dead, record);
    return IS_DEAD;
}

/* Tries the choices in their order from a live position; the first that reaches the end
 * stands in the table. Whatever is dead on the way is reached by a list that comes before
 * the first schedule, so the dead found are exactly those that precede the reply. */
static enum branch explore(struct explorer *explorer, uint32_t slot,
                           const struct twin_job *jobs)
{
    const struct twin_set *set = explorer->set;
    struct twin_search *found = explorer->found;
    struct twin_job next[TWIN_MAX_TASKS];
    uint16_t record[TWIN_MAX_RECORD];

    if (slot == found->hyper_period)
        return REACHES_THE_END;
    write_record(set, slot, jobs, record);
    if (positions_hold(&found->dead, record))
        return IS_DEAD;
    for (unsigned i = 0; i <= set->count; i++) {
        uint8_t choice = i < set->count ? (uint8_t)i : TWIN_IDLE;

        if (!twin_jobs_pass_slot(set, slot, jobs, choice, next))
            continue;
        found->table[slot] = choice;
        enum branch branch = explore(explorer, slot + 1, next);
        if (branch != IS_DEAD)
            return branch;
    }
    return bury(explorer, record);
}

void twin_search_run(const struct twin_set *set, size_t cap, struct twin_search *search)
{
    static const enum twin_outcome outcomes[] = {
        [REACHES_THE_END] = TWIN_SCHEDULE,
        [IS_DEAD] = TWIN_INFEASIBLE,
        [IS_OVER_THE_CAP] = TWIN_OUT_OF_ROOM,
    };
    struct explorer explorer = {set, cap, search};
    struct twin_job jobs[TWIN_MAX_TASKS];

    search->outcome = TWIN_INFEASIBLE;
    search->hyper_period = (uint32_t)twin_hyper_period(set);
    positions_begin(&search->dead, set->count + 1u);
    if (twin_jobs_at_start(set, jobs))
        search->outcome = outcomes[explore(&explorer, 0, jobs)];
}

void twin_search_free(struct twin_search *search)
{
    positions_free(&search->dead);
}

const uint16_t *twin_dead_list(const struct twin_search *search, size_t *count)
{
    *count = search->dead.count;
    return search->dead.numbers;
}

bool twin_area_holds_dead(const struct twin_search *search, const uint16_t *area,
                          size_t count)
{
    struct twin_positions seen;
    bool all_dead = true;

    positions_begin(&seen, search->dead.width);
    for (size_t i = 0; i < count; i++) {
        const uint16_t *record = area + i * search->dead.width;
        all_dead = all_dead && positions_hold(&search->dead, record);
        positions_add(&seen, record);
    }
    bool distinct = seen.count == count;
    positions_free(&seen);
    return all_dead && distinct;
}

/* ---- the reply ---- */

struct twin_plan_reply twin_reply_for_room(const struct twin_search *search, size_t room)
{
    struct twin_plan_reply reply = {.outcome = search->outcome,
                                    .count = search->dead.count};

    if (search->outcome == TWIN_OUT_OF_ROOM || search->dead.count > room) {
        reply.outcome = TWIN_OUT_OF_ROOM;
        reply.count = room;
    }
    return reply;
}

static void write_table(const struct twin_search *search, enum twin_outcome outcome,
                        uint8_t *table)
{
    if (outcome == TWIN_SCHEDULE)
        memcpy(table, search->table, search->hyper_period);
    else
        memset(table, TWIN_IDLE, search->hyper_period);
}

struct twin_plan_reply twin_plan(const struct twin_set *set, uint8_t *table,
                                 size_t table_length, uint16_t *area, size_t area_length)
{
    struct twin_search search;
    uint8_t refusal = twin_set_refusal(set);

    if (refusal != TWIN_ACCEPTED)
        return (struct twin_plan_reply){.refusal = refusal};
    if (table_length < twin_hyper_period(set))
        return (struct twin_plan_reply){.refusal = TWIN_SHORT_TABLE};
    size_t room = area_length / (set->count + 1u);
    twin_search_run(set, room, &search);
    struct twin_plan_reply reply = twin_reply_for_room(&search, room);
    write_table(&search, reply.outcome, table);
    if (reply.count > 0)
        memcpy(area, search.dead.numbers, reply.count * search.dead.width * sizeof *area);
    twin_search_free(&search);
    return reply;
}
