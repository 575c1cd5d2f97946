/* The player: the form of its state, its start and its tick. */
#include "twin.h"

#include <string.h>

/* ---- the form of a state ---- */

static bool tasks_equal(const struct twin_task *a, const struct twin_task *b)
{
    return a->period == b->period && a->deadline == b->deadline && a->steps == b->steps &&
           memcmp(a->pattern, b->pattern, sizeof a->pattern) == 0;
}

/* Does the set hold zeros in every entry that is not in use? */
static bool set_is_clean(const struct twin_set *set)
{
    struct twin_set clean = twin_set_in_use(set);

    for (unsigned i = 0; i < TWIN_MAX_TASKS; i++)
        if (!tasks_equal(&set->tasks[i], &clean.tasks[i]))
            return false;
    return true;
}

static bool planned_is_live(const struct twin_task *task, uint32_t slot, unsigned planned)
{
    if (planned > twin_length(task))
        return false;
    if (slot % task->period == 0 && planned != 0)
        return false;
    struct twin_job job = twin_job_at(task, slot, planned);
    return twin_job_in_time(task, &job, slot);
}

/* Slots a step asks for; steps are the even segments of the pattern. */
static unsigned slots_of_step(const struct twin_task *task, unsigned step)
{
    return task->pattern[2 * step];
}

static bool ready_is_formed(const struct twin_task *task, const struct twin_progress *at,
                            bool ran_last)
{
    if (at->step >= task->steps || at->cause != TWIN_NO_FAULT)
        return false;
    if (ran_last)
        return at->given >= 1 && at->given <= slots_of_step(task, at->step);
    return at->given < slots_of_step(task, at->step);
}

static bool progress_is_formed(const struct twin_task *task, const struct twin_progress *at,
                               bool ran_last)
{
    switch (at->standing) {
    case TWIN_READY:
        return ready_is_formed(task, at, ran_last);
    case TWIN_WAITING:
        return !ran_last && at->step + 1 < task->steps && at->cause == TWIN_NO_FAULT &&
               at->given == 0;
    case TWIN_DONE:
        return !ran_last && at->step == 0 && at->cause == TWIN_NO_FAULT && at->given == 0;
    case TWIN_STOPPED:
        return !ran_last && at->step == 0 && at->cause >= TWIN_OVERRUN &&
               at->cause <= TWIN_FALSE_REPORT && at->given == 0;
    default:
        return false;
    }
}

/* The parts of the entries beyond the tasks. */
static bool beyond_is_zero(const struct twin_state *state, unsigned i)
{
    const struct twin_progress *at = &state->tasks[i];

    return state->planned[i] == 0 && at->standing == 0 && at->cause == 0 && at->step == 0 &&
           at->given == 0;
}

static bool is_formed(const struct twin_state *state)
{
    const struct twin_set *set = &state->set;

    if (twin_set_refusal(set) != TWIN_ACCEPTED || !set_is_clean(set))
        return false;
    if (state->slot >= twin_hyper_period(set))
        return false;
    if (state->last != TWIN_IDLE && state->last >= set->count)
        return false;
    for (unsigned i = 0; i < set->count; i++)
        if (!planned_is_live(&set->tasks[i], state->slot, state->planned[i]) ||
            !progress_is_formed(&set->tasks[i], &state->tasks[i], state->last == i))
            return false;
    for (unsigned i = set->count; i < TWIN_MAX_TASKS; i++)
        if (!beyond_is_zero(state, i))
            return false;
    return true;
}

uint8_t twin_form(const struct twin_state *state)
{
    return is_formed(state) ? TWIN_ACCEPTED : TWIN_BAD_STATE;
}

/* ---- the start ---- */

static bool is_schedule(const struct twin_set *set, const uint8_t *table, uint32_t length)
{
    struct twin_job jobs[TWIN_MAX_TASKS];
    struct twin_job next[TWIN_MAX_TASKS];

    if (!twin_jobs_at_start(set, jobs))
        return false;
    for (uint32_t slot = 0; slot < length; slot++) {
        if (!twin_jobs_pass_slot(set, slot, jobs, table[slot], next))
            return false;
        memcpy(jobs, next, sizeof jobs[0] * set->count);
    }
    return true;
}

static struct twin_state fresh_state(const struct twin_set *set)
{
    struct twin_state state = {.set = twin_set_in_use(set), .last = TWIN_IDLE};

    for (unsigned i = 0; i < set->count; i++)
        state.tasks[i].standing = TWIN_DONE;
    return state;
}

uint8_t twin_start(const struct twin_set *set, const uint8_t *table, size_t table_length,
                   const struct twin_lent *lent, struct twin_state *state)
{
    uint8_t refusal = twin_set_refusal(set);

    if (refusal != TWIN_ACCEPTED)
        return refusal;
    if (table_length != twin_hyper_period(set) ||
        !is_schedule(set, table, (uint32_t)table_length))
        return TWIN_BAD_TABLE;
    if (lent->state_length < lent->state_needed)
        return TWIN_SHORT_BUFFER;
    *state = fresh_state(set);
    return TWIN_ACCEPTED;
}

/* ---- the tick ---- */

static void jobs_as_planned(const struct twin_state *state, struct twin_job *jobs)
{
    for (unsigned i = 0; i < state->set.count; i++)
        jobs[i] = twin_job_at(&state->set.tasks[i], state->slot, state->planned[i]);
}

static uint8_t stop(struct twin_progress *at, uint8_t cause)
{
    *at = (struct twin_progress){.standing = TWIN_STOPPED, .cause = cause};
    return cause;
}

static void finish_step(const struct twin_task *task, struct twin_progress *at)
{
    if (at->step + 1 < task->steps)
        *at = (struct twin_progress){.standing = TWIN_WAITING, .step = at->step};
    else
        *at = (struct twin_progress){.standing = TWIN_DONE};
}

static uint8_t take_report_of_runner(const struct twin_task *task, struct twin_progress *at,
                                     uint8_t report)
{
    if (report == TWIN_STEP_FINISHED)
        finish_step(task, at);
    else if (report != TWIN_NOTHING)
        return stop(at, TWIN_FALSE_REPORT);
    else if (at->given == slots_of_step(task, at->step))
        return stop(at, TWIN_OVERRUN);
    return TWIN_NO_FAULT;
}

static uint8_t take_report_of_waiter(struct twin_progress *at, uint8_t report)
{
    if (report == TWIN_WAIT_ENDED)
        *at = (struct twin_progress){.standing = TWIN_READY, .step = at->step + 1};
    else if (report != TWIN_NOTHING)
        return stop(at, TWIN_FALSE_REPORT);
    return TWIN_NO_FAULT;
}

/* Part 1 of a tick for one task; returns its fault. */
static uint8_t take_report(const struct twin_task *task, struct twin_progress *at,
                           bool ran_last, uint8_t report)
{
    if (at->standing == TWIN_STOPPED)
        return TWIN_NO_FAULT;
    if (ran_last)
        return take_report_of_runner(task, at, report);
    if (at->standing == TWIN_WAITING)
        return take_report_of_waiter(at, report);
    return report == TWIN_NOTHING ? TWIN_NO_FAULT : stop(at, TWIN_FALSE_REPORT);
}

/* Part 3: the owner of the slot against the step it has in the plan. */
static uint8_t serve_owner(struct twin_progress *at, unsigned planned_step, bool *runs)
{
    *runs = false;
    if (at->standing == TWIN_READY && at->step == planned_step) {
        at->given++;
        *runs = true;
        return TWIN_NO_FAULT;
    }
    bool under_way = at->standing == TWIN_READY || at->standing == TWIN_WAITING;
    return under_way && at->step < planned_step ? stop(at, TWIN_LATE) : TWIN_NO_FAULT;
}

/* The three parts in their order, on the reply's own copy of the state. */
static void play_slot(struct twin_tick_reply *reply, const uint8_t *reports, uint8_t owner,
                      const struct twin_job *planned)
{
    struct twin_state *state = &reply->state;
    const struct twin_set *set = &state->set;
    bool owner_runs = false;

    for (unsigned i = 0; i < set->count; i++) {
        reply->faults[i] =
            take_report(&set->tasks[i], &state->tasks[i], state->last == i, reports[i]);
        if (state->slot % set->tasks[i].period == 0)
            state->tasks[i] = (struct twin_progress){.standing = TWIN_READY};
    }
    if (owner != TWIN_IDLE) {
        uint8_t fault =
            serve_owner(&state->tasks[owner], planned[owner].segment / 2u, &owner_runs);
        if (fault != TWIN_NO_FAULT)
            reply->faults[owner] = fault;
    }
    reply->runner = owner_runs ? owner : TWIN_IDLE;
    state->last = reply->runner;
}

uint8_t twin_tick(const struct twin_state *state, const uint8_t *reports,
                  size_t report_count, const uint8_t *table, size_t table_length,
                  const struct twin_lent *lent, struct twin_tick_reply *reply)
{
    struct twin_job now[TWIN_MAX_TASKS];
    struct twin_job next[TWIN_MAX_TASKS];
    const struct twin_set *set = &state->set;

    if (twin_form(state) != TWIN_ACCEPTED)
        return TWIN_BAD_STATE;
    if (report_count != set->count)
        return TWIN_BAD_REPORT_COUNT;
    uint64_t hyper_period = twin_hyper_period(set);
    if (table_length != hyper_period)
        return TWIN_BAD_TABLE;
    jobs_as_planned(state, now);
    uint8_t owner = table[state->slot];
    if (!twin_jobs_pass_slot(set, state->slot, now, owner, next))
        return TWIN_BAD_TABLE;
    if (lent->state_length < lent->state_needed || lent->faults_length < set->count)
        return TWIN_SHORT_BUFFER;

    struct twin_tick_reply made = {.state = *state};
    play_slot(&made, reports, owner, now);
    for (unsigned i = 0; i < set->count; i++)
        made.state.planned[i] = (uint16_t)twin_job_progress(&set->tasks[i], &next[i]);
    made.state.slot = (uint16_t)((state->slot + 1u) % hyper_period);
    *reply = made;
    return TWIN_ACCEPTED;
}
