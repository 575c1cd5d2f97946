/* Single ticks: states that are reachable, formed, damaged or any bytes at all, with tables
 * good and damaged, any reports, and lent buffers about the lengths they need. */
#include "trials.h"

#include <stdio.h>
#include <string.h>

enum {
    GUARD = 0xc3,
    MOST_STATE = KILUVSAAT_STATE_SIZE + 4,
    MOST_REPORTS = TWIN_MAX_TASKS + 2
};

struct input {
    size_t state_length;
    size_t table_length;
    size_t report_count;
    size_t next_length;
    size_t faults_length;
    uint8_t state[MOST_STATE];
    uint8_t table[GEN_MAX_TABLE];
    uint8_t reports[MOST_REPORTS];
};

/* ---- making ---- */

/* That length, or now and then one beside it. */
static size_t about(struct gen *gen, size_t length)
{
    if (gen_chance(gen, 96))
        return length;
    return gen_chance(gen, 50) || length == 0 ? length + 1 : length - 1;
}

/* The twin's state of some kind as a string; where there is none, any bytes. */
static void make_state(struct gen *gen, struct input *in, const struct twin_set *set)
{
    static const enum gen_state_kind kinds[] = {
        GEN_STATE_REACHABLE, GEN_STATE_REACHABLE, GEN_STATE_FORMED,  GEN_STATE_FORMED,
        GEN_STATE_FORMED,    GEN_STATE_DAMAGED,   GEN_STATE_DAMAGED, GEN_STATE_GARBAGE};
    enum gen_state_kind kind = kinds[gen_below(gen, sizeof kinds / sizeof kinds[0])];
    struct twin_state state;

    any_fill(gen, in->state, sizeof in->state);
    if (gen_state(gen, kind, set, in->table, &state))
        bytes_of_state(&state, in->state);
    if (gen_chance(gen, 10))
        in->state[gen_below(gen, KILUVSAAT_STATE_SIZE)] = (uint8_t)gen_below(gen, 256);
}

/* A report that can be, for most tasks. */
static uint8_t any_report(struct gen *gen, const struct twin_state *state, unsigned task)
{
    if (gen_chance(gen, 10))
        return (uint8_t)gen_below(gen, gen_chance(gen, 50) ? 3 : 256);
    if (gen_chance(gen, 50))
        return TWIN_NOTHING;
    if (state->last == task)
        return TWIN_STEP_FINISHED;
    return state->tasks[task].standing == TWIN_WAITING ? TWIN_WAIT_ENDED : TWIN_NOTHING;
}

static void make_reports(struct gen *gen, struct input *in)
{
    struct twin_state state = {.last = TWIN_IDLE};

    state_of_bytes(in->state, &state);
    any_fill(gen, in->reports, sizeof in->reports);
    for (unsigned i = 0; i < TWIN_MAX_TASKS; i++)
        in->reports[i] = any_report(gen, &state, i);
}

static uint8_t twin_reply(const struct input *in, struct twin_tick_reply *reply)
{
    const struct twin_lent lent = {.state_needed = KILUVSAAT_STATE_SIZE,
                                   .state_length = in->next_length,
                                   .faults_length = in->faults_length};
    struct twin_state state;

    if (in->state_length != KILUVSAAT_STATE_SIZE || !state_of_bytes(in->state, &state))
        return TWIN_BAD_STATE;
    return twin_tick(&state, in->reports, in->report_count, in->table, in->table_length,
                     &lent, reply);
}

/* Gives this slot to a task, from a random one on, where a tick takes that. */
static void fit_table(struct gen *gen, struct input *in)
{
    unsigned first = gen_below(gen, TWIN_MAX_TASKS);
    struct twin_tick_reply reply;
    struct twin_state state;

    if (!state_of_bytes(in->state, &state) || twin_form(&state) != TWIN_ACCEPTED)
        return;
    for (unsigned i = 0; i < TWIN_MAX_TASKS; i++) {
        in->table[state.slot] = (uint8_t)((first + i) % TWIN_MAX_TASKS);
        if (twin_reply(in, &reply) == TWIN_ACCEPTED)
            return;
    }
}

static void make(struct gen *gen, void *any)
{
    struct input *in = any;
    struct twin_set set;

    if (!feasible_set(gen, &set, in->table) || gen_chance(gen, 30))
        set = admissible_set(gen);
    in->table_length = gen_table(gen, GEN_TABLE_GOOD, &set, in->table);
    make_state(gen, in, &set);
    make_reports(gen, in);
    in->report_count = set.count;
    in->state_length = KILUVSAAT_STATE_SIZE;
    in->next_length = KILUVSAAT_STATE_SIZE;
    in->faults_length = set.count;
    if (gen_chance(gen, 10))
        gen_table(gen, GEN_TABLE_GARBAGE, &set, in->table);
    else if (gen_chance(gen, 60))
        fit_table(gen, in);
    in->table_length = about(gen, in->table_length);
    in->report_count = about(gen, in->report_count);
    in->state_length = about(gen, in->state_length);
    in->next_length = about(gen, in->next_length);
    in->faults_length = about(gen, in->faults_length);
}

/* ---- comparing ---- */

static const char *difference(const void *any)
{
    const struct input *in = any;
    struct twin_tick_reply reply = {.runner = TWIN_IDLE};
    uint8_t next[MOST_STATE];
    uint8_t faults[MOST_REPORTS];
    uint8_t expected_next[MOST_STATE];
    uint8_t expected_faults[MOST_REPORTS];

    memset(next, GUARD, sizeof next);
    memset(faults, GUARD, sizeof faults);
    memset(expected_next, GUARD, sizeof next);
    memset(expected_faults, GUARD, sizeof faults);
    uint8_t refusal = twin_reply(in, &reply);
    if (refusal == TWIN_ACCEPTED) {
        bytes_of_state(&reply.state, expected_next);
        memcpy(expected_faults, reply.faults, reply.state.set.count);
    }
    uint16_t got = kiluvsaat_tick(in->state, in->state_length, in->table, in->table_length,
                                  in->reports, in->report_count, next, in->next_length,
                                  faults, in->faults_length);
    if (KILUVSAAT_REFUSAL(got) != refusal)
        return "another refusal";
    if (KILUVSAAT_RUNNER(got) != reply.runner)
        return "another runner";
    if (memcmp(faults, expected_faults, sizeof faults) != 0)
        return "other faults, or bytes behind them changed";
    if (memcmp(next, expected_next, sizeof next) != 0)
        return "another state, or bytes behind it changed";
    return NULL;
}

/* ---- making smaller ---- */

static void remove_task_of_state(struct twin_state *state, unsigned task)
{
    const unsigned last = TWIN_MAX_TASKS - 1;

    remove_task(&state->set, task);
    for (unsigned i = task; i < last; i++) {
        state->planned[i] = state->planned[i + 1];
        state->tasks[i] = state->tasks[i + 1];
    }
    state->planned[last] = 0;
    state->tasks[last] = (struct twin_progress){0};
    if (state->last == task)
        state->last = TWIN_IDLE;
    else if (state->last != TWIN_IDLE && state->last > task)
        state->last--;
}

/* Only where the set is admissible, so that what is left has a hyper-period. */
static void remove_task_of_tick(struct input *in, unsigned task)
{
    struct twin_state state;

    if (!state_of_bytes(in->state, &state) ||
        twin_set_refusal(&state.set) != TWIN_ACCEPTED || state.set.count == 1 ||
        task >= state.set.count || in->report_count == 0)
        return;
    remove_task_of_state(&state, task);
    in->table_length = table_without(&state.set, task, in->table, in->table_length);
    state.slot = (uint16_t)(state.slot % twin_hyper_period(&state.set));
    bytes_of_state(&state, in->state);
    memmove(in->reports + task, in->reports + task + 1, MOST_REPORTS - 1 - task);
    in->report_count--;
}

/* Each task away, each byte of the state as zero, each report as nothing, each slot idle.
 */
static bool reduce(void *any, size_t way)
{
    struct input *in = any;

    if (way < TWIN_MAX_TASKS) {
        remove_task_of_tick(in, (unsigned)way);
        return true;
    }
    way -= TWIN_MAX_TASKS;
    if (way < MOST_STATE) {
        in->state[way] = 0;
        return true;
    }
    way -= MOST_STATE;
    if (way < MOST_REPORTS) {
        in->reports[way] = TWIN_NOTHING;
        return true;
    }
    way -= MOST_REPORTS;
    if (way < in->table_length) {
        in->table[way] = TWIN_IDLE;
        return true;
    }
    return false;
}

static void show(const void *any)
{
    const struct input *in = any;
    struct twin_tick_reply reply = {.runner = TWIN_IDLE};
    uint8_t refusal = twin_reply(in, &reply);
    struct twin_set set = set_of_bytes(in->state);

    if (twin_set_refusal(&set) == TWIN_ACCEPTED)
        show_set(&set);
    show_bytes("state", in->state, in->state_length);
    show_table(in->table, in->table_length);
    show_bytes("reports", in->reports, in->report_count);
    printf("  buffers: new state %zu, faults %zu\n", in->next_length, in->faults_length);
    printf("  twin: refusal %u, runner %u\n", refusal, reply.runner);
}

const struct part tick_part = {
    .name = "tick",
    .unit = "ticks",
    .input_size = sizeof(struct input),
    .make = make,
    .difference = difference,
    .reduce = reduce,
    .show = show,
};
