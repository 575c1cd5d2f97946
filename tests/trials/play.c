/* Starts, and plays of many ticks. Every tick's refusal, runner, faults and new state are
 * compared with the twin's, and the observer looks at what the library gave. */
#include "trials.h"

#include <stdio.h>
#include <string.h>

enum {
    GUARD = 0x3c,
    MOST_STATE = KILUVSAAT_STATE_SIZE + 4,
    MOST_TICKS = 10000,
    LONGEST_PIECE = 4096, /* of a play, to be taken away at once */
    HALVINGS = 13,        /* of the longest piece, down to a single tick */
    SWAPS = 12            /* tries to make another schedule of a first one */
};

/* ---- starts ---- */

struct start {
    size_t table_length;
    size_t state_length; /* of the lent buffer */
    uint8_t string[KILUVSAAT_SET_SIZE];
    uint8_t table[GEN_MAX_TABLE];
};

static void make_start(struct gen *gen, void *any)
{
    struct start *in = any;
    struct twin_set set;
    enum gen_table_kind kind = (enum gen_table_kind)gen_below(gen, GEN_TABLE_KINDS);

    feasible_set(gen, &set, in->table);
    in->table_length = gen_table(gen, kind, &set, in->table);
    if (gen_chance(gen, 50))
        gen_litter(gen, &set);
    bytes_of_set(&set, in->string);
    in->state_length = gen_from_to(gen, KILUVSAAT_STATE_SIZE, MOST_STATE);
    if (gen_chance(gen, 10))
        in->state_length = gen_below(gen, KILUVSAAT_STATE_SIZE);
}

static const char *start_difference(const void *any)
{
    const struct start *in = any;
    const struct twin_lent lent = {.state_needed = KILUVSAAT_STATE_SIZE,
                                   .state_length = in->state_length};
    struct twin_set set = set_of_bytes(in->string);
    uint8_t expected[MOST_STATE];
    uint8_t got[MOST_STATE];
    struct twin_state state;

    memset(expected, GUARD, sizeof expected);
    memset(got, GUARD, sizeof got);
    uint8_t refusal = twin_start(&set, in->table, in->table_length, &lent, &state);
    if (refusal == TWIN_ACCEPTED)
        bytes_of_state(&state, expected);
    if (kiluvsaat_start(in->string, sizeof in->string, in->table, in->table_length, got,
                        in->state_length) != refusal)
        return "another refusal of a start";
    return memcmp(got, expected, sizeof got) == 0 ? NULL : "another fresh state";
}

static bool reduce_start(void *any, size_t way)
{
    struct start *in = any;
    struct twin_set set = set_of_bytes(in->string);

    if (way >= TWIN_MAX_TASKS)
        return false;
    if (way >= set.count || set.count == 1)
        return true;
    remove_task(&set, (unsigned)way);
    in->table_length = table_without(&set, (unsigned)way, in->table, in->table_length);
    bytes_of_set(&set, in->string);
    return true;
}

static void show_start(const void *any)
{
    const struct start *in = any;
    struct twin_set set = set_of_bytes(in->string);

    show_set(&set);
    show_bytes("set", in->string, sizeof in->string);
    show_table(in->table, in->table_length);
    printf("  buffer for the state: %zu bytes\n", in->state_length);
}

const struct part start_part = {
    .name = "start",
    .unit = "starts",
    .input_size = sizeof(struct start),
    .make = make_start,
    .difference = start_difference,
    .reduce = reduce_start,
    .show = show_start,
};

/* ---- plays ---- */

struct play {
    size_t ticks;
    uint8_t string[KILUVSAAT_SET_SIZE];
    uint8_t table[GEN_MAX_TABLE];
    uint8_t reports[MOST_TICKS][TWIN_MAX_TASKS];
};

static void swap_entries(uint8_t *table, size_t a, size_t b)
{
    uint8_t kept = table[a];

    table[a] = table[b];
    table[b] = kept;
}

/* Another schedule than the first, where swapping two slots gives one. */
static void vary_table(struct gen *gen, const struct twin_set *set, uint8_t *table)
{
    uint32_t length = (uint32_t)twin_hyper_period(set);

    for (unsigned swaps = 0; swaps < SWAPS; swaps++) {
        size_t a = gen_below(gen, length);
        size_t b = gen_below(gen, length);

        swap_entries(table, a, b);
        if (!is_schedule(set, table, length))
            swap_entries(table, a, b);
    }
}

/* Up to three hyper-periods and some ticks more. */
static size_t any_ticks(struct gen *gen, uint32_t hyper_period)
{
    size_t ticks = hyper_period * gen_from_to(gen, 1, 3) + gen_below(gen, 200);

    return ticks < MOST_TICKS ? ticks : MOST_TICKS;
}

/* Reports that answer to the twin's own runners. */
static void make_reports(struct gen *gen, struct play *in, const struct twin_set *set)
{
    enum gen_report_kind kind = (enum gen_report_kind)gen_below(gen, GEN_REPORT_KINDS);
    uint32_t hyper_period = (uint32_t)twin_hyper_period(set);
    struct twin_observer observer;
    struct twin_tick_reply reply;
    struct twin_state state;

    twin_start(set, in->table, hyper_period, &roomy, &state);
    twin_observer_begin(&observer, set, in->table);
    for (size_t tick = 0; tick < in->ticks; tick++) {
        gen_reports(gen, kind, &observer, in->reports[tick]);
        twin_tick(&state, in->reports[tick], set->count, in->table, hyper_period, &roomy,
                  &reply);
        twin_observe(&observer, in->reports[tick], reply.runner, reply.faults);
        state = reply.state;
    }
}

/* Without a schedule the play has no tick, and the start is refused. */
static void make_play(struct gen *gen, void *any)
{
    struct play *in = any;
    struct twin_set set;

    if (feasible_set(gen, &set, in->table)) {
        if (gen_chance(gen, 50))
            vary_table(gen, &set, in->table);
        in->ticks = any_ticks(gen, (uint32_t)twin_hyper_period(&set));
        make_reports(gen, in, &set);
    }
    bytes_of_set(&set, in->string);
}

/* One tick of the library, with guards behind the new state and the faults. */
struct library_tick {
    uint16_t reply;
    uint8_t state[MOST_STATE];
    uint8_t faults[TWIN_MAX_TASKS];
};

static struct library_tick tick_library(const struct play *in, const uint8_t *state,
                                        size_t tasks, size_t hyper_period, size_t tick)
{
    struct library_tick made;

    memset(&made, GUARD, sizeof made);
    made.reply = kiluvsaat_tick(state, KILUVSAAT_STATE_SIZE, in->table, hyper_period,
                                in->reports[tick], tasks, made.state, sizeof made.state,
                                made.faults, sizeof made.faults);
    return made;
}

static const char *tick_difference(const struct library_tick *got,
                                   const struct twin_tick_reply *reply)
{
    struct library_tick expected;

    memset(&expected, GUARD, sizeof expected);
    bytes_of_state(&reply->state, expected.state);
    memcpy(expected.faults, reply->faults, reply->state.set.count);
    if (got->reply != reply->runner)
        return "another runner or a refusal";
    if (memcmp(got->faults, expected.faults, sizeof expected.faults) != 0)
        return "other faults";
    if (memcmp(got->state, expected.state, sizeof expected.state) != 0)
        return "another state";
    return NULL;
}

static const char *finding_in_words(enum twin_finding finding)
{
    static const char *const words[] = {
        [TWIN_NOTHING_WRONG] = NULL,
        [TWIN_KEEPER_UNFINISHED] = "observer: a keeping job is not finished in time",
        [TWIN_KEEPER_FAULTED] = "observer: a fault for a keeping job",
        [TWIN_UNKNOWN_FAULT] = "observer: an unknown fault",
        [TWIN_NOT_THE_OWNER] = "observer: another than the slot's owner runs",
        [TWIN_SLOT_WHILE_WAITING] = "observer: a slot for a waiting job",
        [TWIN_SLOT_AFTER_FINISH] = "observer: a slot for a finished job",
        [TWIN_SLOT_AFTER_STOP] = "observer: a slot for a stopped job",
        [TWIN_SLOT_BEYOND_STEP] = "observer: more slots than the step has",
    };

    return words[finding];
}

/* Plays all ticks; `*tick` is the first that shows a difference. */
static const char *ticks_difference(const struct play *in, const struct twin_set *set,
                                    size_t *tick)
{
    size_t hyper_period = (size_t)twin_hyper_period(set);
    struct twin_observer observer;
    struct twin_tick_reply reply;
    struct library_tick got;
    struct twin_state state;
    uint8_t string[KILUVSAAT_STATE_SIZE];

    twin_start(set, in->table, hyper_period, &roomy, &state);
    bytes_of_state(&state, string);
    twin_observer_begin(&observer, set, in->table);
    for (*tick = 0; *tick < in->ticks; ++*tick) {
        const uint8_t *reports = in->reports[*tick];
        const char *found;

        got = tick_library(in, string, set->count, hyper_period, *tick);
        twin_tick(&state, reports, set->count, in->table, hyper_period, &roomy, &reply);
        found = tick_difference(&got, &reply);
        if (found == NULL)
            found = finding_in_words(
                twin_observe(&observer, reports, KILUVSAAT_RUNNER(got.reply), got.faults));
        if (found != NULL)
            return found;
        memcpy(string, got.state, sizeof string);
        state = reply.state;
    }
    return NULL;
}

static const char *play_difference(const void *any)
{
    static char words[128];
    const struct play *in = any;
    struct twin_set set = set_of_bytes(in->string);
    struct start start = {.table_length = (size_t)twin_hyper_period(&set),
                          .state_length = KILUVSAAT_STATE_SIZE};
    size_t tick;

    memcpy(start.string, in->string, sizeof start.string);
    memcpy(start.table, in->table, sizeof start.table);
    const char *found = start_difference(&start);
    if (found != NULL || in->ticks == 0)
        return found;
    found = ticks_difference(in, &set, &tick);
    if (found != NULL)
        snprintf(words, sizeof words, "tick %zu: %s", tick, found);
    return found != NULL ? words : NULL;
}

/* ---- smaller plays ---- */

static void remove_report(struct play *in, unsigned task)
{
    for (size_t tick = 0; tick < in->ticks; tick++) {
        uint8_t *reports = in->reports[tick];

        memmove(reports + task, reports + task + 1, TWIN_MAX_TASKS - 1 - task);
        reports[TWIN_MAX_TASKS - 1] = 0;
    }
}

static void remove_task_of_play(struct play *in, unsigned task)
{
    struct twin_set set = set_of_bytes(in->string);

    if (task >= set.count || set.count == 1)
        return;
    remove_task(&set, task);
    table_without(&set, task, in->table, (size_t)twin_hyper_period(&set));
    remove_report(in, task);
    bytes_of_set(&set, in->string);
}

static void drop_last(struct play *in, size_t ticks)
{
    if (ticks < in->ticks)
        in->ticks -= ticks;
}

static void drop_first(struct play *in, size_t ticks)
{
    if (ticks >= in->ticks)
        return;
    in->ticks -= ticks;
    memmove(in->reports, in->reports + ticks, in->ticks * sizeof in->reports[0]);
}

static void silence(struct play *in, size_t first, size_t ticks)
{
    for (size_t tick = first; tick < first + ticks && tick < in->ticks; tick++)
        memset(in->reports[tick], TWIN_NOTHING, sizeof in->reports[tick]);
}

/* Pieces of the play without any report, longer pieces first, then single reports. */
static bool silence_some(struct play *in, size_t way)
{
    for (size_t piece = LONGEST_PIECE; piece > 0; piece /= 2) {
        size_t pieces = (in->ticks + piece - 1) / piece;
        if (way < pieces) {
            silence(in, way * piece, piece);
            return true;
        }
        way -= pieces;
    }
    if (way >= in->ticks * TWIN_MAX_TASKS)
        return false;
    in->reports[way / TWIN_MAX_TASKS][way % TWIN_MAX_TASKS] = TWIN_NOTHING;
    return true;
}

/* Fewer ticks, a hyper-period less at the start, fewer tasks, fewer reports. */
static bool reduce_play(void *any, size_t way)
{
    struct play *in = any;
    struct twin_set set = set_of_bytes(in->string);

    if (way < HALVINGS) {
        drop_last(in, (size_t)LONGEST_PIECE >> way);
        return true;
    }
    way -= HALVINGS;
    if (way == 0) {
        drop_first(in, (size_t)twin_hyper_period(&set));
        return true;
    }
    way -= 1;
    if (way < TWIN_MAX_TASKS) {
        remove_task_of_play(in, (unsigned)way);
        return true;
    }
    return silence_some(in, way - TWIN_MAX_TASKS);
}

static void show_play(const void *any)
{
    const struct play *in = any;
    struct twin_set set = set_of_bytes(in->string);

    show_set(&set);
    show_table(in->table, (size_t)twin_hyper_period(&set));
    printf("  %zu ticks; reports 0 but for:\n", in->ticks);
    for (size_t tick = 0; tick < in->ticks; tick++)
        for (unsigned i = 0; i < set.count; i++)
            if (in->reports[tick][i] != TWIN_NOTHING)
                printf("  tick %zu, task %u: %u\n", tick, i + 1, in->reports[tick][i]);
}

static size_t ticks_of(const void *any)
{
    const struct play *in = any;

    return in->ticks;
}

const struct part play_part = {
    .name = "play",
    .unit = "ticks",
    .input_size = sizeof(struct play),
    .make = make_play,
    .difference = play_difference,
    .reduce = reduce_play,
    .show = show_play,
    .weight = ticks_of,
};
