/* Seeded generators; see gen.h. */
#include "gen.h"

#include <stdio.h>
#include <string.h>

#define LENGTH_OF(array) (sizeof(array) / sizeof((array)[0]))

/* ---- numbers ---- */

void gen_seed(struct gen *gen, uint64_t seed)
{
    /* Spread small seeds; xorshift must not begin at 0. */
    gen->x = (seed + 1) * 0x9e3779b97f4a7c15u;
    if (gen->x == 0)
        gen->x = 1;
}

uint64_t gen_next(struct gen *gen)
{
    gen->x ^= gen->x >> 12;
    gen->x ^= gen->x << 25;
    gen->x ^= gen->x >> 27;
    return gen->x * 0x2545f4914f6cdd1du;
}

uint32_t gen_below(struct gen *gen, uint32_t bound)
{
    return (uint32_t)((gen_next(gen) >> 32) * bound >> 32);
}

uint32_t gen_from_to(struct gen *gen, uint32_t lowest, uint32_t highest)
{
    return lowest + gen_below(gen, highest - lowest + 1);
}

bool gen_chance(struct gen *gen, unsigned in_hundred)
{
    return gen_below(gen, 100) < in_hundred;
}

static uint8_t any_byte(struct gen *gen)
{
    return (uint8_t)gen_below(gen, 256);
}

static void any_bytes(struct gen *gen, void *bytes, size_t count)
{
    for (size_t i = 0; i < count; i++)
        ((uint8_t *)bytes)[i] = any_byte(gen);
}

/* ---- sets ---- */

/* A divisor of the number, so that the least common multiple stays within it. */
static uint16_t divisor_of(struct gen *gen, unsigned number)
{
    unsigned divisor;

    do
        divisor = gen_from_to(gen, 1, number);
    while (number % divisor != 0);
    return (uint16_t)divisor;
}

/* One of the larger divisors, as short periods leave no slots to other tasks. */
static uint16_t large_divisor_of(struct gen *gen, unsigned number)
{
    uint16_t a = divisor_of(gen, number);
    uint16_t b = divisor_of(gen, number);

    return a > b ? a : b;
}

/* A pattern of at most `units` units (at least 1), waits longer than steps on average. */
static void fill_pattern(struct gen *gen, struct twin_task *task, unsigned units)
{
    unsigned most_steps = (units + 1) / 2;

    if (most_steps > TWIN_MAX_STEPS)
        most_steps = TWIN_MAX_STEPS;
    task->steps = (uint8_t)gen_from_to(gen, 1, most_steps);
    unsigned segments = 2u * task->steps - 1;
    memset(task->pattern, 0, sizeof task->pattern);
    memset(task->pattern, 1, segments);
    for (unsigned extra = gen_below(gen, units - segments + 1); extra > 0; extra--) {
        unsigned segment = gen_below(gen, segments);
        if (segment % 2 == 0 && gen_chance(gen, 60))
            continue;
        if (task->pattern[segment] < TWIN_MAX_UNITS)
            task->pattern[segment]++;
    }
}

static struct twin_task small_task(struct gen *gen, unsigned hyper_period)
{
    struct twin_task task = {.period = large_divisor_of(gen, hyper_period)};

    fill_pattern(gen, &task, task.period);
    task.deadline = gen_chance(gen, 50)
                        ? task.period
                        : (uint16_t)gen_from_to(gen, twin_length(&task), task.period);
    return task;
}

static struct twin_set small_set(struct gen *gen)
{
    static const unsigned hyper_periods[] = {1,  2,  3,  4,  6,  8,  10, 12, 16,
                                             18, 20, 24, 30, 36, 42, 60, 72, 120};
    unsigned hyper_period = hyper_periods[gen_below(gen, LENGTH_OF(hyper_periods))];
    /* Mostly few tasks, as many rarely fit. */
    unsigned count = gen_chance(gen, 85) ? gen_from_to(gen, 1, 4) : gen_from_to(gen, 5, 8);
    struct twin_set set = {.count = (uint8_t)count};

    for (unsigned i = 0; i < set.count; i++)
        set.tasks[i] = small_task(gen, hyper_period);
    return set;
}

static struct twin_set tight_set(struct gen *gen)
{
    struct twin_set set = small_set(gen);

    for (unsigned i = 0; i < set.count; i++) {
        struct twin_task *task = &set.tasks[i];
        task->deadline = (uint16_t)gen_from_to(gen, 1, task->period);
        if (gen_chance(gen, 30))
            fill_pattern(gen, task, task->period + gen_below(gen, 4));
    }
    return set;
}

static struct twin_set large_set(struct gen *gen)
{
    static const unsigned hyper_periods[] = {4096, 4095, 4094, 4032,
                                             4080, 3600, 2520, 4093};
    unsigned hyper_period = hyper_periods[gen_below(gen, LENGTH_OF(hyper_periods))];
    struct twin_set set = {.count = (uint8_t)gen_from_to(gen, 1, TWIN_MAX_TASKS)};

    for (unsigned i = 0; i < set.count; i++) {
        struct twin_task *task = &set.tasks[i];
        task->period = large_divisor_of(gen, hyper_period);
        task->deadline = gen_chance(gen, 70) ? task->period
                                             : (uint16_t)gen_from_to(gen, 1, task->period);
        fill_pattern(gen, task, task->deadline);
        if (gen_chance(gen, 20))
            task->pattern[gen_below(gen, twin_segment_count(task))] =
                (uint8_t)(TWIN_MAX_UNITS - gen_below(gen, 2));
    }
    return set;
}

static uint16_t near_time(struct gen *gen)
{
    static const uint16_t times[] = {0, 1, 4095, 4096, 4097, 32768, 65535};

    return times[gen_below(gen, LENGTH_OF(times))];
}

/* Spoils one field of an admissible set, mostly beyond what is allowed. */
static struct twin_set near_set(struct gen *gen)
{
    static const uint8_t counts[] = {0, 9, 10, 255};
    static const uint8_t steps[] = {0, 5, 6, 128, 255};
    struct twin_set set = small_set(gen);
    struct twin_task *task = &set.tasks[gen_below(gen, set.count)];

    switch (gen_below(gen, 7)) {
    case 0:
        set.count = counts[gen_below(gen, LENGTH_OF(counts))];
        break;
    case 1:
        task->steps = steps[gen_below(gen, LENGTH_OF(steps))];
        break;
    case 2:
        task->pattern[gen_below(gen, twin_segment_count(task))] = 0;
        break;
    case 3:
        task->period = near_time(gen);
        break;
    case 4:
        task->deadline = near_time(gen);
        break;
    case 5:
        task->deadline = task->period + 1;
        break;
    default: /* a hyper-period about the bound, or far above */
        for (unsigned i = 0; i < set.count; i++)
            set.tasks[i].period =
                (uint16_t)gen_from_to(gen, 60, gen_chance(gen, 50) ? 70 : 4096);
    }
    return set;
}

static struct twin_set garbage_set(struct gen *gen)
{
    struct twin_set set;

    any_bytes(gen, &set, sizeof set);
    if (gen_chance(gen, 80))
        set.count = (uint8_t)gen_from_to(gen, 1, TWIN_MAX_TASKS);
    for (unsigned i = 0; i < TWIN_MAX_TASKS; i++)
        if (gen_chance(gen, 80))
            set.tasks[i].steps = (uint8_t)gen_from_to(gen, 1, TWIN_MAX_STEPS);
    return set;
}

struct twin_set gen_set(struct gen *gen, enum gen_set_kind kind)
{
    switch (kind) {
    case GEN_SET_SMALL:
        return small_set(gen);
    case GEN_SET_TIGHT:
        return tight_set(gen);
    case GEN_SET_LARGE:
        return large_set(gen);
    case GEN_SET_NEAR:
        return near_set(gen);
    default:
        return garbage_set(gen);
    }
}

void gen_litter(struct gen *gen, struct twin_set *set)
{
    for (unsigned i = 0; i < TWIN_MAX_TASKS; i++) {
        struct twin_task *task = &set->tasks[i];
        unsigned used = i < set->count ? twin_segment_count(task) : 0;

        any_bytes(gen, task->pattern + used, TWIN_MAX_SEGMENTS - used);
        if (i >= set->count) {
            task->period = (uint16_t)gen_below(gen, 65536);
            task->deadline = (uint16_t)gen_below(gen, 65536);
            task->steps = any_byte(gen);
        }
    }
}

/* ---- lists ---- */

/* A list that is being written; what doesn't fit GEN_MAX_LIST is dropped. */
struct pen {
    uint8_t *list;
    size_t length;
};

static void put(struct pen *pen, uint8_t byte)
{
    if (pen->length < GEN_MAX_LIST)
        pen->list[pen->length++] = byte;
}

static void put_many(struct pen *pen, uint8_t byte, unsigned count)
{
    for (; count > 0; count--)
        put(pen, byte);
}

/* The number in that many digits at least. */
static void put_number(struct pen *pen, unsigned number, int digits)
{
    char text[16];
    int length = snprintf(text, sizeof text, "%0*u", digits, number);

    for (int i = 0; i < length; i++)
        put(pen, (uint8_t)text[i]);
}

static int number_of_digits(unsigned number)
{
    return number < 10 ? 1 : number < 100 ? 2 : number < 1000 ? 3 : 4;
}

static void put_field(struct gen *gen, struct pen *pen, unsigned number)
{
    int digits = number_of_digits(number);

    if (gen_chance(gen, 10))
        digits = (int)gen_from_to(gen, (uint32_t)digits, 4);
    put_number(pen, number, digits);
}

static void put_gap(struct gen *gen, struct pen *pen, unsigned least)
{
    put_many(pen, ' ', least + (gen_chance(gen, 10) ? gen_below(gen, 4) : 0));
}

static void put_comment(struct gen *gen, struct pen *pen, unsigned length)
{
    put(pen, '#');
    for (; length > 0; length--) {
        uint8_t byte = any_byte(gen);
        put(pen, byte == '\n' ? ' ' : byte);
    }
    put(pen, '\n');
}

/* Now and then a line that holds no task. */
static void put_skipped_lines(struct gen *gen, struct pen *pen)
{
    while (gen_chance(gen, 15)) {
        if (gen_chance(gen, 50)) {
            put_comment(gen, pen, gen_below(gen, 12));
        } else {
            put_many(pen, ' ', gen_below(gen, 4));
            put(pen, '\n');
        }
    }
}

static void put_task(struct gen *gen, struct pen *pen, const struct twin_task *task)
{
    put_gap(gen, pen, 0);
    put_field(gen, pen, task->period);
    put_gap(gen, pen, 1);
    put_field(gen, pen, task->deadline);
    for (unsigned i = 0; i < twin_segment_count(task); i++) {
        put_gap(gen, pen, 1);
        put_field(gen, pen, task->pattern[i]);
    }
    put_gap(gen, pen, 0);
}

static void put_set(struct gen *gen, struct pen *pen, const struct twin_set *set)
{
    for (unsigned i = 0; i < set->count; i++) {
        put_skipped_lines(gen, pen);
        put_task(gen, pen, &set->tasks[i]);
        put(pen, '\n');
    }
    put_skipped_lines(gen, pen);
    if (gen_chance(gen, 20) && pen->list[pen->length - 1] == '\n')
        pen->length--; /* the last line may lack its line feed */
}

size_t gen_list_of_set(struct gen *gen, const struct twin_set *set, uint8_t *list)
{
    struct pen pen = {list, 0};

    put_set(gen, &pen, set);
    return pen.length;
}

static struct twin_set listed_set(struct gen *gen)
{
    static const enum gen_set_kind kinds[] = {GEN_SET_SMALL, GEN_SET_TIGHT, GEN_SET_LARGE};

    return gen_set(gen, kinds[gen_below(gen, LENGTH_OF(kinds))]);
}

static size_t good_list(struct gen *gen, uint8_t *list)
{
    struct twin_set set = listed_set(gen);

    return gen_list_of_set(gen, &set, list);
}

static uint8_t list_like_byte(struct gen *gen)
{
    static const char bytes[] = "0123456789  \n\n#-.\t\r";

    return gen_chance(gen, 90) ? (uint8_t)bytes[gen_below(gen, sizeof bytes - 1)]
                               : any_byte(gen);
}

static void put_bounds_field(struct gen *gen, struct pen *pen)
{
    static const unsigned numbers[] = {0,   1,   2,    7,    8,    254,
                                       255, 256, 4095, 4096, 4097, 9999};
    int digits = gen_chance(gen, 90) ? 1 : (int)gen_from_to(gen, 2, 6);

    put_number(pen, numbers[gen_below(gen, LENGTH_OF(numbers))], digits);
}

/* Lines of mostly short, admissible fields with some number at a bound. */
static size_t bounds_list(struct gen *gen, uint8_t *list)
{
    struct pen pen = {list, 0};

    for (unsigned lines = gen_below(gen, 12); lines > 0; lines--) {
        unsigned fields =
            gen_chance(gen, 80) ? 3 + 2 * gen_below(gen, 4) : gen_below(gen, 12);

        for (unsigned i = 0; i < fields; i++) {
            if (gen_chance(gen, 15))
                put_bounds_field(gen, &pen);
            else
                put_field(gen, &pen, i < 2 ? 64u >> i : gen_from_to(gen, 1, 3));
            put_gap(gen, &pen, i + 1 < fields);
        }
        put(&pen, '\n');
    }
    return pen.length;
}

static size_t cut_list(struct gen *gen, uint8_t *list)
{
    size_t length = good_list(gen, list);

    return gen_below(gen, (uint32_t)length + 1);
}

static size_t insert_byte(uint8_t *list, size_t length, size_t at, uint8_t byte)
{
    if (length == GEN_MAX_LIST)
        return length;
    memmove(list + at + 1, list + at, length - at);
    list[at] = byte;
    return length + 1;
}

size_t gen_put_byte(struct gen *gen, uint8_t *list, size_t length, uint8_t byte)
{
    if (length == 0 || gen_chance(gen, 50))
        return insert_byte(list, length, gen_below(gen, (uint32_t)length + 1), byte);
    list[gen_below(gen, (uint32_t)length)] = byte;
    return length;
}

/* About the shortest list there is, or anything as short. */
static size_t tiny_list(struct gen *gen, uint8_t *list)
{
    size_t length = 0;
    unsigned added = gen_below(gen, 9);

    if (gen_chance(gen, 50)) {
        memcpy(list, "1 1 1", 5);
        length = 5;
        added = gen_below(gen, 4);
    }
    for (; added > 0; added--)
        length = gen_put_byte(gen, list, length, list_like_byte(gen));
    return length;
}

static size_t take_byte_away(struct gen *gen, uint8_t *list, size_t length)
{
    if (length == 0)
        return 0;
    size_t at = gen_below(gen, (uint32_t)length);
    memmove(list + at, list + at + 1, length - at - 1);
    return length - 1;
}

static size_t damage(struct gen *gen, uint8_t *list, size_t length)
{
    for (unsigned times = gen_from_to(gen, 1, 3); times > 0; times--) {
        if (gen_chance(gen, 25))
            length = take_byte_away(gen, list, length);
        else
            length =
                gen_put_byte(gen, list, length,
                             gen_chance(gen, 50) ? any_byte(gen) : list_like_byte(gen));
    }
    return length;
}

static size_t damaged_list(struct gen *gen, uint8_t *list)
{
    return damage(gen, list, good_list(gen, list));
}

/* Tasks after, before or between fillers that bring the list to about 4,096 bytes. */
static size_t long_list(struct gen *gen, uint8_t *list)
{
    struct twin_set set = listed_set(gen);
    struct pen pen = {list, 0};
    size_t length = gen_chance(gen, 80)
                        ? gen_from_to(gen, TWIN_MAX_LIST - 3, TWIN_MAX_LIST + 3)
                        : gen_from_to(gen, 1000, 6000);
    bool tasks_first = gen_chance(gen, 50);

    if (tasks_first) {
        put_set(gen, &pen, &set);
        put(&pen, '\n');
    }
    while (pen.length + 200 < length)
        put_comment(gen, &pen, gen_below(gen, 100));
    if (!tasks_first)
        put_set(gen, &pen, &set);
    while (pen.length < length)
        put(&pen, gen_chance(gen, 98) ? ' ' : '\n');
    return gen_chance(gen, 30) ? damage(gen, list, pen.length) : pen.length;
}

static size_t any_list(struct gen *gen, uint8_t *list)
{
    size_t length = gen_below(gen, gen_chance(gen, 90) ? 64 : 5000);

    any_bytes(gen, list, length);
    return length;
}

size_t gen_list(struct gen *gen, enum gen_list_kind kind, uint8_t *list)
{
    switch (kind) {
    case GEN_LIST_GOOD:
        return good_list(gen, list);
    case GEN_LIST_TINY:
        return tiny_list(gen, list);
    case GEN_LIST_BOUNDS:
        return bounds_list(gen, list);
    case GEN_LIST_CUT:
        return cut_list(gen, list);
    case GEN_LIST_DAMAGED:
        return damaged_list(gen, list);
    case GEN_LIST_LONG:
        return long_list(gen, list);
    default:
        return any_list(gen, list);
    }
}

/* ---- tables ---- */

enum {
    SEARCH_CAP = 4000 /* dead positions, so that a table takes bounded time */
};

static size_t good_table(const struct twin_set *set, uint8_t *table)
{
    struct twin_search search;

    twin_search_run(set, SEARCH_CAP, &search);
    memset(table, TWIN_IDLE, search.hyper_period);
    if (search.outcome == TWIN_SCHEDULE)
        memcpy(table, search.table, search.hyper_period);
    twin_search_free(&search);
    return search.hyper_period;
}

static uint8_t any_entry(struct gen *gen, const struct twin_set *set)
{
    if (gen_chance(gen, 30))
        return TWIN_IDLE;
    return gen_chance(gen, 90) ? (uint8_t)gen_below(gen, set->count + 1u) : any_byte(gen);
}

static void swap_entries(uint8_t *table, size_t a, size_t b)
{
    uint8_t kept = table[a];

    table[a] = table[b];
    table[b] = kept;
}

static size_t damaged_table(struct gen *gen, const struct twin_set *set, uint8_t *table)
{
    uint32_t length = (uint32_t)good_table(set, table);

    switch (gen_below(gen, 4)) {
    case 0:
        swap_entries(table, gen_below(gen, length), gen_below(gen, length));
        return length;
    case 1: /* shorter */
        return gen_chance(gen, 50) ? length - 1 : gen_below(gen, length);
    case 2: /* longer */
        table[length] = any_entry(gen, set);
        return length + 1;
    default:
        table[gen_below(gen, length)] = any_entry(gen, set);
        return length;
    }
}

size_t gen_table(struct gen *gen, enum gen_table_kind kind, const struct twin_set *set,
                 uint8_t *table)
{
    if (kind == GEN_TABLE_GOOD)
        return good_table(set, table);
    if (kind == GEN_TABLE_DAMAGED)
        return damaged_table(gen, set, table);
    size_t length = (size_t)twin_hyper_period(set);
    for (size_t i = 0; i < length; i++)
        table[i] = any_entry(gen, set);
    return length;
}

/* ---- reports ---- */

static bool is_under_way(const struct twin_seen_job *job)
{
    return !job->finished && !job->stopped;
}

/* The report of a job that takes exactly `slots` of its step or wait; more than those are
 * reported over at once. */
static uint8_t report_after(unsigned slots, uint64_t taken, uint8_t over)
{
    return taken >= slots ? over : TWIN_NOTHING;
}

static uint8_t compliant_report(struct gen *gen, const struct twin_task *task,
                                const struct twin_seen_job *job, bool ran, bool early)
{
    if (!is_under_way(job) || (!ran && !job->waiting))
        return TWIN_NOTHING;
    unsigned segment = 2u * job->step + (job->waiting ? 1 : 0);
    unsigned slots = task->pattern[segment];
    if (early)
        slots = gen_from_to(gen, 1, slots);
    /* The slot just ended is part of a wait; those got include it already. */
    return job->waiting ? report_after(slots, job->waited + 1, TWIN_WAIT_ENDED)
                        : report_after(slots, job->got, TWIN_STEP_FINISHED);
}

static uint8_t one_report(struct gen *gen, enum gen_report_kind kind,
                          const struct twin_observer *observer, unsigned i)
{
    const unsigned seldom = 4;
    bool early = kind != GEN_REPORT_EXACT && gen_chance(gen, 50);
    uint8_t report = compliant_report(gen, &observer->set.tasks[i], &observer->jobs[i],
                                      observer->last_runner == i, early);

    if (kind == GEN_REPORT_MIXED)
        kind = (enum gen_report_kind)gen_below(gen, GEN_REPORT_MIXED);
    if (kind == GEN_REPORT_LATE && report != TWIN_NOTHING && gen_chance(gen, 5 * seldom))
        return TWIN_NOTHING;
    if (kind == GEN_REPORT_FALSE && gen_chance(gen, seldom))
        return (uint8_t)gen_from_to(gen, 1, 2);
    if (kind == GEN_REPORT_GARBAGE && gen_chance(gen, seldom))
        return any_byte(gen);
    return report;
}

void gen_reports(struct gen *gen, enum gen_report_kind kind,
                 const struct twin_observer *observer, uint8_t *reports)
{
    for (unsigned i = 0; i < observer->set.count; i++)
        reports[i] = one_report(gen, kind, observer, i);
}

/* ---- states ---- */

static bool reachable_state(struct gen *gen, const struct twin_set *set,
                            const uint8_t *table, struct twin_state *state)
{
    const struct twin_lent lent = {.faults_length = TWIN_MAX_TASKS};
    uint32_t hyper_period = (uint32_t)twin_hyper_period(set);
    uint8_t reports[TWIN_MAX_TASKS];
    struct twin_observer observer;
    struct twin_tick_reply reply;

    if (twin_start(set, table, hyper_period, &lent, state) != TWIN_ACCEPTED)
        return false;
    twin_observer_begin(&observer, set, table);
    for (uint32_t ticks = gen_below(gen, 2 * hyper_period + 1); ticks > 0; ticks--) {
        gen_reports(gen, GEN_REPORT_MIXED, &observer, reports);
        twin_tick(state, reports, set->count, table, hyper_period, &lent, &reply);
        twin_observe(&observer, reports, reply.runner, reply.faults);
        *state = reply.state;
    }
    return true;
}

/* A live planned progress of the task at that slot; false if there is none. */
static bool live_progress(struct gen *gen, const struct twin_task *task, uint32_t slot,
                          uint16_t *progress)
{
    int length = (int)twin_length(task);
    int time_left = (int)task->deadline - (int)(slot % task->period);
    int least = time_left >= length ? 0 : length - (time_left > 0 ? time_left : 0);

    *progress = 0;
    if (slot % task->period == 0)
        return least == 0;
    *progress = (uint16_t)gen_from_to(gen, (uint32_t)least, (uint32_t)length);
    return true;
}

static struct twin_progress any_standing(struct gen *gen, const struct twin_task *task)
{
    uint8_t step = (uint8_t)gen_below(gen, task->steps);

    switch (gen_below(gen, 4)) {
    case TWIN_READY:
        return (struct twin_progress){
            .standing = TWIN_READY,
            .step = step,
            .given = (uint8_t)gen_below(gen, task->pattern[2 * step]),
        };
    case TWIN_WAITING:
        if (step + 1 < task->steps)
            return (struct twin_progress){.standing = TWIN_WAITING, .step = step};
        return (struct twin_progress){.standing = TWIN_DONE};
    case TWIN_DONE:
        return (struct twin_progress){.standing = TWIN_DONE};
    default:
        return (struct twin_progress){
            .standing = TWIN_STOPPED,
            .cause = (uint8_t)gen_from_to(gen, TWIN_OVERRUN, TWIN_FALSE_REPORT),
        };
    }
}

/* Some ready task becomes the one that ran last, with one slot more than before. */
static void choose_last(struct gen *gen, struct twin_state *state)
{
    uint8_t last = (uint8_t)gen_below(gen, state->set.count);

    state->last = TWIN_IDLE;
    if (state->tasks[last].standing == TWIN_READY && gen_chance(gen, 80)) {
        state->last = last;
        state->tasks[last].given++;
    }
}

static bool formed_state(struct gen *gen, const struct twin_set *set,
                         struct twin_state *state)
{
    uint32_t hyper_period = (uint32_t)twin_hyper_period(set);

    for (unsigned tries = 0; tries < 20; tries++) {
        bool live = true;

        *state = (struct twin_state){.set = twin_set_in_use(set)};
        state->slot = (uint16_t)gen_below(gen, hyper_period);
        for (unsigned i = 0; i < set->count; i++) {
            live =
                live_progress(gen, &set->tasks[i], state->slot, &state->planned[i]) && live;
            state->tasks[i] = any_standing(gen, &set->tasks[i]);
        }
        choose_last(gen, state);
        if (live)
            return true;
    }
    return false;
}

static uint8_t small_or_any_byte(struct gen *gen)
{
    return gen_chance(gen, 70) ? (uint8_t)gen_below(gen, 6) : any_byte(gen);
}

static void damage_state(struct gen *gen, struct twin_state *state)
{
    unsigned i = gen_below(gen, gen_chance(gen, 70) ? state->set.count : TWIN_MAX_TASKS);
    struct twin_progress *at = &state->tasks[i];

    switch (gen_below(gen, 11)) {
    case 0:
        state->slot = (uint16_t)(gen_chance(gen, 50) ? gen_below(gen, 65536)
                                                     : twin_hyper_period(&state->set));
        break;
    case 1:
        state->planned[i] =
            (uint16_t)(gen_chance(gen, 80) ? gen_below(gen, 8) : gen_below(gen, 65536));
        break;
    case 2:
        state->planned[i]++;
        break;
    case 3:
        at->standing = small_or_any_byte(gen);
        break;
    case 4:
        at->cause = small_or_any_byte(gen);
        break;
    case 5:
        at->step = small_or_any_byte(gen);
        break;
    case 6:
        at->given = small_or_any_byte(gen);
        break;
    case 7:
        at->given++;
        break;
    case 8:
        state->last = gen_chance(gen, 80) ? (uint8_t)i : any_byte(gen);
        break;
    case 9:
        state->set.tasks[i].pattern[gen_below(gen, TWIN_MAX_SEGMENTS)] =
            small_or_any_byte(gen);
        break;
    default:
        ((uint8_t *)&state->set)[gen_below(gen, sizeof state->set)] =
            small_or_any_byte(gen);
    }
}

bool gen_state(struct gen *gen, enum gen_state_kind kind, const struct twin_set *set,
               const uint8_t *table, struct twin_state *state)
{
    switch (kind) {
    case GEN_STATE_REACHABLE:
        return reachable_state(gen, set, table, state);
    case GEN_STATE_FORMED:
        return formed_state(gen, set, state);
    case GEN_STATE_DAMAGED:
        if (!formed_state(gen, set, state))
            return false;
        damage_state(gen, state);
        return true;
    default:
        any_bytes(gen, state, sizeof *state);
        if (gen_chance(gen, 50))
            state->set = twin_set_in_use(set);
        return true;
    }
}
