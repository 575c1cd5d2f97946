/* The twin's own tests: the settled examples of document 01, each rule by hand, and random
 * cases against a listing of all choices and against the observer.
 *
 * ./selftest [divisor [seed]]   the divisor makes the random parts that much shorter */
#include "brute.h"
#include "gen.h"
#include "twin.h"

#include <stdarg.h>
#include <stdio.h>
#include <stdlib.h>
#include <string.h>

static unsigned long passed;
static unsigned long failed;
static unsigned long divisor = 1;
static struct gen gen;

static const struct twin_lent roomy = {
    .state_needed = 256, .state_length = 256, .faults_length = TWIN_MAX_TASKS};

static bool check(bool holds, const char *format, ...)
{
    if (holds) {
        passed++;
        return true;
    }
    failed++;
    va_list arguments;
    va_start(arguments, format);
    fputs("FAILED: ", stdout);
    vprintf(format, arguments);
    putchar('\n');
    va_end(arguments);
    return false;
}

/* ---- helpers ---- */

static struct twin_read_reply read_text(const char *list)
{
    return twin_read((const uint8_t *)list, strlen(list));
}

static struct twin_set set_of(const char *list)
{
    struct twin_read_reply reply = read_text(list);

    check(reply.refusal == TWIN_ACCEPTED, "`%s` is admissible", list);
    return reply.set;
}

/* A table from the text of its slots: task numbers, a dot for idle. */
static size_t table_of(const char *slots, uint8_t *table)
{
    for (size_t i = 0; slots[i] != '\0'; i++)
        table[i] = slots[i] == '.' ? TWIN_IDLE : (uint8_t)(slots[i] - '1');
    return strlen(slots);
}

static bool tasks_equal(const struct twin_task *a, const struct twin_task *b)
{
    return a->period == b->period && a->deadline == b->deadline && a->steps == b->steps &&
           memcmp(a->pattern, b->pattern, sizeof a->pattern) == 0;
}

static bool sets_equal(const struct twin_set *a, const struct twin_set *b)
{
    bool equal = a->count == b->count;

    for (unsigned i = 0; i < TWIN_MAX_TASKS; i++)
        equal = equal && tasks_equal(&a->tasks[i], &b->tasks[i]);
    return equal;
}

static bool progress_equal(const struct twin_progress *a, const struct twin_progress *b)
{
    return a->standing == b->standing && a->cause == b->cause && a->step == b->step &&
           a->given == b->given;
}

static bool all_bytes_are(const void *bytes, size_t count, uint8_t value)
{
    for (size_t i = 0; i < count; i++)
        if (((const uint8_t *)bytes)[i] != value)
            return false;
    return true;
}

/* ---- settled examples: the planner ---- */

enum {
    KEPT = 0xA5 /* the byte all lent buffers are filled with */
};

static void expect_plan(const char *list, size_t area_length, enum twin_outcome outcome,
                        const char *slots, size_t count)
{
    struct twin_set set = set_of(list);
    uint8_t expected[TWIN_MAX_TIME];
    uint8_t table[TWIN_MAX_TIME];
    uint16_t area[64];
    size_t hyper_period = (size_t)twin_hyper_period(&set);

    memset(table, KEPT, sizeof table);
    memset(area, KEPT, sizeof area);
    struct twin_plan_reply reply = twin_plan(&set, table, sizeof table, area, area_length);
    check(reply.refusal == 0 && reply.outcome == outcome && reply.count == count,
          "plan of `%s` in %zu: refusal %u, outcome %d, count %zu", list, area_length,
          reply.refusal, reply.outcome, reply.count);
    memset(expected, TWIN_IDLE, sizeof expected);
    if (outcome == TWIN_SCHEDULE)
        check(table_of(slots, expected) == hyper_period, "`%s` has %zu slots", list,
              hyper_period);
    check(memcmp(table, expected, hyper_period) == 0, "table of `%s`", list);
    check(all_bytes_are(table + hyper_period, sizeof table - hyper_period, KEPT),
          "bytes beyond the table of `%s` are kept", list);
    size_t used = count * (set.count + 1u);
    check(all_bytes_are(area + used, sizeof area - 2 * used, KEPT),
          "numbers beyond the records of `%s` are kept", list);
}

static void settled_planner(void)
{
    expect_plan("1 1 1", 0, TWIN_SCHEDULE, "1", 0);
    expect_plan("1 1 1\n1 1 1", 3, TWIN_INFEASIBLE, NULL, 1);
    expect_plan("1 1 1\n1 1 1", 2, TWIN_OUT_OF_ROOM, NULL, 0);
    expect_plan("3 2 1 1 1", 0, TWIN_INFEASIBLE, NULL, 0);
    expect_plan("3 3 1 1 1", 0, TWIN_SCHEDULE, "1.1", 0);
    expect_plan("4 4 1 1 1", 0, TWIN_SCHEDULE, "1.1.", 0);
    expect_plan("4 4 2\n4 2 1", 0, TWIN_SCHEDULE, "121.", 0);
    expect_plan("4 4 1\n4 2 1\n4 2 1", 7, TWIN_SCHEDULE, "231.", 1);
    expect_plan("4 4 1\n4 2 1\n4 2 1", 3, TWIN_OUT_OF_ROOM, NULL, 0);
    expect_plan("7 7 1 4 1\n6 6 1 3 1", 0, TWIN_SCHEDULE,
                "12...2121..2211.2.21.12.2.1.122..1212...12", 0);
}

static void planner_refusals(void)
{
    struct twin_set set = set_of("4 4 1 1 1");
    uint8_t table[4];
    uint16_t area[2];

    memset(table, KEPT, sizeof table);
    memset(area, KEPT, sizeof area);
    check(twin_plan(&set, table, 3, area, 2).refusal == 7, "a table of 3 for H 4");
    set.tasks[0].deadline = 5;
    check(twin_plan(&set, table, 3, area, 2).refusal == 4,
          "the set is judged before the table");
    check(all_bytes_are(table, sizeof table, KEPT) &&
              all_bytes_are(area, sizeof area, KEPT),
          "a refused plan changes nothing");
}

/* ---- settled examples: the player ---- */

/* Plays single-task reports; `runs` has `r` for run and `.` for idle, `faults` digits. */
static void expect_play(const char *list, const char *slots, const char *reports,
                        const char *runs, const char *faults)
{
    struct twin_set set = set_of(list);
    struct twin_observer observer;
    struct twin_tick_reply reply;
    struct twin_state state;
    uint8_t table[16];
    size_t length = table_of(slots, table);

    check(twin_start(&set, table, length, &roomy, &state) == 0, "start on %s", slots);
    twin_observer_begin(&observer, &set, table);
    for (size_t i = 0; reports[i] != '\0'; i++) {
        uint8_t report = (uint8_t)(reports[i] - '0');
        uint8_t refusal = twin_tick(&state, &report, 1, table, length, &roomy, &reply);

        if (!check(refusal == 0, "tick %zu of %s on %s: %u", i, reports, slots, refusal))
            return;
        check((reply.runner == 0) == (runs[i] == 'r') &&
                  (reply.runner == TWIN_IDLE) == (runs[i] == '.') &&
                  reply.faults[0] == faults[i] - '0',
              "tick %zu of %s on %s: runner %u, fault %u", i, reports, slots, reply.runner,
              reply.faults[0]);
        check(twin_observe(&observer, &report, reply.runner, reply.faults) == 0,
              "nothing wrong at tick %zu of %s", i, reports);
        state = reply.state;
    }
}

static void settled_player(void)
{
    expect_play("3 3 1 1 1", "1.1", "0121", "r.rr", "0000");
    expect_play("3 3 1 1 1", "1.1", "0000", "r..r", "0100");
    expect_play("3 3 1 1 1", "1.1", "0100", "r..r", "0020");
}

static void player_readings(void)
{
    /* An early finish leaves its slots idle; a finish at the deadline is in time. */
    expect_play("4 4 3", "111.", "01000", "r...r", "00000");
    expect_play("3 3 3", "111", "0001", "rrrr", "0000");
    /* A false report at the tick that starts a job: the fault shows, the job runs. */
    expect_play("3 3 1 1 1", "1.1", "0122", "r.rr", "0003");
    expect_play("3 3 1 1 1", "1.1", "0120", "r.rr", "0001");
    expect_play("3 3 1 1 1", "1.1", "2121", "r.rr", "3000");
    /* A done task that reports is stopped once, and stays so until its next job. */
    expect_play("4 4 1 1 1", "1.1.", "01211", "r.r.r", "00003");
    expect_play("4 4 1", "1...", "01210", "r...r", "00300");
    /* The wait may not end in the slot that finishes the step. */
    expect_play("3 3 1 1 1", "1.1", "0200", "r..r", "0300");
    /* Beyond the planned step, waiting or ready: idle, without a fault. */
    expect_play("6 6 2 1 1", "11.1..", "012010", "r..r..", "000000");
    expect_play("6 6 3 1 1", "111.1.", "012001", "r...r.", "000000");
    /* A wait longer than written: late here, but no fault if the plan has time for it. */
    expect_play("4 4 1 1 1", "1.1.", "01020", "r...r", "00200");
    expect_play("4 4 1 1 1", "1..1", "01021", "r..rr", "00000");
}

/* ---- refusals of a start and a tick ---- */

static void start_refusals(void)
{
    const struct twin_lent too_short = {.state_needed = 9, .state_length = 8};
    struct twin_set set = set_of("3 3 1 1 1");
    struct twin_state state;
    uint8_t table[4] = {0, TWIN_IDLE, 0, 0};
    uint8_t wrong[3] = {0, 0, TWIN_IDLE};

    memset(&state, KEPT, sizeof state);
    check(twin_start(&set, table, 4, &roomy, &state) == 12, "start: table too long");
    check(twin_start(&set, table, 2, &roomy, &state) == 12, "start: table too short");
    check(twin_start(&set, wrong, 3, &too_short, &state) == 12, "start: 12 before 8");
    check(twin_start(&set, table, 3, &too_short, &state) == 8, "start: short buffer");
    set.tasks[0].steps = 5;
    check(twin_start(&set, wrong, 3, &too_short, &state) == 2, "start: 2 before 12");
    check(all_bytes_are(&state, sizeof state, KEPT), "a refused start changes nothing");

    struct twin_set unlivable = set_of("3 2 1 1 1");
    check(twin_start(&unlivable, table, 3, &roomy, &state) == 12, "start: start not live");
}

static void start_clears_unused_entries(void)
{
    struct twin_set clean = set_of("3 3 1 1 1");
    struct twin_set littered = clean;
    struct twin_state state;
    uint8_t table[3] = {0, TWIN_IDLE, 0};

    gen_litter(&gen, &littered);
    check(twin_set_refusal(&littered) == 0, "entries not in use are ignored");
    check(twin_start(&littered, table, 3, &roomy, &state) == 0, "start of a littered set");
    check(sets_equal(&state.set, &clean), "a start writes zeros there");
    check(twin_form(&state) == 0, "a fresh state is of the stated form");
    state.set = littered;
    check(twin_form(&state) == 10, "a littered state isn't");
}

static void tick_refusals(void)
{
    struct twin_lent short_state = {
        .state_needed = 9, .state_length = 8, .faults_length = 1};
    struct twin_lent short_faults = {.faults_length = 0};
    struct twin_set set = set_of("3 3 1 1 1");
    struct twin_tick_reply reply;
    struct twin_state state;
    uint8_t table[4] = {0, TWIN_IDLE, 0, 0};
    uint8_t reports[2] = {0, 0};

    check(twin_start(&set, table, 3, &roomy, &state) == 0, "start");
    struct twin_state bad = state;
    bad.slot = 3;
    memset(&reply, KEPT, sizeof reply);
    check(twin_tick(&bad, reports, 2, table, 4, &short_state, &reply) == 10, "10 first");
    check(twin_tick(&state, reports, 2, table, 4, &short_state, &reply) == 11, "then 11");
    check(twin_tick(&state, reports, 0, table, 4, &short_state, &reply) == 11, "no report");
    check(twin_tick(&state, reports, 1, table, 4, &short_state, &reply) == 12, "then 12");
    check(twin_tick(&state, reports, 1, table, 2, &roomy, &reply) == 12, "table too short");
    table[0] = 1;
    check(twin_tick(&state, reports, 1, table, 3, &short_state, &reply) == 12,
          "no such task");
    table[0] = TWIN_IDLE;
    check(twin_tick(&state, reports, 1, table, 3, &roomy, &reply) == 12,
          "to no live position");
    table[0] = 0;
    check(twin_tick(&state, reports, 1, table, 3, &short_state, &reply) == 8,
          "then 8: state");
    check(twin_tick(&state, reports, 1, table, 3, &short_faults, &reply) == 8, "8: faults");
    check(all_bytes_are(&reply, sizeof reply, KEPT), "a refused tick changes nothing");
    table[1] = table[2] = 77;
    check(twin_tick(&state, reports, 1, table, 3, &roomy, &reply) == 0,
          "only this slot's entry is looked at");
}

/* L above D: the end of the slot may live where the position after a restart doesn't. */
static void tick_tests_the_restart(void)
{
    struct twin_set set = set_of("2 1 2");
    struct twin_state state = {.set = set, .slot = 1, .planned = {2}, .last = TWIN_IDLE};
    struct twin_tick_reply reply;
    uint8_t table[2] = {TWIN_IDLE, TWIN_IDLE};
    uint8_t report = 0;

    state.tasks[0].standing = TWIN_DONE;
    check(twin_form(&state) == 0, "a done task with L above D is live between releases");
    check(twin_tick(&state, &report, 1, table, 2, &roomy, &reply) == 12,
          "its restart isn't live");
}

/* The owner of a slot against its planned step, from states no play needs to reach. */
static void expect_service(struct twin_progress at, uint8_t runner, uint8_t fault)
{
    struct twin_state state = {
        .set = set_of("9 9 2 1 2 1 1"), .slot = 3, .planned = {3}, .last = TWIN_IDLE};
    struct twin_tick_reply reply;
    uint8_t table[9] = {0, 0, TWIN_IDLE, 0, 0, TWIN_IDLE, 0, TWIN_IDLE, TWIN_IDLE};
    uint8_t report = 0;

    state.tasks[0] = at;
    check(twin_tick(&state, &report, 1, table, 9, &roomy, &reply) == 0 &&
              reply.runner == runner && reply.faults[0] == fault,
          "standing %u in step %u: runner %u, fault %u", at.standing, at.step, reply.runner,
          reply.faults[0]);
    check(reply.state.slot == 4 && reply.state.planned[0] == 4 &&
              reply.state.last == reply.runner,
          "the plan goes on");
}

static void owner_against_plan(void)
{
    expect_service((struct twin_progress){.standing = TWIN_READY, .step = 1}, 0, 0);
    expect_service((struct twin_progress){.standing = TWIN_READY, .step = 0}, 255,
                   TWIN_LATE);
    expect_service((struct twin_progress){.standing = TWIN_READY, .step = 2}, 255, 0);
    expect_service((struct twin_progress){.standing = TWIN_WAITING, .step = 0}, 255,
                   TWIN_LATE);
    expect_service((struct twin_progress){.standing = TWIN_WAITING, .step = 1}, 255, 0);
    expect_service((struct twin_progress){.standing = TWIN_DONE}, 255, 0);
    expect_service((struct twin_progress){.standing = TWIN_STOPPED, .cause = TWIN_OVERRUN},
                   255, 0);
}

/* ---- the form of a state ---- */

static struct twin_state formed_example(void)
{
    struct twin_state state = {
        .set = set_of("6 6 2 1 1\n4 4 1"), .slot = 5, .planned = {4, 1}, .last = TWIN_IDLE};

    state.tasks[0].standing = TWIN_DONE;
    state.tasks[1].standing = TWIN_READY;
    return state;
}

static void expect_form(struct twin_state state, uint8_t form, const char *what)
{
    check(twin_form(&state) == form, "form of a state: %s", what);
}

static void form_of_tasks(void)
{
    struct twin_state state = formed_example();

    expect_form(state, 0, "the example itself");
    state.tasks[0] = (struct twin_progress){.standing = TWIN_READY, .step = 0, .given = 1};
    expect_form(state, 0, "ready with a slot given");
    state.last = 0;
    expect_form(state, 0, "and run last");
    state.tasks[0].given = 2;
    expect_form(state, 0, "all slots given to the one that ran last");
    state.last = TWIN_IDLE;
    expect_form(state, 10, "all slots given to one that didn't run last");
    state.last = 0;
    state.tasks[0].given = 3;
    expect_form(state, 10, "more slots than the step has");
    state.tasks[0].given = 0;
    expect_form(state, 10, "the last runner without a slot");
    state.last = TWIN_IDLE;
    state.tasks[0].step = 2;
    expect_form(state, 10, "a step beyond the pattern");
    state.tasks[0] = (struct twin_progress){.standing = TWIN_READY, .cause = TWIN_LATE};
    expect_form(state, 10, "ready with a cause");
    state.tasks[0] = (struct twin_progress){.standing = TWIN_WAITING};
    expect_form(state, 0, "waiting after the first step");
    state.tasks[0].step = 1;
    expect_form(state, 10, "waiting after the last step");
    state.tasks[0] = (struct twin_progress){.standing = TWIN_WAITING, .given = 1};
    expect_form(state, 10, "waiting with slots given");
    state.tasks[0] = (struct twin_progress){.standing = TWIN_DONE, .step = 1};
    expect_form(state, 10, "done with a step");
    state.tasks[0] = (struct twin_progress){.standing = TWIN_STOPPED};
    expect_form(state, 10, "stopped without a cause");
    state.tasks[0].cause = TWIN_FALSE_REPORT;
    expect_form(state, 0, "stopped for a false report");
    state.tasks[0].cause = 4;
    expect_form(state, 10, "stopped for another cause");
    state.tasks[0] = (struct twin_progress){.standing = 4};
    expect_form(state, 10, "another standing");
}

static void form_of_the_rest(void)
{
    struct twin_state state = formed_example();

    state.last = 0;
    expect_form(state, 10, "the last runner is done");
    state.last = 2;
    expect_form(state, 10, "the last runner doesn't exist");
    state = formed_example();
    state.slot = 12;
    expect_form(state, 10, "slot H");
    state = formed_example();
    state.slot = 6;
    expect_form(state, 10, "progress at a release");
    state = formed_example();
    state.planned[0] = 2;
    expect_form(state, 10, "planned position not live");
    state.planned[0] = 3;
    expect_form(state, 0, "planned position just live");
    state.planned[0] = 5;
    expect_form(state, 10, "planned progress beyond the length");
    state = formed_example();
    state.planned[2] = 1;
    expect_form(state, 10, "planned progress beyond the tasks");
    state = formed_example();
    state.tasks[7].given = 1;
    expect_form(state, 10, "slots given beyond the tasks");
    state = formed_example();
    state.set.tasks[0].pattern[3] = 1;
    expect_form(state, 10, "a pattern entry not in use");
    state = formed_example();
    state.set.tasks[2].period = 1;
    expect_form(state, 10, "a task not in use");
    state = formed_example();
    state.set.tasks[0].deadline = 7;
    expect_form(state, 10, "an invalid set");
}

/* ---- lists ---- */

static void expect_list(const char *list, uint8_t refusal, size_t line, const char *shown)
{
    struct twin_read_reply reply = read_text(list);

    check(reply.refusal == refusal && reply.line == line &&
              reply.shown_length == strlen(shown) &&
              memcmp(list + reply.shown_start, shown, reply.shown_length) == 0,
          "`%s`: refusal %u in line %zu, %zu bytes from %zu", list, reply.refusal,
          reply.line, reply.shown_length, reply.shown_start);
}

static void settled_lists(void)
{
    expect_list("4096 1 1", 0, 0, "");
    expect_list("4097 4 1", 3, 1, "4097 4 1");
    expect_list("7 8 1", 4, 1, "7 8 1");
    expect_list("7 8 0", 3, 1, "7 8 0");
    expect_list("7 7 1 4", 2, 1, "7 7 1 4");
    expect_list("64 64 1\n63 63 1", 0, 0, "");
    expect_list("65 65 1\n64 64 1", 6, 0, "");
    struct twin_set set = set_of("64 64 1\n63 63 1");
    check(twin_hyper_period(&set) == 4032, "periods 64 and 63 give 4,032");
    set.tasks[0].period = 65;
    set.tasks[1].period = 64;
    check(twin_hyper_period(&set) == 4160, "periods 65 and 64 give 4,160");
}

static void list_readings(void)
{
    expect_list("", 5, 0, "");
    expect_list("\n  \n# 1 1 1", 5, 0, "");
    expect_list("#\n\n  7 7 1 4 1  \n", 0, 0, "");
    expect_list("0007 7 1", 0, 0, "");
    expect_list("00007 7 1\n", 2, 1, "00007 7 1");
    expect_list("1 1 1\n #1 1 1\n", 2, 2, " #1 1 1");
    expect_list("1 1 1\r\n", 2, 1, "1 1 1\r");
    expect_list("#\r\t\xff\n1 1 1\n\r", 2, 3, "\r");
    expect_list("1\t1 1", 2, 1, "1\t1 1");
    expect_list("1 1 1\n1", 2, 2, "1");
    expect_list("9 9 1 1 1 1 1 1 1", 0, 0, "");
    expect_list("9 9 1 1 1 1 1 1 1 1 1", 2, 1, "9 9 1 1 1 1 1 1 1 1 1");
    expect_list("9 9 256", 3, 1, "9 9 256");
    expect_list("9 9 255", 0, 0, "");
    expect_list("0 0 1", 3, 1, "0 0 1");
    expect_list("1 2 1\n5 6 0", 4, 1, "1 2 1");
    expect_list("9999 1 x", 2, 1, "9999 1 x");
    expect_list("1 1 1\n1 1 1\n1 1 1\n1 1 1\n1 1 1\n1 1 1\n1 1 1\n1 1 1\n \n#\nx y\n", 5,
                11, "x y");
    expect_list("1 1 1\n1 1 1\n1 1 1\n1 1 1\n1 1 1\n1 1 1\n1 1 1\n1 1 1\n \n#", 0, 0, "");
}

static void list_lengths(void)
{
    static uint8_t list[TWIN_MAX_LIST + 1];

    memset(list, ' ', sizeof list);
    memcpy(list, "1 1 1\n", 6);
    check(twin_read(list, TWIN_MAX_LIST).refusal == 0, "4,096 bytes are a list");
    struct twin_read_reply reply = twin_read(list, TWIN_MAX_LIST + 1);
    check(reply.refusal == 1 && reply.line == 0 && reply.shown_length == 0 &&
              reply.shown_start == 0,
          "4,097 bytes are refusal 1");
    for (size_t i = 0; i < sizeof list; i++)
        list[i] = i % 2 == 0 ? '7' : ' ';
    reply = twin_read(list, TWIN_MAX_LIST);
    check(reply.refusal == 2 && reply.shown_length == TWIN_MAX_LIST,
          "a line of 2,048 fields is refusal 2");
}

/* Every byte value in every place of a small list. */
static void list_bytes(void)
{
    static const char good[] = "12 12 1 2 3";
    const size_t length = sizeof good - 1;

    for (size_t at = 0; at < length; at++) {
        for (unsigned value = 0; value < 256; value++) {
            uint8_t list[sizeof good];
            memcpy(list, good, sizeof good);
            list[at] = (uint8_t)value;
            bool known = strchr("0123456789 ", (int)value) != NULL && value != 0;
            bool skipped = value == '#' && at == 0;
            bool cut = value == '\n';
            uint8_t refusal = twin_read(list, length).refusal;
            if (skipped)
                check(refusal == 5, "comment");
            else if (!known && !cut)
                check(refusal == 2, "byte %u at %zu: refusal %u", value, at, refusal);
            else
                check(refusal <= 5, "byte %u at %zu: refusal %u", value, at, refusal);
        }
    }
}

static void record_refusals(void)
{
    struct twin_set set = set_of("7 7 1 4 1\n6 6 1");

    check(twin_set_refusal(&set) == 0, "a valid record");
    set.count = 0;
    check(twin_set_refusal(&set) == 5, "no task");
    set.count = 9;
    check(twin_set_refusal(&set) == 5, "nine tasks");
    set.count = 3;
    check(twin_set_refusal(&set) == 2, "a third task without steps");
    set.count = 2;
    set.tasks[1].deadline = 7;
    check(twin_set_refusal(&set) == 4, "deadline after period");
    set.tasks[1].pattern[0] = 0;
    check(twin_set_refusal(&set) == 3, "3 before 4");
    set.tasks[1].steps = 5;
    check(twin_set_refusal(&set) == 2, "2 before 3");
    set.tasks[0].deadline = 8;
    check(twin_set_refusal(&set) == 4, "the first bad task decides");
    set = set_of("65 65 1\n1 1 1");
    set.tasks[1].period = 64;
    check(twin_set_refusal(&set) == 6, "hyper-period above 4,096");
    for (unsigned i = 0; i < TWIN_MAX_TASKS; i++)
        set.tasks[i] = (struct twin_task){(uint16_t)(4096 - i), 1, 1, {1}};
    set.count = TWIN_MAX_TASKS;
    check(twin_set_refusal(&set) == 6, "hyper-period far above 64 bits");
}

/* ---- the program's text ---- */

static void expect_text(const char *list, const char *expected)
{
    char text[TWIN_MAX_TEXT];
    size_t length = twin_text((const uint8_t *)list, strlen(list), text, sizeof text);

    check(length == strlen(expected) && memcmp(text, expected, length) == 0,
          "text of `%s` is `%.*s`", list, (int)length, text);
}

static void settled_texts(void)
{
    expect_text("7 7 1 4 1\n6 6 1 3 1\n",
                "schedule 42 0\n12...2121..2211.2.21.12.2.1.122..1212...12\n");
    expect_text("1 1 1\n1 1 1\n", "infeasible 1\n");
    expect_text("3 2 1 1 1\n", "infeasible 0\n");
    expect_text("#\n7 8 1\n", "refused 4 2\n");
    expect_text("", "refused 5 0\n");
    expect_text("64 1 1", "schedule 64 0\n"
                          "1..............................................................."
                          "\n");
    expect_text("65 1 1", "schedule 65 0\n"
                          "1..............................................................."
                          "\n.\n");

    char text[8] = "kept";
    check(twin_text((const uint8_t *)"", 0, text, 11) == 12 && strcmp(text, "kept") == 0,
          "a text that doesn't fit isn't written");
}

static void example_two(void)
{
    static const char list[] = "10 10 2 2 4\n20 20 2 8 2\n11 11 2\n";
    char text[TWIN_MAX_TEXT];
    struct twin_set set = set_of(list);
    uint8_t table[TWIN_MAX_TIME];
    struct twin_state state;
    size_t length = twin_text((const uint8_t *)list, strlen(list), text, sizeof text);

    printf("Example 2 of document 001, as `plan` writes it:\n%.*s", (int)length, text);
    gen_table(&gen, GEN_TABLE_GOOD, &set, table);
    check(twin_start(&set, table, 220, &roomy, &state) == 0, "Example 2 has a schedule");
}

/* ---- the observer finds bad players ---- */

/* One task `3 3 1 1 1` on `1.1`: what is found in the first tick that shows something. */
static void expect_finding(const char *reports, const char *runs, const char *faults,
                           enum twin_finding expected)
{
    static const uint8_t table[3] = {0, TWIN_IDLE, 0};
    struct twin_set set = set_of("3 3 1 1 1");
    enum twin_finding finding = TWIN_NOTHING_WRONG;
    struct twin_observer observer;

    twin_observer_begin(&observer, &set, table);
    for (size_t i = 0; reports[i] != '\0' && finding == TWIN_NOTHING_WRONG; i++) {
        uint8_t report = (uint8_t)(reports[i] - '0');
        uint8_t runner = runs[i] == 'r' ? 0 : runs[i] == '.' ? TWIN_IDLE : 1;
        uint8_t fault = (uint8_t)(faults[i] - '0');
        finding = twin_observe(&observer, &report, runner, &fault);
    }
    check(finding == expected, "reports %s, runs %s, faults %s: finding %d", reports, runs,
          faults, finding);
}

static void observer_finds(void)
{
    expect_finding("0121", "r.rr", "0000", TWIN_NOTHING_WRONG);
    expect_finding("0000", "....", "0000", TWIN_KEEPER_UNFINISHED); /* always idle */
    expect_finding("0121000", "r.r....", "0000000",
                   TWIN_KEEPER_UNFINISHED); /* first job only */
    expect_finding("012", "r..", "000", TWIN_NOTHING_WRONG);
    expect_finding("0120", "r..r", "0000", TWIN_KEEPER_UNFINISHED);
    expect_finding("01", "rr", "00", TWIN_NOT_THE_OWNER);
    expect_finding("01", "r2", "00", TWIN_NOT_THE_OWNER);
    expect_finding("010", "r.r", "000", TWIN_SLOT_WHILE_WAITING);
    expect_finding("000", "r.r", "010", TWIN_SLOT_BEYOND_STEP);
    expect_finding("01", "r.", "02", TWIN_KEEPER_FAULTED);
    expect_finding("01", "r.", "04", TWIN_UNKNOWN_FAULT);
    expect_finding("0122", "r.rr", "0003", TWIN_NOTHING_WRONG);
    expect_finding("0121", "r.rr", "0003", TWIN_KEEPER_FAULTED);
}

/* One task `4 4 2` on `11..`, served in both slots whatever it reports between them. */
static void expect_finding_in_second_slot(uint8_t step, uint8_t report, uint8_t fault,
                                          enum twin_finding expected)
{
    static const uint8_t table[4] = {0, 0, TWIN_IDLE, TWIN_IDLE};
    struct twin_set set = set_of("4 4 2");
    struct twin_observer observer;
    uint8_t nothing = 0;

    set.tasks[0].pattern[0] = step;
    twin_observer_begin(&observer, &set, table);
    check(twin_observe(&observer, &nothing, 0, &nothing) == 0, "the first slot is right");
    check(twin_observe(&observer, &report, 0, &fault) == expected,
          "a second slot after report %u in a step of %u", report, step);
}

static void observer_finds_surplus(void)
{
    expect_finding_in_second_slot(2, 0, 0, TWIN_NOTHING_WRONG);
    expect_finding_in_second_slot(2, 1, 0, TWIN_SLOT_AFTER_FINISH);
    expect_finding_in_second_slot(2, 2, 3, TWIN_SLOT_AFTER_STOP);
    expect_finding_in_second_slot(2, 2, 0, TWIN_SLOT_AFTER_STOP);
    expect_finding_in_second_slot(1, 0, 1, TWIN_SLOT_BEYOND_STEP);
}

/* Two records must not be the same, and none may be another position. */
static void area_test(void)
{
    struct twin_set set = set_of("2 2 1\n2 2 1\n2 2 1");
    struct twin_search search;
    size_t count;
    uint16_t area[8];

    twin_search_run(&set, 100, &search);
    const uint16_t *dead = twin_dead_list(&search, &count);
    if (check(count >= 2, "dead positions of three tasks in two slots")) {
        memcpy(area, dead, sizeof area);
        check(twin_area_holds_dead(&search, area, 2), "two dead positions");
        memcpy(area + 4, area, 4 * sizeof *area);
        check(!twin_area_holds_dead(&search, area, 2), "the same one twice");
        area[4] = 2;
        check(!twin_area_holds_dead(&search, area, 2), "one that isn't dead");
    }
    twin_search_free(&search);
}

/* ---- random cases ---- */

/* Few enough lists of choices to list them all. */
static bool brute_can(const struct twin_set *set)
{
    uint64_t hyper_period = twin_hyper_period(set);

    if (set->count <= 2)
        return hyper_period <= BRUTE_MAX_HYPER;
    return hyper_period <= (set->count <= 4 ? 8 : 4);
}

static struct twin_set tiny_set(void)
{
    struct twin_set set;

    do
        set = gen_set(&gen, gen_chance(&gen, 60) ? GEN_SET_SMALL : GEN_SET_TIGHT);
    while (!brute_can(&set));
    return set;
}

static bool brute_has(const struct brute *brute, const uint16_t *record, unsigned width)
{
    for (size_t i = 0; i < brute->dead_count; i++)
        if (memcmp(brute->dead[i], record, width * sizeof *record) == 0)
            return true;
    return false;
}

static void compare_with_brute(const struct twin_set *set, const struct brute *brute)
{
    struct twin_search search;
    size_t count;

    twin_search_run(set, BRUTE_MAX_DEAD, &search);
    const uint16_t *dead = twin_dead_list(&search, &count);
    check((search.outcome == TWIN_SCHEDULE) == brute->feasible &&
              search.outcome != TWIN_OUT_OF_ROOM,
          "outcome %d against the listing", search.outcome);
    if (brute->feasible)
        check(memcmp(search.table, brute->first, search.hyper_period) == 0,
              "first schedule");
    bool same = count == brute->dead_count;
    for (size_t i = 0; i < count; i++)
        same = same && brute_has(brute, dead + i * (set->count + 1u), set->count + 1u);
    check(same, "%zu dead positions, %zu in the listing", count, brute->dead_count);
    twin_search_free(&search);
}

/* The planner's whole reply in one room, compared with a search that knows no room. */
static void compare_in_room(const struct twin_set *set, const struct twin_search *search,
                            size_t area_length)
{
    static uint16_t area[TWIN_PLAN_AREA];
    static uint8_t table[TWIN_MAX_TIME + 1];
    unsigned width = set->count + 1u;
    size_t room = area_length / width;

    memset(area, KEPT, sizeof area);
    memset(table, KEPT, sizeof table);
    struct twin_plan_reply expected = twin_reply_for_room(search, room);
    size_t table_length = search->hyper_period + gen_below(&gen, 2);
    struct twin_plan_reply reply = twin_plan(set, table, table_length, area, area_length);
    check(reply.refusal == 0 && reply.outcome == expected.outcome &&
              reply.count == expected.count,
          "reply in room %zu", room);
    check(twin_area_holds_dead(search, area, reply.count), "records in room %zu", room);
    check(all_bytes_are(area + reply.count * width, sizeof area - 2 * reply.count * width,
                        KEPT),
          "kept numbers in room %zu", room);
    bool table_right = reply.outcome == TWIN_SCHEDULE
                           ? memcmp(table, search->table, search->hyper_period) == 0
                           : all_bytes_are(table, search->hyper_period, TWIN_IDLE);
    check(table_right && table[search->hyper_period] == KEPT, "table in room %zu", room);
}

static void compare_in_rooms(const struct twin_set *set)
{
    struct twin_search search;
    size_t width = set->count + 1u;

    twin_search_run(set, TWIN_PLAN_AREA, &search);
    size_t needed = search.dead.count * width;
    if (needed <= TWIN_PLAN_AREA)
        compare_in_room(set, &search, needed);
    if (needed > 0)
        compare_in_room(set, &search,
                        (needed < TWIN_PLAN_AREA ? needed : TWIN_PLAN_AREA) - 1);
    compare_in_room(set, &search, gen_below(&gen, 64));
    twin_search_free(&search);
}

static void random_tiny_plans(void)
{
    static struct brute brute;

    for (unsigned long i = 0; i < 4000 / divisor; i++) {
        struct twin_set set = tiny_set();
        brute_plan(&set, &brute);
        check(brute.dead_count < BRUTE_MAX_DEAD, "the listing has room");
        compare_with_brute(&set, &brute);
        compare_in_rooms(&set);
    }
}

static void random_large_plans(void)
{
    for (unsigned long i = 0; i < 100 / divisor + 1; i++) {
        struct twin_set set = gen_set(&gen, GEN_SET_LARGE);
        if (check(twin_set_refusal(&set) == 0, "a large set is admissible"))
            compare_in_rooms(&set);
    }
    /* The deepest search there is. */
    struct twin_set deep = set_of("4096 4096 255 255 255 255 255 255 255");
    compare_in_rooms(&deep);
}

/* Plays on with reports of that kind; false as soon as something is wrong. */
static bool play(const struct twin_set *set, const uint8_t *table,
                 enum gen_report_kind kind, unsigned long ticks, unsigned long *faults)
{
    size_t length = (size_t)twin_hyper_period(set);
    uint8_t reports[TWIN_MAX_TASKS];
    struct twin_observer observer;
    struct twin_tick_reply reply;
    struct twin_state state;

    if (twin_start(set, table, length, &roomy, &state) != 0)
        return false;
    twin_observer_begin(&observer, set, table);
    for (; ticks > 0; ticks--) {
        gen_reports(&gen, kind, &observer, reports);
        if (twin_tick(&state, reports, set->count, table, length, &roomy, &reply) != 0)
            return false;
        if (twin_observe(&observer, reports, reply.runner, reply.faults) != 0)
            return false;
        for (unsigned i = 0; i < set->count; i++)
            *faults += reply.faults[i] != 0;
        state = reply.state;
    }
    return true;
}

static void feasible_set(struct twin_set *set, uint8_t *table)
{
    struct twin_state state;
    size_t length;

    do {
        *set = gen_set(&gen, GEN_SET_SMALL);
        length = gen_table(&gen, GEN_TABLE_GOOD, set, table);
    } while (twin_start(set, table, length, &roomy, &state) != 0);
}

static void random_plays(void)
{
    unsigned long faults[GEN_REPORT_KINDS] = {0};

    for (unsigned long i = 0; i < 600 / divisor + GEN_REPORT_KINDS; i++) {
        enum gen_report_kind kind = (enum gen_report_kind)(i % GEN_REPORT_KINDS);
        uint8_t table[GEN_MAX_TABLE];
        struct twin_set set;

        feasible_set(&set, table);
        check(play(&set, table, kind, 5000, &faults[kind]), "play %lu of kind %d", i, kind);
    }
    check(faults[GEN_REPORT_EXACT] == 0 && faults[GEN_REPORT_EARLY] == 0,
          "compliant reports bring no fault");
    check(faults[GEN_REPORT_LATE] > 0 && faults[GEN_REPORT_FALSE] > 0 &&
              faults[GEN_REPORT_GARBAGE] > 0 && faults[GEN_REPORT_MIXED] > 0,
          "others do");
}

/* The bad players the document names. */
enum bad_player {
    ALWAYS_IDLES,
    NEVER_CHANGES_ITS_STATE,
    SERVES_FIRST_JOBS_ONLY,
    BAD_PLAYERS
};

static void spoil_reply(enum bad_player bad, const struct twin_set *set, size_t tick,
                        const struct twin_state *before, struct twin_tick_reply *reply)
{
    uint8_t runner = reply->runner;

    if (bad == NEVER_CHANGES_ITS_STATE) {
        reply->state = *before;
    } else if (bad == ALWAYS_IDLES ||
               (runner != TWIN_IDLE && tick >= set->tasks[runner].period)) {
        reply->runner = TWIN_IDLE;
        memset(reply->faults, 0, sizeof reply->faults);
    }
}

static enum twin_finding observe_bad_player(enum bad_player bad, const struct twin_set *set,
                                            const uint8_t *table, size_t length)
{
    enum twin_finding finding = TWIN_NOTHING_WRONG;
    uint8_t reports[TWIN_MAX_TASKS];
    struct twin_observer observer;
    struct twin_tick_reply reply;
    struct twin_state state;

    twin_start(set, table, length, &roomy, &state);
    twin_observer_begin(&observer, set, table);
    for (size_t tick = 0; tick <= 2 * length && finding == TWIN_NOTHING_WRONG; tick++) {
        gen_reports(&gen, GEN_REPORT_EXACT, &observer, reports);
        twin_tick(&state, reports, set->count, table, length, &roomy, &reply);
        spoil_reply(bad, set, tick, &state, &reply);
        finding = twin_observe(&observer, reports, reply.runner, reply.faults);
        state = reply.state;
    }
    return finding;
}

static void random_bad_players(void)
{
    for (unsigned long i = 0; i < 600 / divisor + BAD_PLAYERS; i++) {
        struct twin_set set;
        uint8_t table[GEN_MAX_TABLE];
        enum bad_player bad = (enum bad_player)(i % BAD_PLAYERS);

        feasible_set(&set, table);
        check(observe_bad_player(bad, &set, table, (size_t)twin_hyper_period(&set)) != 0,
              "a player of kind %d is found out", bad);
    }
}

static bool shown_is_a_line(const uint8_t *list, size_t length,
                            const struct twin_read_reply *reply)
{
    size_t start = reply->shown_start;
    size_t end = start + reply->shown_length;
    size_t line = 1;

    if (reply->line == 0)
        return start == 0 && end == 0;
    for (size_t i = 0; i < start; i++)
        line += list[i] == '\n';
    return line == reply->line && end <= length &&
           (start == 0 || list[start - 1] == '\n') &&
           (end == length || list[end] == '\n') &&
           memchr(list + start, '\n', end - start) == NULL;
}

static void random_lists(void)
{
    const struct twin_set empty = {0};
    static uint8_t list[GEN_MAX_LIST];
    unsigned long refusals[7] = {0};

    for (unsigned long i = 0; i < 20000 / divisor; i++) {
        enum gen_list_kind kind = (enum gen_list_kind)(i % GEN_LIST_KINDS);
        size_t length = gen_list(&gen, kind, list);
        struct twin_read_reply reply = twin_read(list, length);
        bool right = reply.refusal <= 6 && shown_is_a_line(list, length, &reply) &&
                     (reply.refusal == 1) == (length > TWIN_MAX_LIST);

        if (reply.refusal == 0)
            right = right && twin_set_refusal(&reply.set) == 0;
        else
            right = right && sets_equal(&reply.set, &empty);
        check(right, "list %lu of kind %d: refusal %u", i, kind, reply.refusal);
        check(kind != GEN_LIST_GOOD || reply.refusal == 0, "a good list is taken");
        if (reply.refusal <= 6)
            refusals[reply.refusal]++;
    }
    for (unsigned i = 0; i <= 6; i++)
        check(refusals[i] > 0 || divisor > 1, "some list has refusal %u", i);
}

static void random_lists_of_sets(void)
{
    static uint8_t list[GEN_MAX_LIST];

    for (unsigned long i = 0; i < 3000 / divisor; i++) {
        struct twin_set set = gen_set(&gen, (enum gen_set_kind)(i % (GEN_SET_LARGE + 1)));
        size_t length = gen_list_of_set(&gen, &set, list);
        struct twin_read_reply reply = twin_read(list, length);

        check(reply.refusal == 0 && sets_equal(&reply.set, &set), "a set read back");
    }
}

static void random_sets(void)
{
    unsigned long refusals[8] = {0};

    for (unsigned long i = 0; i < 5000 / divisor; i++) {
        enum gen_set_kind kind = (enum gen_set_kind)(i % GEN_SET_KINDS);
        struct twin_set set = gen_set(&gen, kind);
        uint8_t refusal = twin_set_refusal(&set);

        check(refusal <= 6 && (kind > GEN_SET_LARGE || refusal == 0), "set of kind %d",
              kind);
        if (refusal <= 6)
            refusals[refusal]++;
    }
    for (unsigned i = 2; i <= 6; i++)
        check(refusals[i] > 0 || divisor > 1, "some set has refusal %u", i);
}

/* A tick of any state keeps the form, or refuses with 10, 11 or 12. */
static void tick_any_state(const struct twin_set *set, const uint8_t *table, size_t length,
                           enum gen_state_kind kind, unsigned long *refusals)
{
    uint8_t reports[TWIN_MAX_TASKS];
    struct twin_tick_reply reply;
    struct twin_state state;

    if (!gen_state(&gen, kind, set, table, &state))
        return;
    uint8_t form = twin_form(&state);
    check(kind > GEN_STATE_FORMED || form == 0, "state of kind %d has the form", kind);
    for (unsigned i = 0; i < TWIN_MAX_TASKS; i++)
        reports[i] = (uint8_t)gen_below(&gen, 4);
    uint8_t refusal =
        twin_tick(&state, reports, state.set.count, table, length, &roomy, &reply);
    check(refusal == 0 || refusal == 10 || refusal == 12, "refusal %u of a tick", refusal);
    check((refusal == 10) == (form == 10), "10 exactly for states without the form");
    if (refusal == 0)
        check(twin_form(&reply.state) == 0, "a tick keeps the form");
    refusals[refusal]++;
}

static void random_states(void)
{
    unsigned long refusals[13] = {0};

    for (unsigned long i = 0; i < 20000 / divisor; i++) {
        enum gen_set_kind set_kind = i % 3 == 0 ? GEN_SET_TIGHT : GEN_SET_SMALL;
        struct twin_set set = gen_set(&gen, set_kind);
        uint8_t table[GEN_MAX_TABLE];
        enum gen_table_kind table_kind =
            (enum gen_table_kind)gen_below(&gen, GEN_TABLE_KINDS);
        size_t length = gen_table(&gen, table_kind, &set, table);

        tick_any_state(&set, table, length, (enum gen_state_kind)(i % GEN_STATE_KINDS),
                       refusals);
    }
    check(refusals[0] > 0 && refusals[10] > 0 && refusals[12] > 0, "every reply of a tick");
}

/* Entries that are ignored don't change a plan. */
static void random_litter(void)
{
    for (unsigned long i = 0; i < 500 / divisor; i++) {
        struct twin_set set = gen_set(&gen, GEN_SET_SMALL);
        struct twin_set littered = set;
        uint8_t a[GEN_MAX_TABLE];
        uint8_t b[GEN_MAX_TABLE];

        gen_litter(&gen, &littered);
        size_t length = gen_table(&gen, GEN_TABLE_GOOD, &set, a);
        check(gen_table(&gen, GEN_TABLE_GOOD, &littered, b) == length &&
                  memcmp(a, b, length) == 0,
              "the plan of a littered set");
    }
}

/* The fresh state written out once, as the document says it. */
static void fresh_state_parts(void)
{
    const struct twin_progress done = {.standing = TWIN_DONE};
    const struct twin_progress zero = {0};
    struct twin_set set = set_of("4 4 2\n4 2 1");
    struct twin_state state;
    uint8_t table[4];

    table_of("121.", table);
    check(twin_start(&set, table, 4, &roomy, &state) == 0, "start on 121.");
    check(state.slot == 0 && state.last == TWIN_IDLE && state.planned[0] == 0 &&
              state.planned[1] == 0 && progress_equal(&state.tasks[0], &done) &&
              progress_equal(&state.tasks[1], &done) &&
              progress_equal(&state.tasks[2], &zero),
          "a fresh state");
}

int main(int argc, char **argv)
{
    uint64_t seed = argc > 2 ? strtoull(argv[2], NULL, 10) : 20240601;

    if (argc > 1 && strtoul(argv[1], NULL, 10) > 0)
        divisor = strtoul(argv[1], NULL, 10);
    gen_seed(&gen, seed);
    printf("seed %llu, divisor %lu\n", (unsigned long long)seed, divisor);
    settled_planner();
    planner_refusals();
    settled_player();
    player_readings();
    start_refusals();
    start_clears_unused_entries();
    fresh_state_parts();
    tick_refusals();
    tick_tests_the_restart();
    owner_against_plan();
    form_of_tasks();
    form_of_the_rest();
    settled_lists();
    list_readings();
    list_lengths();
    list_bytes();
    record_refusals();
    settled_texts();
    example_two();
    observer_finds();
    observer_finds_surplus();
    area_test();
    random_tiny_plans();
    random_large_plans();
    random_plays();
    random_bad_players();
    random_lists();
    random_lists_of_sets();
    random_sets();
    random_states();
    random_litter();
    printf("%lu passed, %lu failed\n", passed, failed);
    return failed == 0 ? 0 : 1;
}
