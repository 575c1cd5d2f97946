#include "oracle.h"

#include "bytes.h"
#include "kiluvsaat.h"

#include <assert.h>
#include <string.h>

/* The header's numbers are the twin's, which are document 01's. */
static_assert(KILUVSAAT_SET_SIZE == SET_BYTES, "set");
static_assert(KILUVSAAT_STATE_SIZE == STATE_BYTES, "state");
static_assert(KILUVSAAT_LIST_MAX == TWIN_MAX_LIST, "list");
static_assert(KILUVSAAT_TASKS_MAX == TWIN_MAX_TASKS, "tasks");
static_assert(KILUVSAAT_SLOTS_MAX == TWIN_MAX_TIME, "slots");
static_assert(KILUVSAAT_IDLE == TWIN_IDLE, "idle");
static_assert(KILUVSAAT_LIST_TOO_LONG == TWIN_LONG_LIST, "1");
static_assert(KILUVSAAT_BAD_LINE == TWIN_BAD_SHAPE, "2");
static_assert(KILUVSAAT_OUT_OF_RANGE == TWIN_BAD_NUMBER, "3");
static_assert(KILUVSAAT_DEADLINE_TOO_LATE == TWIN_LATE_DEADLINE, "4");
static_assert(KILUVSAAT_TASK_COUNT == TWIN_BAD_COUNT, "5");
static_assert(KILUVSAAT_HYPER_PERIOD == TWIN_LONG_HYPER_PERIOD, "6");
static_assert(KILUVSAAT_TABLE_TOO_SHORT == TWIN_SHORT_TABLE, "7");
static_assert(KILUVSAAT_BUFFER_TOO_SHORT == TWIN_SHORT_BUFFER, "8");
static_assert(KILUVSAAT_BAD_STATE == TWIN_BAD_STATE, "10");
static_assert(KILUVSAAT_REPORT_COUNT == TWIN_BAD_REPORT_COUNT, "11");
static_assert(KILUVSAAT_BAD_TABLE == TWIN_BAD_TABLE, "12");
static_assert(KILUVSAAT_NOTHING == TWIN_NOTHING, "report 0");
static_assert(KILUVSAAT_STEP_FINISHED == TWIN_STEP_FINISHED, "report 1");
static_assert(KILUVSAAT_WAIT_ENDED == TWIN_WAIT_ENDED, "report 2");
static_assert(KILUVSAAT_NO_FAULT == TWIN_NO_FAULT, "fault 0");
static_assert(KILUVSAAT_OVERRUN == TWIN_OVERRUN, "fault 1");
static_assert(KILUVSAAT_LATE == TWIN_LATE, "fault 2");
static_assert(KILUVSAAT_FALSE == TWIN_FALSE_REPORT, "fault 3");

uint8_t oracle_read(const uint8_t *list, size_t list_len, uint8_t *set, size_t set_len)
{
    struct twin_read_reply reply = twin_read(list, list_len);

    if (reply.refusal != TWIN_ACCEPTED)
        return reply.refusal;
    if (set_len < SET_BYTES)
        return TWIN_SHORT_BUFFER;
    bytes_of_set(&reply.set, set);
    return TWIN_ACCEPTED;
}

uint64_t oracle_refused_line(const uint8_t *list, size_t list_len)
{
    struct twin_read_reply reply = twin_read(list, list_len);

    return (uint64_t)reply.line << 32 | (uint64_t)reply.shown_start << 16 |
           (uint64_t)reply.shown_length;
}

/* A string of another length holds no set: refusal 5. */
static uint8_t take_set(const uint8_t *bytes, size_t length, struct twin_set *set)
{
    if (length != SET_BYTES)
        return TWIN_BAD_COUNT;
    *set = set_of_bytes(bytes);
    return twin_set_refusal(set);
}

uint16_t oracle_slots(const uint8_t *set, size_t set_len)
{
    struct twin_set taken;

    if (take_set(set, set_len, &taken) != TWIN_ACCEPTED)
        return 0;
    return (uint16_t)twin_hyper_period(&taken);
}

uint8_t oracle_plan(const uint8_t *set, size_t set_len, uint8_t *table, size_t table_len,
                    uint16_t *area, size_t area_len, uint64_t *count)
{
    static const uint8_t words[] = {
        [TWIN_SCHEDULE] = KILUVSAAT_SCHEDULE,
        [TWIN_INFEASIBLE] = KILUVSAAT_INFEASIBLE,
        [TWIN_OUT_OF_ROOM] = KILUVSAAT_OUT_OF_ROOM,
    };
    struct twin_set taken;
    uint8_t refusal = take_set(set, set_len, &taken);

    if (refusal != TWIN_ACCEPTED)
        return refusal;
    struct twin_plan_reply reply = twin_plan(&taken, table, table_len, area, area_len);
    if (reply.refusal != TWIN_ACCEPTED)
        return reply.refusal;
    *count = reply.count;
    return words[reply.outcome];
}

uint8_t oracle_start(const uint8_t *set, size_t set_len, const uint8_t *table,
                     size_t table_len, uint8_t *state, size_t state_len)
{
    const struct twin_lent lent = {.state_needed = STATE_BYTES, .state_length = state_len};
    struct twin_set taken;
    struct twin_state started;
    uint8_t refusal = take_set(set, set_len, &taken);

    if (refusal == TWIN_ACCEPTED)
        refusal = twin_start(&taken, table, table_len, &lent, &started);
    if (refusal == TWIN_ACCEPTED)
        bytes_of_state(&started, state);
    return refusal;
}

static uint16_t ticked(uint8_t refusal, uint8_t runner)
{
    return (uint16_t)(refusal << 8 | runner);
}

uint16_t oracle_tick(const uint8_t *state, size_t state_len, const uint8_t *table,
                     size_t table_len, const uint8_t *reports, size_t reports_len,
                     uint8_t *next, size_t next_len, uint8_t *faults, size_t faults_len)
{
    const struct twin_lent lent = {
        .state_needed = STATE_BYTES, .state_length = next_len, .faults_length = faults_len};
    struct twin_state taken;
    struct twin_tick_reply reply;

    if (state_len != STATE_BYTES || !state_of_bytes(state, &taken))
        return ticked(TWIN_BAD_STATE, TWIN_IDLE);
    uint8_t refusal =
        twin_tick(&taken, reports, reports_len, table, table_len, &lent, &reply);
    if (refusal != TWIN_ACCEPTED)
        return ticked(refusal, TWIN_IDLE);
    bytes_of_state(&reply.state, next);
    memcpy(faults, reply.faults, taken.set.count);
    return ticked(TWIN_ACCEPTED, reply.runner);
}
