/* The interface of include/kiluvsaat.h over the twin: stands in for the library while the
 * tests are developed, and carries planted faults that the tests must find. The environment
 * variable PLANTED holds the number of a fault. */
#include "bytes.h"
#include "kiluvsaat.h"
#include "oracle.h"

#include <stdlib.h>
#include <string.h>

enum fault {
    READ_REFUSES_LONG_BUFFER = 1,
    READ_TESTS_BUFFER_FIRST,
    READ_LOOKS_BEYOND_LIST,
    LINE_WITH_ITS_FEED,
    SLOTS_OF_A_LONGER_STRING,
    PLAN_FILLS_WHOLE_TABLE,
    PLAN_COUNTS_ON_REFUSAL,
    PLAN_CLEARS_AREA,
    PLAN_REPEATS_A_RECORD,
    PLAN_COUNTS_ONE_MORE,
    START_WRITES_ONE_BYTE_MORE,
    START_TESTS_BUFFER_FIRST,
    START_CLEARS_ON_REFUSAL,
    TICK_WRITES_BEFORE_TESTING,
    TICK_CLEARS_THE_REST,
    TICK_TESTS_BUFFERS_EARLY,
    TICK_LOOKS_BEYOND_TABLE,
    TICK_LOOKS_BEFORE_REPORTS,
    TICK_WRITES_EIGHT_FAULTS,
    TICK_WRITES_TO_REPORTS,
    TICK_TAKES_STANDING_6,
    TICK_IGNORES_UNUSED_BYTES,
    TICK_KEEPS_LAST_RUNNER,
    TICK_READS_LENT_BYTES /* only a memory checker sees it */
};

static int planted(void)
{
    static int number = -1;

    if (number < 0) {
        const char *text = getenv("PLANTED");
        number = text == NULL ? 0 : atoi(text);
    }
    return number;
}

/* A read that the compiler keeps. */
static void look_at(const uint8_t *byte)
{
    volatile uint8_t seen = *(const volatile uint8_t *)byte;

    (void)seen;
}

uint32_t kiluvsaat_version(void)
{
    return KILUVSAAT_VERSION;
}

uint8_t kiluvsaat_read(const uint8_t *list, size_t list_len, uint8_t *set, size_t set_len)
{
    if (planted() == READ_REFUSES_LONG_BUFFER && set_len > SET_BYTES)
        set_len = 0;
    if (planted() == READ_TESTS_BUFFER_FIRST && set_len < SET_BYTES)
        return KILUVSAAT_BUFFER_TOO_SHORT;
    if (planted() == READ_LOOKS_BEYOND_LIST)
        look_at(list + list_len);
    return oracle_read(list, list_len, set, set_len);
}

uint64_t kiluvsaat_refused_line(const uint8_t *list, size_t list_len)
{
    uint64_t place = oracle_refused_line(list, list_len);
    size_t end = KILUVSAAT_LINE_START(place) + KILUVSAAT_LINE_LENGTH(place);

    return planted() == LINE_WITH_ITS_FEED && place != 0 && end < list_len ? place + 1
                                                                           : place;
}

uint16_t kiluvsaat_slots(const uint8_t *set, size_t set_len)
{
    if (planted() == SLOTS_OF_A_LONGER_STRING && set_len > SET_BYTES)
        set_len = SET_BYTES;
    return oracle_slots(set, set_len);
}

uint8_t kiluvsaat_plan(const uint8_t *set, size_t set_len, uint8_t *table, size_t table_len,
                       uint16_t *area, size_t area_len, uint64_t *count)
{
    size_t slots = oracle_slots(set, set_len);
    uint8_t word = oracle_plan(set, set_len, table, table_len, area, area_len, count);

    if (word < KILUVSAAT_SCHEDULE) {
        if (planted() == PLAN_COUNTS_ON_REFUSAL)
            *count = 0;
        return word;
    }
    size_t width = set[0] + 1u;
    size_t used = (size_t)*count * width;
    if (planted() == PLAN_FILLS_WHOLE_TABLE)
        memset(table + slots, TWIN_IDLE, table_len - slots);
    if (planted() == PLAN_CLEARS_AREA && used < area_len)
        area[area_len - 1] = 0;
    if (planted() == PLAN_REPEATS_A_RECORD && *count > 1)
        memcpy(area + width, area, width * sizeof *area);
    if (planted() == PLAN_COUNTS_ONE_MORE && word == KILUVSAAT_INFEASIBLE)
        *count += 1;
    return word;
}

uint8_t kiluvsaat_start(const uint8_t *set, size_t set_len, const uint8_t *table,
                        size_t table_len, uint8_t *state, size_t state_len)
{
    if (planted() == START_TESTS_BUFFER_FIRST && state_len < STATE_BYTES &&
        oracle_slots(set, set_len) != 0)
        return KILUVSAAT_BUFFER_TOO_SHORT;
    uint8_t refusal = oracle_start(set, set_len, table, table_len, state, state_len);
    if (planted() == START_WRITES_ONE_BYTE_MORE && refusal == 0)
        state[STATE_BYTES] = 0;
    if (planted() == START_CLEARS_ON_REFUSAL && refusal != 0)
        memset(state, 0, state_len);
    return refusal;
}

/* The state as a faulty reader takes it. */
static const uint8_t *mistaken(const uint8_t *state, size_t state_len, uint8_t *copy)
{
    bool mistakes =
        planted() == TICK_TAKES_STANDING_6 || planted() == TICK_IGNORES_UNUSED_BYTES;

    if (!mistakes || state_len != STATE_BYTES)
        return state;
    memcpy(copy, state, STATE_BYTES);
    for (unsigned i = 0; i < TWIN_MAX_TASKS && planted() == TICK_TAKES_STANDING_6; i++)
        if (copy[115 + 3 * i] == 6)
            copy[115 + 3 * i] = 5;
    if (planted() == TICK_IGNORES_UNUSED_BYTES && copy[0] < TWIN_MAX_TASKS)
        copy[SET_BYTES - 1] = 0;
    return copy;
}

uint16_t kiluvsaat_tick(const uint8_t *state, size_t state_len, const uint8_t *table,
                        size_t table_len, const uint8_t *reports, size_t reports_len,
                        uint8_t *next, size_t next_len, uint8_t *faults, size_t faults_len)
{
    uint8_t copy[STATE_BYTES];
    uint8_t made[STATE_BYTES];
    const uint8_t *taken = mistaken(state, state_len, copy);
    bool long_enough = next_len >= STATE_BYTES && faults_len >= 1;

    if (planted() == TICK_LOOKS_BEYOND_TABLE)
        look_at(table + table_len);
    if (planted() == TICK_LOOKS_BEFORE_REPORTS)
        look_at(reports - 1);
    if (planted() == TICK_WRITES_TO_REPORTS && reports_len > 0)
        *(volatile uint8_t *)reports = reports[0];
    if (planted() == TICK_READS_LENT_BYTES && next_len > 0 && next[0] == 1)
        look_at(next);
    if (planted() == TICK_TESTS_BUFFERS_EARLY && !long_enough &&
        oracle_tick(taken, state_len, table, table_len, reports, reports_len, made,
                    sizeof made, copy, sizeof copy) >>
                8 !=
            KILUVSAAT_BAD_STATE)
        return KILUVSAAT_BUFFER_TOO_SHORT << 8 | KILUVSAAT_IDLE;

    uint16_t ticked = oracle_tick(taken, state_len, table, table_len, reports, reports_len,
                                  next, next_len, faults, faults_len);
    if (planted() == TICK_WRITES_BEFORE_TESTING && next_len >= STATE_BYTES &&
        KILUVSAAT_REFUSAL(ticked) == KILUVSAAT_BUFFER_TOO_SHORT)
        memcpy(next, taken, STATE_BYTES);
    if (KILUVSAAT_REFUSAL(ticked) != 0)
        return ticked;
    if (planted() == TICK_CLEARS_THE_REST)
        memset(next + STATE_BYTES, 0, next_len - STATE_BYTES);
    if (planted() == TICK_WRITES_EIGHT_FAULTS && faults_len >= TWIN_MAX_TASKS)
        memset(faults + taken[0], 0, TWIN_MAX_TASKS - taken[0]);
    if (planted() == TICK_KEEPS_LAST_RUNNER && KILUVSAAT_RUNNER(ticked) == KILUVSAAT_IDLE)
        next[STATE_BYTES - 1] = taken[STATE_BYTES - 1];
    return ticked;
}
