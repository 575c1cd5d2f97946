/* Names everything that the header has, as C and as C++. Compiled, never run. */
#include "kiluvsaat.h"
#include "kiluvsaat.h" /* twice does no harm */

extern uint64_t use(const uint8_t *bytes, uint8_t *lent, uint16_t *area, uint64_t *count);

uint64_t use(const uint8_t *bytes, uint8_t *lent, uint16_t *area, uint64_t *count)
{
    static const uint8_t numbers[] = {
        KILUVSAAT_LIST_TOO_LONG,     KILUVSAAT_BAD_LINE,         KILUVSAAT_OUT_OF_RANGE,
        KILUVSAAT_DEADLINE_TOO_LATE, KILUVSAAT_TASK_COUNT,       KILUVSAAT_HYPER_PERIOD,
        KILUVSAAT_TABLE_TOO_SHORT,   KILUVSAAT_BUFFER_TOO_SHORT, KILUVSAAT_BAD_STATE,
        KILUVSAAT_REPORT_COUNT,      KILUVSAAT_BAD_TABLE,        KILUVSAAT_SCHEDULE,
        KILUVSAAT_INFEASIBLE,        KILUVSAAT_OUT_OF_ROOM,      KILUVSAAT_NOTHING,
        KILUVSAAT_STEP_FINISHED,     KILUVSAAT_WAIT_ENDED,       KILUVSAAT_NO_FAULT,
        KILUVSAAT_OVERRUN,           KILUVSAAT_LATE,             KILUVSAAT_FALSE,
        KILUVSAAT_IDLE,              KILUVSAAT_TASKS_MAX,
    };
    uint64_t place = kiluvsaat_refused_line(bytes, KILUVSAAT_LIST_MAX);
    uint16_t ticked = kiluvsaat_tick(bytes, KILUVSAAT_STATE_SIZE, bytes, KILUVSAAT_SLOTS_MAX,
                                     bytes, 1, lent, KILUVSAAT_STATE_SIZE, lent, 1);
    uint64_t sum = KILUVSAAT_LINE(place) + KILUVSAAT_LINE_START(place) +
                   KILUVSAAT_LINE_LENGTH(place) + KILUVSAAT_REFUSAL(ticked) +
                   KILUVSAAT_RUNNER(ticked) + numbers[0];

    sum += kiluvsaat_version() == KILUVSAAT_VERSION;
    sum += kiluvsaat_read(bytes, 1, lent, KILUVSAAT_SET_SIZE);
    sum += kiluvsaat_slots(bytes, KILUVSAAT_SET_SIZE);
    sum += kiluvsaat_plan(bytes, 1, lent, 1, area, 1, count);
    sum += kiluvsaat_start(bytes, 1, bytes, 1, lent, 1);
    return sum;
}
