#include "bytes.h"

#include <string.h>

enum {
    AT_TASKS = 1,
    TASK_BYTES = 12,
    AT_SLOT = SET_BYTES,
    AT_PLANNED = 99,
    AT_JOBS = 115,
    JOB_BYTES = 3,
    AT_LAST = 139,
    /* standing bytes: 0 to 2 are the twin's own, then a stop with its cause */
    STOPPED_BYTES = 2,
    NO_STANDING = 6
};

static uint16_t number_at(const uint8_t *bytes)
{
    return (uint16_t)(bytes[0] | bytes[1] << 8);
}

static void put_number(uint8_t *bytes, uint16_t number)
{
    bytes[0] = (uint8_t)(number & 0xff);
    bytes[1] = (uint8_t)(number >> 8);
}

struct twin_set set_of_bytes(const uint8_t *bytes)
{
    struct twin_set set = {.count = bytes[0]};

    for (unsigned i = 0; i < TWIN_MAX_TASKS; i++) {
        const uint8_t *from = bytes + AT_TASKS + i * TASK_BYTES;
        struct twin_task *task = &set.tasks[i];

        task->period = number_at(from);
        task->deadline = number_at(from + 2);
        task->steps = from[4];
        memcpy(task->pattern, from + 5, TWIN_MAX_SEGMENTS);
    }
    return set;
}

void bytes_of_set(const struct twin_set *set, uint8_t *bytes)
{
    bytes[0] = set->count;
    for (unsigned i = 0; i < TWIN_MAX_TASKS; i++) {
        const struct twin_task *task = &set->tasks[i];
        uint8_t *to = bytes + AT_TASKS + i * TASK_BYTES;

        put_number(to, task->period);
        put_number(to + 2, task->deadline);
        to[4] = task->steps;
        memcpy(to + 5, task->pattern, TWIN_MAX_SEGMENTS);
    }
}

static uint8_t standing_byte(const struct twin_progress *at)
{
    bool cause = at->cause >= TWIN_OVERRUN && at->cause <= TWIN_FALSE_REPORT;

    if (at->standing < TWIN_STOPPED)
        return at->standing;
    if (at->standing == TWIN_STOPPED && cause)
        return (uint8_t)(STOPPED_BYTES + at->cause);
    return at->standing < NO_STANDING ? NO_STANDING : at->standing;
}

bool state_of_bytes(const uint8_t *bytes, struct twin_state *state)
{
    *state = (struct twin_state){.set = set_of_bytes(bytes),
                                 .slot = number_at(bytes + AT_SLOT),
                                 .last = bytes[AT_LAST]};
    for (unsigned i = 0; i < TWIN_MAX_TASKS; i++) {
        const uint8_t *job = bytes + AT_JOBS + i * JOB_BYTES;
        struct twin_progress *at = &state->tasks[i];

        if (job[0] >= NO_STANDING)
            return false;
        state->planned[i] = number_at(bytes + AT_PLANNED + 2 * i);
        at->standing = job[0] < TWIN_STOPPED ? job[0] : TWIN_STOPPED;
        at->cause = job[0] < TWIN_STOPPED ? 0 : (uint8_t)(job[0] - STOPPED_BYTES);
        at->step = job[1];
        at->given = job[2];
    }
    return true;
}

void bytes_of_state(const struct twin_state *state, uint8_t *bytes)
{
    bytes_of_set(&state->set, bytes);
    put_number(bytes + AT_SLOT, state->slot);
    for (unsigned i = 0; i < TWIN_MAX_TASKS; i++) {
        const struct twin_progress *at = &state->tasks[i];
        uint8_t *job = bytes + AT_JOBS + i * JOB_BYTES;

        put_number(bytes + AT_PLANNED + 2 * i, state->planned[i]);
        job[0] = standing_byte(at);
        job[1] = at->step;
        job[2] = at->given;
    }
    bytes[AT_LAST] = state->last;
}
