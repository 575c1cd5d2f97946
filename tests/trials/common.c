/* What several parts use: sets, fills, ways to make a set smaller, and showing. */
#include "trials.h"

#include <stdio.h>
#include <string.h>

enum {
    TRIES = 20 /* to find a set that has a schedule */
};

const struct twin_lent roomy = {.faults_length = TWIN_MAX_TASKS};

/* ---- sets ---- */

uint8_t string_refusal(const uint8_t *bytes, size_t length)
{
    if (length != KILUVSAAT_SET_SIZE)
        return TWIN_BAD_COUNT;
    struct twin_set set = set_of_bytes(bytes);
    return twin_set_refusal(&set);
}

struct twin_set admissible_set(struct gen *gen)
{
    static const enum gen_set_kind kinds[] = {GEN_SET_SMALL, GEN_SET_TIGHT, GEN_SET_LARGE};

    return gen_set(gen, kinds[gen_below(gen, 3)]);
}

bool is_schedule(const struct twin_set *set, const uint8_t *table, size_t length)
{
    struct twin_state state;

    return twin_start(set, table, length, &roomy, &state) == TWIN_ACCEPTED;
}

bool feasible_set(struct gen *gen, struct twin_set *set, uint8_t *table)
{
    for (unsigned tries = 0; tries < TRIES; tries++) {
        *set = admissible_set(gen);
        size_t length = gen_table(gen, GEN_TABLE_GOOD, set, table);
        if (is_schedule(set, table, length))
            return true;
    }
    return false;
}

/* ---- bytes ---- */

void any_fill(struct gen *gen, void *bytes, size_t count)
{
    for (size_t i = 0; i < count; i++)
        ((uint8_t *)bytes)[i] = (uint8_t)gen_below(gen, 256);
}

bool all_are(const uint8_t *bytes, size_t count, uint8_t value)
{
    for (size_t i = 0; i < count; i++)
        if (bytes[i] != value)
            return false;
    return true;
}

/* ---- making a set smaller ---- */

void remove_task(struct twin_set *set, unsigned task)
{
    memmove(&set->tasks[task], &set->tasks[task + 1],
            sizeof set->tasks[0] * (TWIN_MAX_TASKS - 1 - task));
    memset(&set->tasks[TWIN_MAX_TASKS - 1], 0, sizeof set->tasks[0]);
    set->count--;
}

/* The last wait and step go. */
static void remove_step(struct twin_task *task)
{
    if (task->steps < 2 || task->steps > TWIN_MAX_STEPS)
        return;
    task->steps--;
    memset(task->pattern + twin_segment_count(task), 0, 2);
}

/* Halved, or one less: both keep a difference more often than one of them alone. */
static uint16_t smaller(uint16_t number, bool halve)
{
    if (number < 2)
        return number;
    return halve ? number / 2 : number - 1;
}

static void reduce_number(struct twin_task *task, unsigned number, bool halve)
{
    if (number == 0)
        task->period = smaller(task->period, halve);
    else if (number == 1)
        task->deadline = smaller(task->deadline, halve);
    else
        task->pattern[number - 2] = (uint8_t)smaller(task->pattern[number - 2], halve);
}

void reduce_set(struct twin_set *set, size_t way)
{
    unsigned task = (unsigned)(way % TWIN_MAX_TASKS);
    unsigned what = (unsigned)(way / TWIN_MAX_TASKS);

    if (task >= set->count)
        return;
    if (what == 0 && set->count > 1 && set->count <= TWIN_MAX_TASKS)
        remove_task(set, task);
    else if (what == 1)
        remove_step(&set->tasks[task]);
    else if (what >= 2)
        reduce_number(&set->tasks[task], (what - 2) / 2, what % 2 == 0);
}

size_t table_without(const struct twin_set *left, unsigned task, uint8_t *table,
                     size_t length)
{
    for (size_t i = 0; i < length; i++) {
        if (table[i] == task)
            table[i] = TWIN_IDLE;
        else if (table[i] != TWIN_IDLE && table[i] > task)
            table[i]--;
    }
    size_t hyper_period = (size_t)twin_hyper_period(left);
    return length < hyper_period ? length : hyper_period;
}

/* ---- showing ---- */

void show_bytes(const char *name, const uint8_t *bytes, size_t count)
{
    printf("  %s (%zu bytes):", name, count);
    for (size_t i = 0; i < count; i++)
        printf(" %02x", bytes[i]);
    printf("\n");
}

void show_set(const struct twin_set *set)
{
    for (unsigned i = 0; i < set->count; i++) {
        const struct twin_task *task = &set->tasks[i];

        printf("  %u %u", task->period, task->deadline);
        for (unsigned s = 0; s < twin_segment_count(task); s++)
            printf(" %u", task->pattern[s]);
        printf("\n");
    }
}

void show_table(const uint8_t *table, size_t length)
{
    printf("  table of %zu: ", length);
    for (size_t i = 0; i < length; i++)
        putchar(table[i] == TWIN_IDLE       ? '.'
                : table[i] < TWIN_MAX_TASKS ? '1' + table[i]
                                            : '?');
    printf("\n");
}
