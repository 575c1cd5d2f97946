/* Depth first over the slots: at each the tasks in their order, then idle. A position from
 * which every choice fails is dead. Dead positions are recorded in the lent area, each as
 * its slot and every task's progress, and looked up one after the other from the oldest on.
 */
#include "search.h"

#include <stdbool.h>
#include <string.h>

enum {
    MAX_TASKS = 8,
    MAX_SEGMENTS = 7,
    TASK_SIZE = 12, /* bytes of a task in a set string */
    IDLE = 255
};

struct task {
    unsigned period;
    unsigned deadline;
    unsigned segments;           /* steps, and the waits between them */
    unsigned ends[MAX_SEGMENTS]; /* progress at which each of them is over */
    unsigned length;
};

struct search {
    unsigned task_count;
    struct task tasks[MAX_TASKS];
    unsigned slots;
    uint8_t *table;
    uint16_t *area;
    size_t room; /* in records */
    size_t recorded;
};

enum result {
    FOUND,
    DEAD,
    NO_ROOM
};

enum standing {
    READY,
    WAITING,
    DONE
};

/* ---- the set ---- */

static unsigned number_at(const uint8_t *bytes)
{
    return bytes[0] | (unsigned)bytes[1] << 8;
}

static void take_task(struct task *task, const uint8_t *bytes)
{
    task->period = number_at(bytes);
    task->deadline = number_at(bytes + 2);
    task->segments = 2u * bytes[4] - 1;
    task->length = 0;
    for (unsigned i = 0; i < task->segments; i++) {
        task->length += bytes[5 + i];
        task->ends[i] = task->length;
    }
}

static unsigned greatest_common_divisor(unsigned a, unsigned b)
{
    while (b != 0) {
        unsigned rest = a % b;
        a = b;
        b = rest;
    }
    return a;
}

static void take_set(struct search *search, const uint8_t *set)
{
    search->task_count = set[0];
    search->slots = 1;
    for (unsigned i = 0; i < search->task_count; i++) {
        struct task *task = &search->tasks[i];

        take_task(task, set + 1 + TASK_SIZE * i);
        search->slots = search->slots /
                        greatest_common_divisor(search->slots, task->period) * task->period;
    }
}

/* ---- positions ---- */

static enum standing standing_at(const struct task *task, unsigned progress)
{
    for (unsigned i = 0; i < task->segments; i++)
        if (progress < task->ends[i])
            return i % 2 == 0 ? READY : WAITING;
    return DONE;
}

static bool starts_live(const struct search *search)
{
    for (unsigned i = 0; i < search->task_count; i++)
        if (search->tasks[i].length > search->tasks[i].deadline)
            return false;
    return true;
}

/* One task's progress after a slot, tested at its end and restarted with its period. */
static bool pass_slot(const struct task *task, unsigned slot, unsigned progress,
                      uint16_t *after)
{
    unsigned elapsed = slot % task->period + 1;

    if (progress < task->length && elapsed + task->length - progress > task->deadline)
        return false;
    *after = elapsed == task->period ? 0 : (uint16_t)progress;
    return true;
}

/* The position after the slot with that choice; false unless it is live. */
static bool choose(const struct search *search, unsigned slot, const uint16_t *progress,
                   const enum standing *standing, unsigned choice, uint16_t *next)
{
    for (unsigned i = 0; i < search->task_count; i++) {
        bool rises = i == choice || standing[i] == WAITING;
        if (!pass_slot(&search->tasks[i], slot, progress[i] + rises, &next[i]))
            return false;
    }
    return true;
}

/* ---- records ---- */

static bool is_recorded(const struct search *search, unsigned slot,
                        const uint16_t *progress)
{
    size_t width = search->task_count + 1;
    const uint16_t *end = search->area + search->recorded * width;

    for (const uint16_t *record = search->area; record < end; record += width) {
        unsigned i = 0;

        if (record[0] != slot)
            continue;
        while (i < search->task_count && record[1 + i] == progress[i])
            i++;
        if (i == search->task_count)
            return true;
    }
    return false;
}

static enum result record_dead(struct search *search, unsigned slot,
                               const uint16_t *progress)
{
    uint16_t *record = search->area + search->recorded * (search->task_count + 1);

    if (search->recorded == search->room)
        return NO_ROOM;
    record[0] = (uint16_t)slot;
    memcpy(record + 1, progress, search->task_count * sizeof *progress);
    search->recorded++;
    return DEAD;
}

/* ---- the search ---- */

static enum result explore(struct search *search, unsigned slot, const uint16_t *progress)
{
    enum standing standing[MAX_TASKS];
    uint16_t next[MAX_TASKS];

    if (slot == search->slots)
        return FOUND;
    for (unsigned i = 0; i < search->task_count; i++)
        standing[i] = standing_at(&search->tasks[i], progress[i]);
    for (unsigned choice = 0; choice <= search->task_count; choice++) {
        bool idle = choice == search->task_count;

        if (!idle && standing[choice] != READY)
            continue;
        if (!choose(search, slot, progress, standing, choice, next) ||
            is_recorded(search, slot + 1, next))
            continue;
        search->table[slot] = idle ? IDLE : (uint8_t)choice;
        enum result result = explore(search, slot + 1, next);
        if (result != DEAD)
            return result;
    }
    return record_dead(search, slot, progress);
}

struct search_reply search_plan(const uint8_t *set, uint8_t *table, uint16_t *area,
                                size_t area_length)
{
    static const enum search_word words[] = {
        [FOUND] = SEARCH_SCHEDULE,
        [DEAD] = SEARCH_INFEASIBLE,
        [NO_ROOM] = SEARCH_OUT_OF_ROOM,
    };
    const uint16_t start[MAX_TASKS] = {0};
    struct search search = {.table = table, .area = area};
    enum result result = DEAD;

    take_set(&search, set);
    search.room = area_length / (search.task_count + 1);
    if (starts_live(&search))
        result = explore(&search, 0, start);
    if (result != FOUND)
        memset(table, IDLE, search.slots);
    return (struct search_reply){words[result], search.recorded};
}
