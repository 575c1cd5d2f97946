/* See brute.h. Nothing here uses the twin's jobs or its search. */
#include "brute.h"

#include <string.h>

/* A position: a slot and every task's progress. */
struct position {
    int slot;
    int progress[TWIN_MAX_TASKS];
};

/* What a listing of all live lists does with each of them. */
struct listing {
    const struct twin_set *set;
    int hyper_period;
    uint8_t choices[BRUTE_MAX_HYPER];
    struct brute *brute;
};

static int least_common_multiple(const struct twin_set *set)
{
    int multiple = 0;
    bool all_divide;

    do {
        multiple++;
        all_divide = true;
        for (int i = 0; i < set->count; i++)
            all_divide = all_divide && multiple % set->tasks[i].period == 0;
    } while (!all_divide);
    return multiple;
}

static int whole_length(const struct twin_task *task)
{
    int length = 0;

    for (int i = 0; i < 2 * task->steps - 1; i++)
        length += task->pattern[i];
    return length;
}

/* Is the progress inside a segment of that kind: 0 for steps, 1 for waits? */
static bool stands_inside(const struct twin_task *task, int progress, int kind)
{
    int end = 0;

    for (int i = 0; i < 2 * task->steps - 1; i++) {
        int begin = end;
        end += task->pattern[i];
        if (begin <= progress && progress < end)
            return i % 2 == kind;
    }
    return false;
}

/* Done, or laxity 0 or more with that time since release. */
static bool is_live(const struct twin_task *task, int since_release, int progress)
{
    int length = whole_length(task);

    return progress == length || task->deadline - since_release - (length - progress) >= 0;
}

static bool position_is_live(const struct twin_set *set, const struct position *at)
{
    for (int i = 0; i < set->count; i++)
        if (!is_live(&set->tasks[i], at->slot % set->tasks[i].period, at->progress[i]))
            return false;
    return true;
}

/* The position after the choice; false if it isn't allowed or leads to none that lives. */
static bool move(const struct twin_set *set, const struct position *at, int choice,
                 struct position *after)
{
    if (choice != TWIN_IDLE && !stands_inside(&set->tasks[choice], at->progress[choice], 0))
        return false;
    *after = *at;
    after->slot++;
    for (int i = 0; i < set->count; i++) {
        const struct twin_task *task = &set->tasks[i];

        if (i == choice || stands_inside(task, at->progress[i], 1))
            after->progress[i]++;
        if (!is_live(task, at->slot % task->period + 1, after->progress[i]))
            return false;
        if (after->slot % task->period != 0)
            continue;
        if (after->progress[i] != whole_length(task))
            return false;
        after->progress[i] = 0;
    }
    return position_is_live(set, after);
}

static int nth_choice(const struct twin_set *set, int n)
{
    return n < set->count ? n : TWIN_IDLE;
}

static bool leads_to_the_end(const struct twin_set *set, int hyper_period,
                             const struct position *at)
{
    struct position after;

    if (at->slot == hyper_period)
        return true;
    for (int n = 0; n <= set->count; n++)
        if (move(set, at, nth_choice(set, n), &after) &&
            leads_to_the_end(set, hyper_period, &after))
            return true;
    return false;
}

/* Bytes compare as the document orders choices: task numbers less 1, then 255. */
static bool comes_before(const uint8_t *a, const uint8_t *b, int length)
{
    return memcmp(a, b, (size_t)length) < 0;
}

static void note_schedule(struct listing *listing)
{
    struct brute *brute = listing->brute;

    if (!brute->feasible ||
        comes_before(listing->choices, brute->first, listing->hyper_period))
        memcpy(brute->first, listing->choices, (size_t)listing->hyper_period);
    brute->feasible = true;
}

static void list_schedules(struct listing *listing, const struct position *at)
{
    struct position after;

    if (at->slot == listing->hyper_period) {
        note_schedule(listing);
        return;
    }
    /* Idle first, so that finding the first schedule doesn't rest on the order here. */
    for (int n = listing->set->count; n >= 0; n--) {
        int choice = nth_choice(listing->set, n);

        listing->choices[at->slot] = (uint8_t)choice;
        if (move(listing->set, at, choice, &after))
            list_schedules(listing, &after);
    }
}

static void note_dead(struct listing *listing, const struct position *at)
{
    struct brute *brute = listing->brute;
    uint16_t record[TWIN_MAX_RECORD] = {(uint16_t)at->slot};

    for (int i = 0; i < listing->set->count; i++)
        record[1 + i] = (uint16_t)at->progress[i];
    for (size_t i = 0; i < brute->dead_count; i++)
        if (memcmp(brute->dead[i], record, sizeof record) == 0)
            return;
    if (brute->dead_count < BRUTE_MAX_DEAD)
        memcpy(brute->dead[brute->dead_count++], record, sizeof record);
}

static void list_dead(struct listing *listing, const struct position *at)
{
    const struct brute *brute = listing->brute;
    struct position after;

    if (at->slot == listing->hyper_period)
        return;
    if (!leads_to_the_end(listing->set, listing->hyper_period, at) &&
        (!brute->feasible || comes_before(listing->choices, brute->first, at->slot)))
        note_dead(listing, at);
    for (int n = 0; n <= listing->set->count; n++) {
        int choice = nth_choice(listing->set, n);

        listing->choices[at->slot] = (uint8_t)choice;
        if (move(listing->set, at, choice, &after))
            list_dead(listing, &after);
    }
}

void brute_plan(const struct twin_set *set, struct brute *brute)
{
    struct position start = {0};
    struct listing listing = {.set = set, .brute = brute};

    brute->feasible = false;
    brute->dead_count = 0;
    listing.hyper_period = least_common_multiple(set);
    if (!position_is_live(set, &start))
        return;
    list_schedules(&listing, &start);
    list_dead(&listing, &start);
}
