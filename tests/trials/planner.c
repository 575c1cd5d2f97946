/* Plans of admissible sets in areas of every room from 0 to one more than is needed. */
#include "trials.h"

#include <stdio.h>
#include <stdlib.h>
#include <string.h>

enum {
    TRIES = 3,        /* to find a set with dead positions */
    CAP = 1500,       /* dead positions; with more, only replies out of room are compared */
    FEW = 24,         /* up to so many dead positions every room is tried */
    MOST_EXTRA = 6,   /* bytes of a table behind its slots */
    GUARD_NUMBERS = 8 /* behind the lent area */
};

struct input {
    uint64_t seed; /* for what lies in the buffers, and for lengths */
    uint8_t string[KILUVSAAT_SET_SIZE];
};

/* The buffers of one call, with copies of what lay in them before. */
struct lent {
    size_t table_length;
    size_t area_length;
    size_t numbers; /* of the area with what lies behind it */
    uint8_t table[TWIN_MAX_TIME + MOST_EXTRA];
    uint8_t table_before[TWIN_MAX_TIME + MOST_EXTRA];
    uint16_t *area;
    uint16_t *area_before;
};

static bool has_dead_positions(const struct twin_set *set)
{
    struct twin_search search;

    twin_search_run(set, 1, &search);
    bool has = search.dead.count > 0;
    twin_search_free(&search);
    return has;
}

/* Mostly a set with dead positions, as the others ask little of a planner. */
static void make(struct gen *gen, void *any)
{
    struct input *in = any;
    struct twin_set set = admissible_set(gen);

    for (unsigned tries = 0; tries < TRIES && !has_dead_positions(&set); tries++)
        set = admissible_set(gen);
    if (gen_chance(gen, 30))
        gen_litter(gen, &set);
    bytes_of_set(&set, in->string);
    in->seed = gen_next(gen);
}

/* ---- the buffers ---- */

/* The positions that the first schedule goes through, over and over: none of them is dead,
 * and a planner that looked at old records would be led astray. */
static void fill_with_live(const struct twin_set *set, const struct twin_search *search,
                           uint16_t *area, size_t numbers)
{
    struct twin_job jobs[TWIN_MAX_TASKS];
    struct twin_job next[TWIN_MAX_TASKS];
    size_t width = set->count + 1u;

    for (size_t at = 0; at + width <= numbers; at += width) {
        uint32_t slot = (uint32_t)(at / width % search->hyper_period);

        if (slot == 0)
            twin_jobs_at_start(set, jobs);
        area[at] = (uint16_t)slot;
        for (unsigned i = 0; i < set->count; i++)
            area[at + 1 + i] = (uint16_t)twin_job_progress(&set->tasks[i], &jobs[i]);
        twin_jobs_pass_slot(set, slot, jobs, search->table[slot], next);
        memcpy(jobs, next, sizeof jobs);
    }
}

static uint16_t *numbers_or_exit(size_t count)
{
    uint16_t *numbers = malloc(count * sizeof *numbers);

    if (numbers == NULL) {
        fputs("trials: out of memory\n", stderr);
        exit(2);
    }
    return numbers;
}

static void lend(struct gen *gen, const struct twin_set *set,
                 const struct twin_search *search, size_t room, struct lent *lent)
{
    lent->table_length = search->hyper_period + gen_below(gen, MOST_EXTRA + 1);
    lent->area_length = room * (set->count + 1u) + gen_below(gen, set->count + 1u);
    lent->numbers = lent->area_length + GUARD_NUMBERS;
    lent->area = numbers_or_exit(lent->numbers);
    lent->area_before = numbers_or_exit(lent->numbers);
    any_fill(gen, lent->table, sizeof lent->table);
    any_fill(gen, lent->area, lent->numbers * sizeof *lent->area);
    if (search->outcome == TWIN_SCHEDULE && gen_chance(gen, 50))
        fill_with_live(set, search, lent->area, lent->numbers);
    memcpy(lent->table_before, lent->table, sizeof lent->table);
    memcpy(lent->area_before, lent->area, lent->numbers * sizeof *lent->area);
}

static void give_back(struct lent *lent)
{
    free(lent->area);
    free(lent->area_before);
}

static uint8_t plan(const struct input *in, struct lent *lent, uint64_t *count)
{
    return kiluvsaat_plan(in->string, sizeof in->string, lent->table, lent->table_length,
                          lent->area, lent->area_length, count);
}

/* ---- comparing ---- */

static bool table_is_right(const struct lent *lent, const struct twin_search *search,
                           enum twin_outcome outcome)
{
    size_t slots = search->hyper_period;

    if (outcome == TWIN_SCHEDULE)
        return memcmp(lent->table, search->table, slots) == 0;
    return all_are(lent->table, slots, TWIN_IDLE);
}

static bool rest_is_kept(const struct lent *lent, size_t slots, size_t numbers_used)
{
    return memcmp(lent->table + slots, lent->table_before + slots,
                  sizeof lent->table - slots) == 0 &&
           memcmp(lent->area + numbers_used, lent->area_before + numbers_used,
                  (lent->numbers - numbers_used) * sizeof *lent->area) == 0;
}

static const char *reply_difference(const struct input *in,
                                    const struct twin_search *search, size_t room,
                                    struct lent *lent)
{
    static const uint8_t words[] = {
        [TWIN_SCHEDULE] = KILUVSAAT_SCHEDULE,
        [TWIN_INFEASIBLE] = KILUVSAAT_INFEASIBLE,
        [TWIN_OUT_OF_ROOM] = KILUVSAAT_OUT_OF_ROOM,
    };
    struct twin_plan_reply reply = twin_reply_for_room(search, room);
    uint64_t count = ~(uint64_t)0;

    if (plan(in, lent, &count) != words[reply.outcome])
        return "another word";
    if (count != reply.count)
        return "another count";
    if (!table_is_right(lent, search, reply.outcome))
        return "another table";
    if (!rest_is_kept(lent, search->hyper_period, reply.count * search->dead.width))
        return "bytes behind the reply changed";
    if (search->outcome != TWIN_OUT_OF_ROOM &&
        !twin_area_holds_dead(search, lent->area, reply.count))
        return "records that are not the distinct dead positions";
    return NULL;
}

/* A table one slot too short. */
static const char *short_table_difference(const struct input *in, struct lent *lent)
{
    uint64_t count = ~(uint64_t)0;

    if (plan(in, lent, &count) != TWIN_SHORT_TABLE)
        return "another refusal of a short table";
    return rest_is_kept(lent, 0, 0) && count == ~(uint64_t)0 ? NULL
                                                             : "a refusal changes a buffer";
}

static const char *room_difference(struct gen *gen, const struct input *in,
                                   const struct twin_set *set,
                                   const struct twin_search *search, size_t room)
{
    struct lent lent;

    lend(gen, set, search, room, &lent);
    const char *found = reply_difference(in, search, room, &lent);
    give_back(&lent);
    if (found != NULL)
        return found;
    lend(gen, set, search, room, &lent);
    lent.table_length = search->hyper_period - 1;
    found = short_table_difference(in, &lent);
    give_back(&lent);
    return found;
}

/* Rooms to try, at most FEW + 2: all that differ, or those about the bounds. */
static size_t choose_rooms(struct gen *gen, const struct twin_search *search, size_t *rooms)
{
    size_t dead = search->dead.count;
    size_t count = 0;

    if (dead <= FEW) {
        for (size_t room = 0; room <= dead + 1; room++)
            rooms[count++] = room;
        return count;
    }
    rooms[count++] = 0;
    rooms[count++] = 1;
    rooms[count++] = gen_below(gen, (uint32_t)dead);
    rooms[count++] = dead - 1;
    rooms[count++] = dead;
    if (search->outcome != TWIN_OUT_OF_ROOM)
        rooms[count++] = dead + 1;
    return count;
}

static const char *difference(const void *any)
{
    static char words[128];
    const struct input *in = any;
    struct twin_set set = set_of_bytes(in->string);
    size_t rooms[FEW + 2];
    const char *found = NULL;
    struct twin_search search;
    struct gen gen;

    if (string_refusal(in->string, sizeof in->string) != TWIN_ACCEPTED)
        return NULL;
    gen_seed(&gen, in->seed);
    twin_search_run(&set, CAP, &search);
    size_t count = choose_rooms(&gen, &search, rooms);
    for (size_t i = 0; i < count && found == NULL; i++) {
        found = room_difference(&gen, in, &set, &search, rooms[i]);
        if (found != NULL)
            snprintf(words, sizeof words, "%s, room %zu", found, rooms[i]);
    }
    twin_search_free(&search);
    return found != NULL ? words : NULL;
}

/* ---- making smaller ---- */

static bool reduce(void *any, size_t way)
{
    struct input *in = any;
    struct twin_set set = set_of_bytes(in->string);

    if (way >= WAYS_OF_A_SET)
        return false;
    reduce_set(&set, way);
    bytes_of_set(&set, in->string);
    return true;
}

static void show(const void *any)
{
    static const char *const words[] = {"schedule", "infeasible", "out of room"};
    const struct input *in = any;
    struct twin_set set = set_of_bytes(in->string);
    struct twin_search search;

    show_set(&set);
    twin_search_run(&set, CAP, &search);
    printf("  twin: %s, %zu dead positions\n", words[search.outcome], search.dead.count);
    if (search.outcome == TWIN_SCHEDULE)
        show_table(search.table, search.hyper_period);
    twin_search_free(&search);
}

const struct part planner_part = {
    .name = "planner",
    .unit = "sets",
    .input_size = sizeof(struct input),
    .make = make,
    .difference = difference,
    .reduce = reduce,
    .show = show,
};
