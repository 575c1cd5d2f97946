/* Sets as records: their slots, and the refusals of a plan and a start. */
#include "trials.h"

#include <stdio.h>
#include <string.h>

enum {
    MOST_STRING = KILUVSAAT_SET_SIZE + 3,
    MOST_TABLE = TWIN_MAX_TIME + 4,
    AREA = 18, /* numbers: too few for most plans, which other trials compare */
    GUARD = 0x5a,
    GUARD16 = 0x5a5a
};

struct input {
    size_t length; /* of the string */
    size_t table_length;
    uint8_t string[MOST_STRING];
};

/* ---- making ---- */

static size_t any_table_length(struct gen *gen, const struct twin_set *set)
{
    size_t lengths[] = {0, 1, TWIN_MAX_TIME, MOST_TABLE, gen_below(gen, MOST_TABLE + 1)};

    if (twin_set_refusal(set) == TWIN_ACCEPTED && gen_chance(gen, 60)) {
        size_t hyper_period = (size_t)twin_hyper_period(set);
        return gen_chance(gen, 50) ? hyper_period - 1 : hyper_period + 1;
    }
    return lengths[gen_below(gen, sizeof lengths / sizeof lengths[0])];
}

static void make(struct gen *gen, void *any)
{
    struct input *in = any;
    struct twin_set set = gen_set(gen, (enum gen_set_kind)gen_below(gen, GEN_SET_KINDS));

    if (twin_set_refusal(&set) == TWIN_ACCEPTED && gen_chance(gen, 50))
        gen_litter(gen, &set);
    any_fill(gen, in->string, sizeof in->string);
    bytes_of_set(&set, in->string);
    if (gen_chance(gen, 10))
        in->string[gen_below(gen, KILUVSAAT_SET_SIZE)] = (uint8_t)gen_below(gen, 256);
    in->length = KILUVSAAT_SET_SIZE;
    if (gen_chance(gen, 5))
        in->length = gen_below(gen, MOST_STRING + 1);
    in->table_length = any_table_length(gen, &set);
}

/* ---- comparing ---- */

static uint16_t expected_slots(const struct input *in)
{
    if (string_refusal(in->string, in->length) != TWIN_ACCEPTED)
        return 0;
    struct twin_set set = set_of_bytes(in->string);
    return (uint16_t)twin_hyper_period(&set);
}

/* The refusal of a plan, or 0. */
static uint8_t plan_refusal(const struct input *in)
{
    uint8_t refusal = string_refusal(in->string, in->length);

    if (refusal == TWIN_ACCEPTED && in->table_length < expected_slots(in))
        return TWIN_SHORT_TABLE;
    return refusal;
}

static const char *plan_difference(const struct input *in)
{
    static uint8_t table[MOST_TABLE];
    uint16_t area[AREA];
    uint64_t count = GUARD;
    uint8_t expected = plan_refusal(in);

    memset(table, GUARD, sizeof table);
    memset(area, GUARD, sizeof area);
    uint8_t word =
        kiluvsaat_plan(in->string, in->length, table, in->table_length, area, AREA, &count);
    if (expected == TWIN_ACCEPTED)
        return word >= KILUVSAAT_SCHEDULE ? NULL : "a plan is refused";
    if (word != expected)
        return "another refusal of a plan";
    if (!all_are(table, sizeof table, GUARD) || count != GUARD)
        return "a refused plan changes the table or the count";
    for (unsigned i = 0; i < AREA; i++)
        if (area[i] != GUARD16)
            return "a refused plan changes the area";
    return NULL;
}

/* The table is idle throughout, which is a schedule of no set. */
static const char *start_difference(const struct input *in)
{
    static uint8_t table[MOST_TABLE];
    uint8_t state[KILUVSAAT_STATE_SIZE];
    uint8_t expected = string_refusal(in->string, in->length);

    memset(table, TWIN_IDLE, sizeof table);
    memset(state, GUARD, sizeof state);
    if (expected == TWIN_ACCEPTED)
        expected = TWIN_BAD_TABLE;
    if (kiluvsaat_start(in->string, in->length, table, in->table_length, state,
                        sizeof state) != expected)
        return "another refusal of a start";
    return all_are(state, sizeof state, GUARD) ? NULL : "a refused start writes a state";
}

static const char *difference(const void *any)
{
    const struct input *in = any;

    if (kiluvsaat_slots(in->string, in->length) != expected_slots(in))
        return "other slots";
    const char *found = plan_difference(in);
    return found != NULL ? found : start_difference(in);
}

/* ---- making smaller ---- */

/* A set's own ways, then each byte as zero. */
static bool reduce(void *any, size_t way)
{
    struct input *in = any;
    struct twin_set set = set_of_bytes(in->string);

    if (way >= WAYS_OF_A_SET + sizeof in->string)
        return false;
    if (way >= WAYS_OF_A_SET) {
        in->string[way - WAYS_OF_A_SET] = 0;
    } else {
        reduce_set(&set, way);
        bytes_of_set(&set, in->string);
    }
    return true;
}

static void show(const void *any)
{
    const struct input *in = any;

    show_bytes("set", in->string, in->length);
    printf("  table of %zu\n", in->table_length);
    printf("  twin: slots %u, plan refused %u\n", expected_slots(in), plan_refusal(in));
    printf("  library: slots %u\n", kiluvsaat_slots(in->string, in->length));
}

const struct part sets_part = {
    .name = "sets",
    .unit = "sets",
    .input_size = sizeof(struct input),
    .make = make,
    .difference = difference,
    .reduce = reduce,
    .show = show,
};
