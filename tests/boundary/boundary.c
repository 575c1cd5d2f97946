/* The exported functions against the twin: buffers of every length around the needed one,
 * random and damaged lists, sets, tables and state strings.
 *
 *   boundary SEED [LESS [NAME]]
 *
 * LESS divides how much is done; with a NAME only the parts that begin so are run. */
#include "ask.h"

#include <stdio.h>
#include <stdlib.h>
#include <string.h>

#define LENGTH_OF(array) (sizeof(array) / sizeof((array)[0]))

enum {
    ENOUGH = 200,  /* more than a set, a state or the faults need */
    MAX_AREA = 400 /* numbers lent to a planner */
};

/* ---- lengths ---- */

struct lengths {
    unsigned count;
    size_t at[7];
};

static void add_length(struct lengths *lengths, size_t length)
{
    for (unsigned i = 0; i < lengths->count; i++)
        if (lengths->at[i] == length)
            return;
    lengths->at[lengths->count++] = length;
}

/* None, one, and the lengths around the needed one; `more` is beyond it. */
static struct lengths around(size_t needed, size_t more)
{
    struct lengths lengths = {0};

    add_length(&lengths, 0);
    add_length(&lengths, 1);
    if (needed > 0)
        add_length(&lengths, needed - 1);
    add_length(&lengths, needed);
    add_length(&lengths, needed + 1);
    add_length(&lengths, more);
    return lengths;
}

/* Mostly enough; now and then any length about it. */
static size_t about(struct gen *gen, size_t needed)
{
    if (gen_chance(gen, 85))
        return needed;
    struct lengths lengths = around(needed, ENOUGH);
    return lengths.at[gen_below(gen, lengths.count)];
}

/* ---- what is asked about ---- */

/* A valid set, its string, a table of length H, a state of that set and reports. */
struct bed {
    struct twin_set set;
    uint8_t set_bytes[ENOUGH];
    size_t slots;
    uint8_t table[2 * GEN_MAX_TABLE];
    bool schedule;                    /* is the table one? */
    uint8_t tried[2 * GEN_MAX_TABLE]; /* the table with some entry changed */
    struct twin_observer observer;
    uint8_t played[STATE_BYTES]; /* the state of a play from the start, if it is one */
    uint8_t state[2 * ENOUGH];
    uint8_t reports[ENOUGH];
};

static void any_bytes(struct gen *gen, uint8_t *bytes, size_t count)
{
    for (size_t i = 0; i < count; i++)
        bytes[i] = (uint8_t)gen_below(gen, 256);
}

static struct twin_set valid_set(struct gen *gen, unsigned large)
{
    if (gen_chance(gen, large))
        return gen_set(gen, GEN_SET_LARGE);
    return gen_set(gen, gen_chance(gen, 70) ? GEN_SET_SMALL : GEN_SET_TIGHT);
}

/* Some set, and its first schedule where there is one; `large` is how many of a hundred
 * have long hyper-periods. All that lies beyond the strings and the table is anything. */
static void make_bed(struct gen *gen, struct bed *bed, unsigned large)
{
    const struct twin_lent lent = {.faults_length = TWIN_MAX_TASKS};
    struct twin_state state;

    bed->set = valid_set(gen, large);
    any_bytes(gen, bed->set_bytes, sizeof bed->set_bytes);
    bytes_of_set(&bed->set, bed->set_bytes);
    any_bytes(gen, bed->state, sizeof bed->state);
    any_bytes(gen, bed->reports, sizeof bed->reports);
    bed->slots = gen_table(gen, GEN_TABLE_GOOD, &bed->set, bed->table);
    any_bytes(gen, bed->table + bed->slots, sizeof bed->table - bed->slots);
    bed->schedule =
        twin_start(&bed->set, bed->table, bed->slots, &lent, &state) == TWIN_ACCEPTED;
    if (bed->schedule)
        bytes_of_state(&state, bed->played);
    twin_observer_begin(&bed->observer, &bed->set, bed->table);
}

/* One tick of the play by the library itself, with reports as devices give them. */
static void play_on(struct gen *gen, struct bed *bed, enum gen_report_kind kind)
{
    uint8_t reports[TWIN_MAX_TASKS];

    gen_reports(gen, kind, &bed->observer, reports);
    uint16_t ticked =
        ask_tick(gen, bed->played, STATE_BYTES, bed->table, bed->slots, reports,
                 bed->set.count, about(gen, STATE_BYTES), about(gen, bed->set.count));
    if (KILUVSAAT_REFUSAL(ticked) == KILUVSAAT_BUFFER_TOO_SHORT)
        return;
    if (KILUVSAAT_REFUSAL(ticked) != 0)
        ask_wrong("a tick of a play from the start is refused");
    if (twin_observe(&bed->observer, reports, KILUVSAAT_RUNNER(ticked), ask_faults()) !=
        TWIN_NOTHING_WRONG)
        ask_wrong("the observer of condition 3 finds a fault with the play");
    memcpy(bed->played, ask_state(), STATE_BYTES);
}

/* Any reports, mostly of the three kinds there are. */
static void any_reports(struct gen *gen, struct bed *bed)
{
    for (unsigned i = 0; i < TWIN_MAX_TASKS + 1; i++)
        bed->reports[i] =
            (uint8_t)(gen_chance(gen, 95) ? gen_below(gen, 3) : gen_below(gen, 256));
}

/* The table to be tried: this slot's entry is some choice that the state allows. */
static void try_entry(struct gen *gen, struct bed *bed)
{
    struct twin_job now[TWIN_MAX_TASKS], next[TWIN_MAX_TASKS];
    struct twin_state state;
    unsigned choices = bed->set.count + 1u;
    unsigned first = gen_below(gen, choices);

    memcpy(bed->tried, bed->table, sizeof bed->table);
    if (!state_of_bytes(bed->state, &state) || twin_form(&state) != TWIN_ACCEPTED ||
        twin_hyper_period(&state.set) != bed->slots || state.set.count != bed->set.count)
        return;
    for (unsigned i = 0; i < state.set.count; i++)
        now[i] = twin_job_at(&state.set.tasks[i], state.slot, state.planned[i]);
    for (unsigned i = 0; i < choices; i++) {
        unsigned choice = (first + i) % choices;
        uint8_t entry = choice < state.set.count ? (uint8_t)choice : TWIN_IDLE;

        if (twin_jobs_pass_slot(&state.set, state.slot, now, entry, next))
            bed->tried[state.slot] = entry;
    }
}

/* Changes some bytes of a string to others that are likely to matter. */
static void damage(struct gen *gen, uint8_t *bytes, size_t length)
{
    for (unsigned times = gen_from_to(gen, 1, 3); times > 0; times--) {
        uint8_t *byte = bytes + gen_below(gen, (uint32_t)length);

        switch (gen_below(gen, 6)) {
        case 0:
            *byte = (uint8_t)gen_below(gen, 256);
            break;
        case 1:
            *byte ^= (uint8_t)(1u << gen_below(gen, 8));
            break;
        case 2:
            *byte += 1;
            break;
        case 3:
            *byte -= 1;
            break;
        case 4:
            *byte = (uint8_t)gen_below(gen, 9);
            break;
        default:
            *byte = bytes[gen_below(gen, (uint32_t)length)];
        }
    }
}

/* A string for a state of the bed's set, of the stated form or not. */
static void make_state(struct gen *gen, struct bed *bed, enum gen_state_kind kind)
{
    struct twin_state state;

    if (kind == GEN_STATE_REACHABLE && bed->schedule) {
        memcpy(bed->state, bed->played, STATE_BYTES);
        return;
    }
    if (kind == GEN_STATE_REACHABLE)
        kind = GEN_STATE_FORMED;
    if (gen_state(gen, kind, &bed->set, bed->table, &state))
        bytes_of_state(&state, bed->state);
    else
        any_bytes(gen, bed->state, STATE_BYTES);
}

/* A bed whose tick is accepted, with buffers of enough length. */
static void make_accepted_bed(struct gen *gen, struct bed *bed, unsigned large)
{
    const struct twin_lent lent = {.faults_length = TWIN_MAX_TASKS};
    struct twin_tick_reply reply;
    struct twin_state state;

    do {
        make_bed(gen, bed, large);
        make_state(gen, bed, GEN_STATE_FORMED);
        any_reports(gen, bed);
        try_entry(gen, bed);
    } while (!state_of_bytes(bed->state, &state) ||
             twin_tick(&state, bed->reports, bed->set.count, bed->tried, bed->slots, &lent,
                       &reply) != TWIN_ACCEPTED);
}

/* ---- reading ---- */

static void part_version(struct gen *gen, unsigned count)
{
    (void)gen;
    (void)count;
    ask_version();
}

static void read_every_way(struct gen *gen, const uint8_t *list, size_t list_len)
{
    struct lengths sets = around(SET_BYTES, ENOUGH);

    for (unsigned place = 0; place < LEND_PLACES; place++) {
        ask_place((enum lend_place)place);
        for (unsigned i = 0; i < sets.count; i++)
            ask_read(gen, list, list_len, sets.at[i]);
        ask_refused_line(gen, list, list_len);
    }
}

/* Every beginning of a short list, and lists about the longest length. */
static void part_read_lengths(struct gen *gen, unsigned count)
{
    static uint8_t list[LEND_MOST];

    for (; count > 0; count--) {
        size_t length = gen_list(gen, GEN_LIST_GOOD, list);
        size_t shown = length < 60 ? length : 60;

        for (size_t part = 0; part <= shown; part++)
            read_every_way(gen, list, part);
        memset(list + length, gen_chance(gen, 50) ? ' ' : '\n', sizeof list - length);
        struct lengths lengths = around(TWIN_MAX_LIST, sizeof list);
        for (unsigned i = 0; i < lengths.count; i++)
            read_every_way(gen, list, lengths.at[i]);
    }
}

static void part_read_lists(struct gen *gen, unsigned count)
{
    static uint8_t list[GEN_MAX_LIST];
    unsigned accepted = 0;

    for (unsigned i = 0; i < count; i++) {
        enum gen_list_kind kind = (enum gen_list_kind)gen_below(gen, GEN_LIST_KINDS);
        size_t length = gen_list(gen, kind, list);

        accepted += ask_read(gen, list, length, about(gen, SET_BYTES)) == 0;
        ask_refused_line(gen, list, length);
    }
    printf("  %u lists, %u accepted\n", count, accepted);
}

/* ---- sets ---- */

/* A string for a set of any kind, valid or not, with anything in its unused entries. */
static void make_set_bytes(struct gen *gen, struct twin_set *set, uint8_t *bytes)
{
    *set = gen_set(gen, (enum gen_set_kind)gen_below(gen, GEN_SET_KINDS));
    if (twin_set_refusal(set) == TWIN_ACCEPTED && gen_chance(gen, 50))
        gen_litter(gen, set);
    bytes_of_set(set, bytes);
    if (gen_chance(gen, 20)) {
        damage(gen, bytes, SET_BYTES);
        *set = set_of_bytes(bytes);
    }
}

/* The hyper-period of a set, or some number for one that has none. */
static size_t slots_of(const struct twin_set *set)
{
    return twin_set_refusal(set) == TWIN_ACCEPTED ? (size_t)twin_hyper_period(set) : 12;
}

static void part_slots(struct gen *gen, unsigned count)
{
    uint8_t bytes[ENOUGH];
    struct twin_set set;

    any_bytes(gen, bytes, sizeof bytes);
    for (size_t length = 0; length <= sizeof bytes; length++)
        for (unsigned place = 0; place < LEND_PLACES; place++) {
            ask_place((enum lend_place)place);
            make_set_bytes(gen, &set, bytes);
            ask_slots(gen, bytes, length);
        }
    ask_place(LEND_PLACES);
    for (; count > 0; count--) {
        make_set_bytes(gen, &set, bytes);
        ask_slots(gen, bytes, about(gen, SET_BYTES));
    }
}

/* ---- planning ---- */

static void plan_every_way(struct gen *gen, const uint8_t *set, size_t slots, size_t width)
{
    struct lengths sets = around(SET_BYTES, ENOUGH);
    struct lengths tables = around(slots, slots + 100);

    for (unsigned place = 0; place < LEND_NOWHERE; place++) {
        ask_place((enum lend_place)place);
        for (unsigned i = 0; i < sets.count; i++)
            for (unsigned j = 0; j < tables.count; j++)
                ask_plan(gen, set, sets.at[i], tables.at[j], MAX_AREA);
        /* every length up to three records, so that both sides of each room are met */
        for (size_t area = 0; area <= 3 * width + 1; area++)
            ask_plan(gen, set, SET_BYTES, slots, area);
    }
    ask_place(LEND_NOWHERE);
    ask_plan(gen, set, SET_BYTES, slots, 0);
    ask_plan(gen, set, SET_BYTES, 0, 0);
    ask_plan(gen, set, 0, 0, 0);
}

static void part_plan_lengths(struct gen *gen, unsigned count)
{
    uint8_t bytes[ENOUGH];
    unsigned words[3] = {0};

    any_bytes(gen, bytes, sizeof bytes);
    for (; count > 0; count--) {
        struct twin_set set = valid_set(gen, 2);
        size_t slots = (size_t)twin_hyper_period(&set);

        gen_litter(gen, &set);
        bytes_of_set(&set, bytes);
        plan_every_way(gen, bytes, slots, set.count + 1u);
        words[ask_plan(gen, bytes, SET_BYTES, slots, MAX_AREA) - KILUVSAAT_SCHEDULE]++;
    }
    printf("  schedule %u, infeasible %u, out of room %u\n", words[0], words[1], words[2]);
}

static void part_plan_sets(struct gen *gen, unsigned count)
{
    uint8_t bytes[ENOUGH];
    struct twin_set set;
    unsigned replies[256] = {0};

    any_bytes(gen, bytes, sizeof bytes);
    for (; count > 0; count--) {
        make_set_bytes(gen, &set, bytes);
        size_t slots = slots_of(&set);
        size_t area = gen_below(gen, gen_chance(gen, 50) ? 20 : MAX_AREA);

        replies[ask_plan(gen, bytes, about(gen, SET_BYTES), about(gen, slots), area)]++;
    }
    printf("  schedule %u, infeasible %u, out of room %u\n", replies[KILUVSAAT_SCHEDULE],
           replies[KILUVSAAT_INFEASIBLE], replies[KILUVSAAT_OUT_OF_ROOM]);
}

/* ---- starting ---- */

static void start_every_way(struct gen *gen, const struct bed *bed)
{
    struct lengths sets = around(SET_BYTES, ENOUGH);
    struct lengths tables = around(bed->slots, bed->slots + 100);
    struct lengths states = around(STATE_BYTES, 256);

    for (unsigned place = 0; place < LEND_PLACES; place++) {
        ask_place((enum lend_place)place);
        for (unsigned i = 0; i < sets.count; i++)
            for (unsigned j = 0; j < tables.count; j++)
                for (unsigned k = 0; k < states.count; k++)
                    ask_start(gen, bed->set_bytes, sets.at[i], bed->table, tables.at[j],
                              states.at[k]);
    }
}

static void part_start_lengths(struct gen *gen, unsigned count)
{
    static struct bed bed;

    for (; count > 0; count--) {
        make_bed(gen, &bed, 10);
        start_every_way(gen, &bed);
        bed.table[gen_below(gen, (uint32_t)bed.slots)] = bed.set.count;
        start_every_way(gen, &bed);
        damage(gen, bed.set_bytes, SET_BYTES);
        start_every_way(gen, &bed);
    }
}

static void part_start_tables(struct gen *gen, unsigned count)
{
    static struct bed bed;
    unsigned accepted = 0;

    for (unsigned done = 0; done < count;) {
        make_bed(gen, &bed, 5);
        for (unsigned i = 0; i < 20 && done < count; i++, done++) {
            uint8_t table[GEN_MAX_TABLE];
            uint8_t set[ENOUGH];
            size_t slots = bed.slots;

            memcpy(set, bed.set_bytes, sizeof set);
            memcpy(table, bed.table, sizeof table);
            if (gen_chance(gen, 40)) {
                struct twin_set littered = bed.set;
                gen_litter(gen, &littered);
                bytes_of_set(&littered, set);
            }
            if (gen_chance(gen, 20))
                damage(gen, set, SET_BYTES);
            if (gen_chance(gen, 50))
                damage(gen, table, slots);
            if (gen_chance(gen, 10))
                slots = gen_table(gen, GEN_TABLE_GARBAGE, &bed.set, table);
            accepted += ask_start(gen, set, about(gen, SET_BYTES), table, about(gen, slots),
                                  about(gen, STATE_BYTES)) == 0;
        }
    }
    printf("  %u starts, %u accepted\n", count, accepted);
}

/* ---- ticks ---- */

static void tick_every_way(struct gen *gen, const struct bed *bed)
{
    struct lengths states = around(STATE_BYTES, 256);
    struct lengths tables = around(bed->slots, bed->slots + 100);
    struct lengths tasks = around(bed->set.count, 20);

    for (unsigned place = 0; place < LEND_PLACES; place++) {
        ask_place((enum lend_place)place);
        for (unsigned i = 0; i < states.count; i++)
            for (unsigned j = 0; j < tables.count; j++)
                for (unsigned k = 0; k < tasks.count; k++)
                    for (unsigned l = 0; l < states.count; l++)
                        for (unsigned m = 0; m < tasks.count; m++)
                            ask_tick(gen, bed->state, states.at[i], bed->tried,
                                     tables.at[j], bed->reports, tasks.at[k], states.at[l],
                                     tasks.at[m]);
    }
}

static void part_tick_lengths(struct gen *gen, unsigned count)
{
    static struct bed bed;

    for (; count > 0; count--) {
        make_accepted_bed(gen, &bed, 10);
        tick_every_way(gen, &bed);
        memset(bed.tried, bed.set.count, bed.slots);
        tick_every_way(gen, &bed);
        damage(gen, bed.state, STATE_BYTES);
        tick_every_way(gen, &bed);
    }
}

/* An accepted string is the one string of the state it stands for. */
static void check_one_string(const uint8_t *bytes)
{
    uint8_t again[STATE_BYTES];
    struct twin_state state;

    if (!state_of_bytes(bytes, &state) || twin_form(&state) != TWIN_ACCEPTED)
        ask_wrong("an accepted string is not of the stated form");
    bytes_of_state(&state, again);
    if (memcmp(bytes, again, STATE_BYTES) != 0)
        ask_wrong("an accepted string does not encode to itself");
}

struct tally {
    unsigned strings;
    unsigned of_the_form;
    unsigned ticked;
};

/* Ticks from the bed's state; if it is accepted, ticks from the new state as well. */
static void tick_string(struct gen *gen, struct bed *bed, size_t state_len,
                        struct tally *tally)
{
    uint16_t ticked = ask_tick(
        gen, bed->state, state_len, bed->tried, about(gen, bed->slots), bed->reports,
        about(gen, bed->set.count), about(gen, STATE_BYTES), about(gen, bed->set.count));

    tally->strings++;
    if (KILUVSAAT_REFUSAL(ticked) == KILUVSAAT_BAD_STATE)
        return;
    tally->of_the_form++;
    check_one_string(bed->state);
    if (KILUVSAAT_REFUSAL(ticked) != 0)
        return;
    tally->ticked++;
    memcpy(bed->state, ask_state(), STATE_BYTES);
    check_one_string(bed->state);
    ticked = ask_tick(gen, bed->state, STATE_BYTES, bed->tried, bed->slots, bed->reports,
                      bed->set.count, STATE_BYTES, bed->set.count);
    if (KILUVSAAT_REFUSAL(ticked) == KILUVSAAT_BAD_STATE)
        ask_wrong("the state string of an accepted tick is refused");
}

static void part_tick_strings(struct gen *gen, unsigned count)
{
    static struct bed bed;
    struct tally tally = {0};

    while (tally.strings < count) {
        make_bed(gen, &bed, 10);
        for (unsigned i = 0; i < 100; i++) {
            if (bed.schedule && gen_chance(gen, 30))
                play_on(gen, &bed, GEN_REPORT_MIXED);
            make_state(gen, &bed, (enum gen_state_kind)gen_below(gen, GEN_STATE_KINDS));
            any_reports(gen, &bed);
            try_entry(gen, &bed);
            if (gen_chance(gen, 20))
                bed.tried[gen_below(gen, (uint32_t)bed.slots)] = bed.set.count;
            if (gen_chance(gen, 40))
                damage(gen, bed.state, STATE_BYTES);
            tick_string(gen, &bed, about(gen, STATE_BYTES), &tally);
        }
    }
    printf("  %u strings, %u of the stated form, %u ticked\n", tally.strings,
           tally.of_the_form, tally.ticked);
}

/* Every value of every single byte of some accepted strings. */
static void part_tick_bytes(struct gen *gen, unsigned count)
{
    static struct bed bed;
    struct tally tally = {0};
    uint8_t state[STATE_BYTES];

    for (; count > 0; count--) {
        make_accepted_bed(gen, &bed, 20);
        memcpy(state, bed.state, STATE_BYTES);
        for (size_t at = 0; at < STATE_BYTES; at++)
            for (unsigned value = 0; value < 256; value++) {
                memcpy(bed.state, state, STATE_BYTES);
                bed.state[at] = (uint8_t)value;
                tick_string(gen, &bed, STATE_BYTES, &tally);
            }
    }
    printf("  %u strings, %u of the stated form, %u ticked\n", tally.strings,
           tally.of_the_form, tally.ticked);
}

/* Plays from a start by the library, over several hyper-periods. */
static void part_plays(struct gen *gen, unsigned count)
{
    static struct bed bed;

    for (; count > 0; count--) {
        do
            make_bed(gen, &bed, 5);
        while (!bed.schedule);
        if (ask_start(gen, bed.set_bytes, SET_BYTES, bed.table, bed.slots, STATE_BYTES) !=
            0)
            ask_wrong("the first schedule is refused");
        memcpy(bed.played, ask_state(), STATE_BYTES);
        enum gen_report_kind kind = (enum gen_report_kind)gen_below(gen, GEN_REPORT_KINDS);
        for (size_t ticks = 3 * bed.slots + 20; ticks > 0; ticks--)
            play_on(gen, &bed, kind);
    }
}

/* ---- the whole ---- */

int main(int argc, char **argv)
{
    static const struct {
        const char *name;
        void (*part)(struct gen *gen, unsigned count);
        unsigned count;
    } parts[] = {
        {"version", part_version, 1},
        {"read, every length", part_read_lengths, 50},
        {"read, lists", part_read_lists, 200000},
        {"slots, every length and sets", part_slots, 100000},
        {"plan, every length", part_plan_lengths, 200},
        {"plan, sets", part_plan_sets, 10000},
        {"start, every length", part_start_lengths, 40},
        {"start, tables", part_start_tables, 100000},
        {"tick, every length", part_tick_lengths, 10},
        {"tick, strings", part_tick_strings, 1000000},
        {"tick, every byte", part_tick_bytes, 10},
        {"tick, plays", part_plays, 500},
    };
    if (argc < 2) {
        fputs("usage: boundary SEED [LESS [NAME]]\n", stderr);
        return 2;
    }
    uint64_t seed = strtoull(argv[1], NULL, 0);
    unsigned less = argc > 2 ? (unsigned)strtoul(argv[2], NULL, 0) : 1;
    const char *name = argc > 3 ? argv[3] : "";
    unsigned passed = 0;
    unsigned failed = 0;

    printf("seed %llu\n", (unsigned long long)seed);
    ask_open(seed);
    for (size_t i = 0; i < LENGTH_OF(parts); i++) {
        if (strncmp(parts[i].name, name, strlen(name)) != 0)
            continue;
        if (ask_part(parts[i].name, parts[i].part, (parts[i].count + less - 1) / less))
            passed++;
        else
            failed++;
    }
    printf("%u passed, %u failed\n", passed, failed);
    return failed == 0 ? 0 : 1;
}
