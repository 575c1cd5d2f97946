/* A controller: reads a task list, plans it, and follows the plan slot by slot.
 *
 *   controller LIST [NAME..]      the names are those of the tasks, in the order of the list
 *
 * All memory is static. devices.c stands in for the hardware; the rest is what a firmware would do, with a
 * timer in the place of the loop and a console in the place of standard output.
 */
#include "devices.h"
#include "kiluvsaat.h"

#include <stdio.h>

#define HYPER_PERIODS 3

static uint8_t list[KILUVSAAT_LIST_MAX + 1];
static uint8_t set[KILUVSAAT_SET_SIZE];
static uint8_t table[KILUVSAAT_SLOTS_MAX];
static uint16_t area[24000];
/* a tick reads the one and writes the other, then they change places */
static uint8_t states[2][KILUVSAAT_STATE_SIZE];
static uint8_t *state = states[0];
static uint8_t *next = states[1];
static uint8_t reports[KILUVSAAT_TASKS_MAX];
static uint8_t faults[KILUVSAAT_TASKS_MAX];

static unsigned tasks;
static size_t slots;
static const char *names[KILUVSAAT_TASKS_MAX] = {"task 1", "task 2", "task 3", "task 4",
                                                 "task 5", "task 6", "task 7", "task 8"};

static const char *const refusals[] = {
    "none",
    "the list is longer than 4,096 bytes",
    "not 3, 5, 7 or 9 fields of 1 to 4 digits",
    "a number outside its range",
    "the deadline is greater than the period",
    "no task, or a ninth",
    "the hyper-period is above 4,096",
};

static const char *const fault_words[] = {
    "",
    "overrun, the step has used its slots and is not finished",
    "late, not ready in the slot that the plan gives it",
    "false, a report that cannot be",
};

/* ---- the byte strings, by docs/STATE.md ---- */

static const uint8_t *task_at(unsigned task)
{
    return set + 1 + 12 * task;
}

static unsigned number_at(const uint8_t *bytes)
{
    return bytes[0] + 256u * bytes[1];
}

/* The slot that the next tick begins. Periods divide the table's length, so it tells of releases as well as
 * the time. */
static unsigned slot_now(void)
{
    return number_at(state + 97);
}

/* What a task is doing, with the number of its computing step or of the wait after it. */
static const char *doing(unsigned task)
{
    static const char *const ready[] = {"ready 1", "ready 2", "ready 3", "ready 4"};
    static const char *const runs[] = {"RUNS 1", "RUNS 2", "RUNS 3", "RUNS 4"};
    static const char *const waits[] = {"waits 1", "waits 2", "waits 3", "waits 4"};
    const uint8_t *job = state + 115 + 3 * task;

    if (job[0] == 0)
        return state[139] == task ? runs[job[1]] : ready[job[1]];
    return job[0] == 1 ? waits[job[1]] : job[0] == 2 ? "done" : "stopped";
}

/* ---- before the first slot ---- */

/* One byte more than a list may have, so that a longer file is refused and not cut. */
static int read_list(const char *path)
{
    FILE *file = fopen(path, "rb");

    if (file == NULL) {
        perror(path);
        return 0;
    }
    size_t length = fread(list, 1, sizeof list, file);
    fclose(file);
    uint8_t refusal = kiluvsaat_read(list, length, set, sizeof set);
    uint64_t place = kiluvsaat_refused_line(list, length);
    if (refusal != 0)
        printf("%s: %s\n", path, refusals[refusal]);
    if (KILUVSAAT_LINE(place) != 0)
        printf("line %u: %.*s\n", (unsigned)KILUVSAAT_LINE(place), (int)KILUVSAAT_LINE_LENGTH(place),
               (const char *)list + KILUVSAAT_LINE_START(place));
    tasks = set[0];
    slots = kiluvsaat_slots(set, sizeof set);
    return refusal == 0;
}

static int plan(void)
{
    uint64_t count;
    uint8_t word =
        kiluvsaat_plan(set, sizeof set, table, sizeof table, area, sizeof area / sizeof area[0], &count);

    if (word == KILUVSAAT_SCHEDULE)
        return 1;
    printf("%s after %llu dead positions\n",
           word == KILUVSAAT_INFEASIBLE ? "no schedule exists" : "out of room", (unsigned long long)count);
    return 0;
}

/* ---- printing ---- */

static void print_title(void)
{
    printf("A number is that of a computing step; a wait has the number of the step before it.\n\n");
    printf("time  slot  plan    ");
    for (unsigned i = 0; i < tasks; i++)
        printf(i + 1 < tasks ? "  %-8s" : "  %s\n", names[i]);
}

/* The slot that the last tick began: whose it is in the plan, what each task does in it, and what went wrong
 * before it. */
static void print_slot(unsigned time, unsigned slot)
{
    printf("%4u  %4u  %-8s", time, slot, table[slot] == KILUVSAAT_IDLE ? "-" : names[table[slot]]);
    for (unsigned i = 0; i < tasks; i++)
        printf(i + 1 < tasks ? "  %-8s" : "  %s\n", doing(i));
    for (unsigned i = 0; i < tasks; i++)
        if (faults[i] != KILUVSAAT_NO_FAULT)
            printf("   !  %s: %s\n", names[i], fault_words[faults[i]]);
}

/* ---- the loop ---- */

/* One slot: tell the player what happened in the last one, let the task that it names run, and see what each
 * device did. */
static int pass_slot(unsigned time)
{
    unsigned slot = slot_now();
    uint16_t ticked = kiluvsaat_tick(state, KILUVSAAT_STATE_SIZE, table, slots, reports, tasks, next,
                                     KILUVSAAT_STATE_SIZE, faults, tasks);
    uint8_t *written = next;

    if (KILUVSAAT_REFUSAL(ticked) != 0) {
        printf("tick refused: %u\n", KILUVSAAT_REFUSAL(ticked));
        return 0;
    }
    next = state;
    state = written;
    print_slot(time, slot);
    for (unsigned i = 0; i < tasks; i++) {
        if (faults[i] != KILUVSAAT_NO_FAULT)
            device_stop(i);
        if (slot % number_at(task_at(i)) == 0)
            device_release(i, task_at(i) + 5, 2u * task_at(i)[4] - 1);
        reports[i] = device_slot(i, KILUVSAAT_RUNNER(ticked) == i);
    }
    return 1;
}

int main(int argc, char **argv)
{
    if (argc < 2 || !read_list(argv[1]) || !plan())
        return 1;
    for (int i = 0; i < KILUVSAAT_TASKS_MAX && i + 2 < argc; i++)
        names[i] = argv[i + 2];
    if (kiluvsaat_start(set, sizeof set, table, slots, state, KILUVSAAT_STATE_SIZE) != 0)
        return 1;
    print_title();
    for (unsigned time = 0; time < HYPER_PERIODS * slots; time++)
        if (!pass_slot(time))
            return 1;
    return 0;
}
