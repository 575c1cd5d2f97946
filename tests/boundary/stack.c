/* How much stack each exported function takes at most, on inputs that are likely to take
 * the most: a firmware has to know. Nothing is proved of it. */
#define _GNU_SOURCE /* MAP_ANONYMOUS */
#include "bytes.h"
#include "gen.h"
#include "kiluvsaat.h"

#include <stdio.h>
#include <stdlib.h>
#include <string.h>
#include <sys/mman.h>
#include <ucontext.h>

enum {
    KILOBYTE = 1024,
    ROOM = 1024 * KILOBYTE,
    PAGE =
        64 *
        KILOBYTE, /* nobody may touch it: below the room, so that too deep a call faults */
    PAINT = 0xa5,
    SETS = 100
};

/* ---- one call on a painted stack ---- */

static uint8_t *room;
static ucontext_t caller, callee;
static void (*call)(void);

static void make_call(void)
{
    call();
}

static void call_nothing(void)
{
}

static size_t stack_of(void (*function)(void))
{
    size_t untouched = 0;

    memset(room, PAINT, ROOM);
    call = function;
    getcontext(&callee);
    callee.uc_stack.ss_sp = room;
    callee.uc_stack.ss_size = ROOM;
    callee.uc_link = &caller;
    makecontext(&callee, make_call, 0);
    swapcontext(&caller, &callee);
    while (untouched < ROOM && room[untouched] == PAINT)
        untouched++;
    return ROOM - untouched;
}

static void open_room(void)
{
    uint8_t *memory =
        mmap(NULL, PAGE + ROOM, PROT_READ | PROT_WRITE, MAP_PRIVATE | MAP_ANONYMOUS, -1, 0);

    if (memory == MAP_FAILED || mprotect(memory, PAGE, PROT_NONE) != 0) {
        perror("mmap");
        exit(2);
    }
    room = memory + PAGE;
}

/* ---- the functions ---- */

static uint8_t list[KILUVSAAT_LIST_MAX];
static uint8_t set[KILUVSAAT_SET_SIZE];
static uint8_t table[KILUVSAAT_SLOTS_MAX];
static uint16_t area[400];
static uint64_t count;
static uint8_t state[KILUVSAAT_STATE_SIZE];
static uint8_t next[KILUVSAAT_STATE_SIZE];
static uint8_t reports[KILUVSAAT_TASKS_MAX];
static uint8_t faults[KILUVSAAT_TASKS_MAX];

static void call_read(void)
{
    uint8_t read[KILUVSAAT_SET_SIZE];

    kiluvsaat_read(list, sizeof list, read, sizeof read);
}

static void call_refused_line(void)
{
    kiluvsaat_refused_line(list, sizeof list);
}

static void call_slots(void)
{
    kiluvsaat_slots(set, sizeof set);
}

static void call_plan(void)
{
    kiluvsaat_plan(set, sizeof set, table, sizeof table, area, sizeof area / sizeof area[0],
                   &count);
}

static void call_start(void)
{
    kiluvsaat_start(set, sizeof set, table, kiluvsaat_slots(set, sizeof set), state,
                    sizeof state);
}

static void call_tick(void)
{
    kiluvsaat_tick(state, sizeof state, table, kiluvsaat_slots(set, sizeof set), reports,
                   set[0], next, sizeof next, faults, sizeof faults);
}

static struct {
    const char *name;
    void (*call)(void);
    size_t most; /* that the header promises */
    size_t taken;
} functions[] = {
    {"read", call_read, 8 * KILOBYTE, 0},
    {"refused_line", call_refused_line, 8 * KILOBYTE, 0},
    {"slots", call_slots, 8 * KILOBYTE, 0},
    {"plan", call_plan, 8 * KILOBYTE, 0},
    {"start", call_start, 8 * KILOBYTE, 0},
    {"tick", call_tick, 8 * KILOBYTE, 0},
};

enum {
    READERS = 2,
    FUNCTIONS = sizeof functions / sizeof functions[0]
};

static void measure(unsigned from, unsigned to)
{
    for (unsigned i = from; i < to; i++) {
        size_t taken = stack_of(functions[i].call) - stack_of(call_nothing);

        if (taken > functions[i].taken)
            functions[i].taken = taken;
    }
}

/* The longest list, made of one text again and again, with another at its end. */
static void measure_list(const char *text, const char *end)
{
    for (size_t i = 0; i < sizeof list; i++)
        list[i] = (uint8_t)text[i % strlen(text)];
    memcpy(list + sizeof list - strlen(end), end, strlen(end));
    measure(0, READERS);
}

int main(void)
{
    static const char *const texts[] = {" ",  "1 ", "1111 ",   "1111         ",      "1",
                                        "\n", "#",  "8 8 1\n", "9 9 1 1 1 1 1 1 1\n"};
    struct gen gen;
    unsigned failed = 0;

    open_room();
    for (size_t i = 0; i < sizeof texts / sizeof texts[0]; i++) {
        measure_list(texts[i], "");
        measure_list(texts[i], "1");
        measure_list(texts[i], "a");
    }
    gen_seed(&gen, 1);
    for (unsigned i = 0; i < SETS; i++) {
        struct twin_set any = gen_set(&gen, (enum gen_set_kind)(i % GEN_SET_NEAR));

        bytes_of_set(&any, set);
        measure(READERS, FUNCTIONS);
    }
    for (unsigned i = 0; i < FUNCTIONS; i++) {
        bool fits = functions[i].taken <= functions[i].most;

        printf("stack of %s: %zu bytes%s\n", functions[i].name, functions[i].taken,
               fits ? "" : ", more than the header says");
        failed += !fits;
    }
    printf("%u passed, %u failed\n", FUNCTIONS - failed, failed);
    return failed == 0 ? 0 : 1;
}
