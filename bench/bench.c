/* bench ladder FILE [ROOM]    a row: planning the list by the library and by search.c
 * bench slots | tasks | dead  rows: how planning grows
 * bench tick FILE             a row: ticks of the library and of the twin
 * bench play FILE             prints nothing: one play by each, for instructions to be counted
 * bench encode FILE           prints nothing: starts with a buffer for the state, starts with
 *                             one that is a byte too short, and encodings of the twin's state
 * bench start FILE            a row: starts of the library and of the twin
 * bench read                  rows: reading by the library and by the twin
 * bench stack FILE            rows: stack of the library's functions, on a feasible list
 * bench text                  what `plan` writes for the list on standard input, by the
 * twin
 *
 * Rows are those of the tables that bench/run prints.
 */
#include "bytes.h"
#include "gen.h"
#include "kiluvsaat.h"
#include "measure.h"
#include "search.h"
#include "twin.h"

#include <stdio.h>
#include <stdlib.h>
#include <string.h>

enum {
    MOST_RECORDS = 40000,
    MOST_NUMBERS = MOST_RECORDS * TWIN_MAX_RECORD,
    TICKS = 4096 /* of a play that is measured */
};

static const double plan_bound = 1.5;
static const double tick_bound = 2;

static void give_up(const char *words)
{
    fprintf(stderr, "bench: %s\n", words);
    exit(1);
}

/* The ratio, and a mark where it is worse than the bound (0: no bound). */
static void print_ratio(struct times times, double bound)
{
    double ratio = times.library / times.other;

    printf("%.2f%s |\n", ratio, bound > 0 && ratio > bound ? " (above the bound)" : "");
}

/* ---- lists ---- */

struct list {
    size_t length;
    uint8_t bytes[KILUVSAAT_LIST_MAX + 1];
};

static struct list list_in_file(const char *path)
{
    struct list list;
    FILE *file = fopen(path, "rb");

    if (file == NULL)
        give_up(path);
    list.length = fread(list.bytes, 1, sizeof list.bytes, file);
    fclose(file);
    return list;
}

static void add_line(struct list *list, const char *line)
{
    size_t length = strlen(line);

    if (list->length + length > KILUVSAAT_LIST_MAX)
        give_up("a list is too long");
    memcpy(list->bytes + list->length, line, length);
    list->length += length;
}

static struct twin_set set_in(const struct list *list)
{
    struct twin_read_reply reply = twin_read(list->bytes, list->length);

    if (reply.refusal != TWIN_ACCEPTED)
        give_up("a list is refused");
    return reply.set;
}

/* The last part of a path, without its ending. */
static int name_length(const char *path, const char **name)
{
    const char *slash = strrchr(path, '/');

    *name = slash == NULL ? path : slash + 1;
    return (int)strcspn(*name, ".");
}

/* ---- planning ---- */

struct planning {
    unsigned tasks;
    size_t slots;
    size_t room;
    size_t area_length;
    uint8_t set[KILUVSAAT_SET_SIZE];
    uint8_t table[KILUVSAAT_SLOTS_MAX];
    uint16_t area[MOST_NUMBERS];
    uint8_t word;
    uint64_t count;
};

static struct planning planning;

static void plan_by_library(void *context)
{
    struct planning *p = context;

    p->word = kiluvsaat_plan(p->set, sizeof p->set, p->table, sizeof p->table, p->area,
                             p->area_length, &p->count);
}

static void plan_by_search(void *context)
{
    static const uint8_t words[] = {
        [SEARCH_SCHEDULE] = KILUVSAAT_SCHEDULE,
        [SEARCH_INFEASIBLE] = KILUVSAAT_INFEASIBLE,
        [SEARCH_OUT_OF_ROOM] = KILUVSAAT_OUT_OF_ROOM,
    };
    struct planning *p = context;
    struct search_reply reply = search_plan(p->set, p->table, p->area, p->area_length);

    p->word = words[reply.word];
    p->count = reply.count;
}

static void lend_room(struct planning *p, size_t room)
{
    p->room = room;
    p->area_length = room * (p->tasks + 1);
}

static void check_same_reply(struct planning *p)
{
    static uint8_t table[KILUVSAAT_SLOTS_MAX];

    plan_by_search(p);
    uint8_t word = p->word;
    uint64_t count = p->count;
    memcpy(table, p->table, p->slots);
    plan_by_library(p);
    if (p->word != word || p->count != count || memcmp(p->table, table, p->slots) != 0)
        give_up("library and search reply otherwise");
}

/* Plans with that room, or (room 0) with exactly as much as the dead positions need. */
static struct times time_planning(const struct list *list, size_t room)
{
    struct twin_set set = set_in(list);

    planning.tasks = set.count;
    planning.slots = (size_t)twin_hyper_period(&set);
    bytes_of_set(&set, planning.set);
    lend_room(&planning, room > 0 ? room : MOST_RECORDS);
    plan_by_search(&planning);
    lend_room(&planning, (size_t)planning.count);
    check_same_reply(&planning);
    return measure(plan_by_library, plan_by_search, &planning);
}

static const char *word_of_reply(void)
{
    return planning.word == KILUVSAAT_SCHEDULE     ? "schedule"
           : planning.word == KILUVSAAT_INFEASIBLE ? "infeasible"
                                                   : "out of room";
}

static void ladder_row(const char *path, size_t room)
{
    struct list list = list_in_file(path);
    struct times times = time_planning(&list, room);
    const char *name;
    int length = name_length(path, &name);

    printf("| %.*s | %zu | %u | %s | %llu | %zu | %s | %s | ", length, name, planning.slots,
           planning.tasks, word_of_reply(), (unsigned long long)planning.count,
           planning.room, in_words(times.library), in_words(times.other));
    print_ratio(times, plan_bound);
}

/* ---- growth ---- */

/* A row with what the library needs for each of some units. */
static void growth_row(const struct list *list, double (*units)(void))
{
    struct times times = time_planning(list, 0);

    printf("| %zu | %u | %llu | %s | %s | ", planning.slots, planning.tasks,
           (unsigned long long)planning.count, in_words(times.library),
           in_words(times.library / units()));
    print_ratio(times, plan_bound);
}

static double slots_planned(void)
{
    return (double)planning.slots;
}

/* Each dead position is compared with those before it. */
static double pairs_of_dead(void)
{
    return (double)planning.count * (double)planning.count;
}

/* The same three tasks, with a fourth that makes the hyper-period longer. */
static void grow_slots(void)
{
    for (unsigned slots = 64; slots <= KILUVSAAT_SLOTS_MAX; slots *= 2) {
        struct list list = {0};
        char line[64];

        add_line(&list, "16 16 2 3 2\n32 32 4 9 4\n64 64 6\n");
        snprintf(line, sizeof line, "%u %u 3 5 3\n", slots, slots);
        add_line(&list, line);
        growth_row(&list, slots_planned);
    }
}

static void grow_tasks(void)
{
    struct list list = {0};

    for (unsigned tasks = 1; tasks <= KILUVSAAT_TASKS_MAX; tasks++) {
        add_line(&list, "512 512 20 10 20\n");
        growth_row(&list, slots_planned);
    }
}

/* Two tasks that ask for one slot more than there are. */
static void grow_dead(void)
{
    for (unsigned half = 8; half <= 40; half += 8) {
        struct list list = {0};
        char line[64];

        snprintf(line, sizeof line, "%u %u %u\n%u %u %u\n", 2 * half, 2 * half, half,
                 2 * half, 2 * half, half + 1);
        add_line(&list, line);
        growth_row(&list, pairs_of_dead);
    }
}

/* ---- ticks and starts ---- */

struct playing {
    struct twin_set set;
    size_t slots;
    uint8_t string[KILUVSAAT_SET_SIZE];
    uint8_t table[GEN_MAX_TABLE];
    uint8_t reports[TICKS][TWIN_MAX_TASKS];
    struct twin_state twin_state;
    uint8_t state[KILUVSAAT_STATE_SIZE];
};

static const struct twin_lent lent = {.state_needed = KILUVSAAT_STATE_SIZE,
                                      .state_length = KILUVSAAT_STATE_SIZE,
                                      .faults_length = TWIN_MAX_TASKS};

static void start_by_library(void *context)
{
    struct playing *p = context;

    if (kiluvsaat_start(p->string, sizeof p->string, p->table, p->slots, p->state,
                        sizeof p->state) != 0)
        give_up("the library refuses a start");
}

static void start_by_twin(void *context)
{
    struct playing *p = context;

    if (twin_start(&p->set, p->table, p->slots, &lent, &p->twin_state) != 0)
        give_up("the twin refuses a start");
}

/* A play of TICKS ticks from the fresh state. */
static void play_by_library(void *context)
{
    struct playing *p = context;
    uint8_t states[2][KILUVSAAT_STATE_SIZE];
    uint8_t faults[TWIN_MAX_TASKS];

    memcpy(states[0], p->state, sizeof states[0]);
    for (unsigned tick = 0; tick < TICKS; tick++) {
        uint16_t ticked =
            kiluvsaat_tick(states[tick % 2], KILUVSAAT_STATE_SIZE, p->table, p->slots,
                           p->reports[tick], p->set.count, states[1 - tick % 2],
                           KILUVSAAT_STATE_SIZE, faults, sizeof faults);
        if (KILUVSAAT_REFUSAL(ticked) != 0)
            give_up("the library refuses a tick");
    }
}

static void play_by_twin(void *context)
{
    struct playing *p = context;
    struct twin_state state = p->twin_state;
    struct twin_tick_reply reply;

    for (unsigned tick = 0; tick < TICKS; tick++) {
        if (twin_tick(&state, p->reports[tick], p->set.count, p->table, p->slots, &lent,
                      &reply) != 0)
            give_up("the twin refuses a tick");
        state = reply.state;
    }
}

/* Reports of jobs that keep within their pattern and often end early. */
static void make_reports(struct gen *gen, struct playing *p)
{
    struct twin_state state = p->twin_state;
    struct twin_observer observer;
    struct twin_tick_reply reply;

    twin_observer_begin(&observer, &p->set, p->table);
    for (unsigned tick = 0; tick < TICKS; tick++) {
        gen_reports(gen, GEN_REPORT_EARLY, &observer, p->reports[tick]);
        twin_tick(&state, p->reports[tick], p->set.count, p->table, p->slots, &lent,
                  &reply);
        twin_observe(&observer, p->reports[tick], reply.runner, reply.faults);
        state = reply.state;
    }
}

static struct playing *playing_of(const char *path)
{
    static struct playing playing;
    struct list list = list_in_file(path);
    struct gen gen;

    gen_seed(&gen, 1);
    playing.set = set_in(&list);
    playing.slots = gen_table(&gen, GEN_TABLE_GOOD, &playing.set, playing.table);
    bytes_of_set(&playing.set, playing.string);
    start_by_twin(&playing);
    start_by_library(&playing);
    make_reports(&gen, &playing);
    return &playing;
}

static void tick_row(const char *path)
{
    struct playing *playing = playing_of(path);
    struct times times = measure(play_by_library, play_by_twin, playing);
    const char *name;
    int length = name_length(path, &name);

    printf("| %.*s | %zu | %u | %.2f million | %.2f million | ", length, name,
           playing->slots, playing->set.count, 1e-6 * TICKS / times.library,
           1e-6 * TICKS / times.other);
    print_ratio(times, tick_bound);
}

static void play_once(const char *path)
{
    struct playing *playing = playing_of(path);

    play_by_library(playing);
    play_by_twin(playing);
}

/* Functions of their own, so that what each costs can be counted. */
__attribute__((noinline)) static uint8_t start_encoded(struct playing *p)
{
    return kiluvsaat_start(p->string, sizeof p->string, p->table, p->slots, p->state,
                           sizeof p->state);
}

__attribute__((noinline)) static uint8_t start_short(struct playing *p)
{
    return kiluvsaat_start(p->string, sizeof p->string, p->table, p->slots, p->state,
                           sizeof p->state - 1);
}

static void encode_often(const char *path)
{
    struct playing *playing = playing_of(path);
    uint8_t bytes[KILUVSAAT_STATE_SIZE];

    for (unsigned i = 0; i < TICKS; i++) {
        if (start_encoded(playing) != 0 || start_short(playing) != KILUVSAAT_BUFFER_TOO_SHORT)
            give_up("a start replies otherwise");
        bytes_of_state(&playing->twin_state, bytes);
    }
}

static void start_row(const char *path)
{
    struct playing *playing = playing_of(path);
    struct times times = measure(start_by_library, start_by_twin, playing);
    const char *name;
    int length = name_length(path, &name);

    printf("| %.*s | %zu | %u | %s | %s | ", length, name, playing->slots,
           playing->set.count, in_words(times.library), in_words(times.other));
    print_ratio(times, 0);
}

/* ---- reading ---- */

static volatile uint8_t read_reply; /* keeps the work from being left out */

static void read_by_library(void *context)
{
    struct list *list = context;
    uint8_t set[KILUVSAAT_SET_SIZE];

    read_reply = kiluvsaat_read(list->bytes, list->length, set, sizeof set);
}

static void read_by_twin(void *context)
{
    struct list *list = context;

    read_reply = twin_read(list->bytes, list->length).refusal;
}

static void read_row(const char *name, struct list *list)
{
    struct times times = measure(read_by_library, read_by_twin, list);

    printf("| %s | %zu | %s | %s | ", name, list->length, in_words(times.library),
           in_words(times.other));
    print_ratio(times, 0);
}

/* Eight lines of nine fields, all as long as can be, each filled up to a length. */
static struct list longest_lines(int length)
{
    struct list list = {0};
    char line[520];

    for (unsigned i = 0; i < KILUVSAAT_TASKS_MAX; i++) {
        snprintf(line, sizeof line, "%*s\n", length - 1,
                 "4096 4096 0255 0255 0255 0255 0255 0255 0255");
        add_line(&list, line);
    }
    return list;
}

/* One task in a line of 4,096 bytes, all but its fields spaces. */
static struct list spaced_line(void)
{
    struct list list = {.length = KILUVSAAT_LIST_MAX};

    memset(list.bytes, ' ', sizeof list.bytes);
    memcpy(list.bytes, "1 1 1", 5);
    return list;
}

static void read_rows(void)
{
    struct list comments = {0};
    struct list fields = longest_lines(0);
    struct list filled = longest_lines(512);
    struct list spaced = spaced_line();

    while (comments.length + 64 < KILUVSAAT_LIST_MAX)
        add_line(&comments,
                 "# 3 3 1 1 1 is a comment here, and so is what else this line h.\n");
    while (comments.length + 6 < KILUVSAAT_LIST_MAX)
        add_line(&comments, "#\n");
    add_line(&comments, "1 1 1\n");
    read_row("comments and one task", &comments);
    read_row("eight lines of nine longest fields", &fields);
    read_row("the same, each filled up with spaces", &filled);
    read_row("one task and 4,091 spaces", &spaced);
}

/* ---- stack ---- */

static void stack_row(const char *function, const char *input, work *work, void *context)
{
    printf("| %s | %s | %zu |\n", function, input, stack_of(work, context));
}

static void stack_rows(const char *path)
{
    struct playing *playing = playing_of(path);
    struct list fields = longest_lines(0);
    struct list spaced = spaced_line();

    memcpy(planning.set, playing->string, sizeof planning.set);
    planning.tasks = playing->set.count;
    lend_room(&planning, MOST_RECORDS);
    stack_row("kiluvsaat_read", "eight lines of nine longest fields", read_by_library,
              &fields);
    stack_row("kiluvsaat_read", "one task and 4,091 spaces", read_by_library, &spaced);
    stack_row("kiluvsaat_plan", "the list", plan_by_library, &planning);
    stack_row("kiluvsaat_start", "the list", start_by_library, playing);
    stack_row("kiluvsaat_tick", "the list", play_by_library, playing);
}

/* ---- the program ---- */

static void write_text(void)
{
    static uint8_t list[KILUVSAAT_LIST_MAX + 1];
    static char text[TWIN_MAX_TEXT];
    size_t length = fread(list, 1, sizeof list, stdin);

    fwrite(text, 1, twin_text(list, length, text, sizeof text), stdout);
}

int main(int argc, char **argv)
{
    const char *what = argc > 1 ? argv[1] : "";

    if (strcmp(what, "ladder") == 0 && argc > 2)
        ladder_row(argv[2], argc > 3 ? strtoul(argv[3], NULL, 10) : 0);
    else if (strcmp(what, "slots") == 0)
        grow_slots();
    else if (strcmp(what, "tasks") == 0)
        grow_tasks();
    else if (strcmp(what, "dead") == 0)
        grow_dead();
    else if (strcmp(what, "tick") == 0 && argc > 2)
        tick_row(argv[2]);
    else if (strcmp(what, "play") == 0 && argc > 2)
        play_once(argv[2]);
    else if (strcmp(what, "encode") == 0 && argc > 2)
        encode_often(argv[2]);
    else if (strcmp(what, "start") == 0 && argc > 2)
        start_row(argv[2]);
    else if (strcmp(what, "read") == 0)
        read_rows();
    else if (strcmp(what, "stack") == 0 && argc > 2)
        stack_rows(argv[2]);
    else if (strcmp(what, "text") == 0)
        write_text();
    else
        give_up("what is to be measured?");
    return 0;
}
