/* Runs the script of crates/vectors/stdin through the twin and writes what the program
 * `vectors` must write. The script's form is told at its head. */
#include "../twin/twin.h"

#include <stdio.h>
#include <stdlib.h>
#include <string.h>

enum {
    MAX_LINE = 8192,
    MAX_LIST = 8192,
    MAX_TABLE = 5000,
    MAX_SHOWN = 12,    /* records */
    UNTOUCHED = 238,   /* in a lent table */
    LEFT_ALONE = 60000 /* in a lent area */
};

static void fail(const char *why, const char *line)
{
    fprintf(stderr, "vectors: %s: %s\n", why, line);
    exit(2);
}

/* ---- lists as the script writes them ---- */

struct list {
    uint8_t bytes[MAX_LIST];
    size_t length;
};

static void add(struct list *list, unsigned byte, unsigned times)
{
    if (times > MAX_LIST - list->length)
        fail("list too long", "");
    memset(list->bytes + list->length, (int)byte, times);
    list->length += times;
}

/* One escape, from behind its backslash. Returns what follows it. */
static const char *add_escape(struct list *list, const char *at)
{
    unsigned number;
    int read = 0;

    switch (*at) {
    case 'n':
        add(list, '\n', 1);
        return at + 1;
    case '\\':
        add(list, '\\', 1);
        return at + 1;
    case 'x':
        if (sscanf(at + 1, "%2x%n", &number, &read) != 1 || read != 2)
            fail("two hexadecimal digits wanted", at);
        add(list, number, 1);
        return at + 3;
    case '*':
        if (sscanf(at + 1, "%4u%n", &number, &read) != 1 || read != 4)
            fail("four digits wanted", at);
        add(list, (uint8_t)at[5], number);
        return at + 6;
    default:
        fail("unknown escape", at);
        return NULL;
    }
}

/* The list in quotes. Returns what follows the closing quote. */
static const char *read_list(struct list *list, const char *at)
{
    list->length = 0;
    if (*at++ != '"')
        fail("quote wanted", at);
    while (*at != '"') {
        if (*at == '\0')
            fail("closing quote wanted", "");
        if (*at == '\\')
            at = add_escape(list, at + 1);
        else
            add(list, (uint8_t)*at++, 1);
    }
    return at + 1;
}

/* Bytes as the script writes them, eight or more alike in one escape. */
static void show_bytes(const uint8_t *bytes, size_t length)
{
    size_t i = 0;

    while (i < length) {
        size_t alike = 1;
        while (i + alike < length && bytes[i + alike] == bytes[i])
            alike++;
        if (alike >= 8)
            printf("\\*%04zu", alike);
        for (size_t k = 0; k < (alike >= 8 ? 1 : alike); k++) {
            if (bytes[i] == '\\')
                printf("\\\\");
            else if (bytes[i] < 32 || bytes[i] > 126 || bytes[i] == '"')
                printf("\\x%02x", bytes[i]);
            else
                putchar(bytes[i]);
        }
        i += alike;
    }
}

/* ---- read ---- */

static struct twin_read_reply show_read(const struct list *list)
{
    struct twin_read_reply reply = twin_read(list->bytes, list->length);

    printf("  refusal %u, line %zu, start %zu, size %zu: ", reply.refusal, reply.line,
           reply.shown_start, reply.shown_length);
    if (reply.refusal == TWIN_ACCEPTED) {
        printf("set %u", reply.set.count);
        for (unsigned i = 0; i < reply.set.count; i++) {
            const struct twin_task *task = &reply.set.tasks[i];
            printf(" (%u %u %u:", task->period, task->deadline, task->steps);
            for (unsigned k = 0; k < 2u * task->steps - 1u; k++)
                printf(" %u", task->pattern[k]);
            printf(")");
        }
    } else {
        printf("\"");
        show_bytes(list->bytes + reply.shown_start, reply.shown_length);
        printf("\"");
    }
    printf("\n");
    return reply;
}

/* True with the set, or false after the reader's refusal was shown. */
static bool read_set(const struct list *list, struct twin_set *set)
{
    struct twin_read_reply reply = twin_read(list->bytes, list->length);

    if (reply.refusal != TWIN_ACCEPTED) {
        show_read(list);
        return false;
    }
    *set = reply.set;
    return true;
}

/* ---- plan ---- */

static char slot_sign(uint8_t entry)
{
    if (entry == TWIN_IDLE)
        return '.';
    if (entry == UNTOUCHED)
        return '_';
    return entry < TWIN_MAX_TASKS ? (char)('1' + entry) : '?';
}

static unsigned record_width;

static int compare_records(const void *a, const void *b)
{
    const uint16_t *x = a, *y = b;

    for (unsigned k = 0; k < record_width; k++)
        if (x[k] != y[k])
            return x[k] < y[k] ? -1 : 1;
    return 0;
}

static void show_records(const uint16_t *area, size_t count, unsigned width)
{
    uint16_t records[MAX_SHOWN * TWIN_MAX_RECORD];

    memcpy(records, area, count * width * sizeof *area);
    record_width = width;
    qsort(records, count, width * sizeof *records, compare_records);
    for (size_t i = 0; i < count; i++) {
        printf(" (%u:", records[i * width]);
        for (unsigned k = 1; k < width; k++)
            printf(" %u", records[i * width + k]);
        printf(")");
    }
}

static void show_plan(const struct list *list, const char *rest)
{
    static uint8_t table[MAX_TABLE];
    static uint16_t area[TWIN_PLAN_AREA];
    struct twin_set set;
    size_t slots, numbers, kept = 0;

    if (!read_set(list, &set))
        return;
    if (sscanf(rest, " %zu %zu", &slots, &numbers) != 2 || slots > MAX_TABLE ||
        numbers > TWIN_PLAN_AREA)
        fail("lengths of table and area wanted", rest);
    memset(table, UNTOUCHED, sizeof table);
    for (size_t i = 0; i < TWIN_PLAN_AREA; i++)
        area[i] = LEFT_ALONE;
    struct twin_plan_reply reply = twin_plan(&set, table, slots, area, numbers);
    unsigned width = set.count + 1u;
    size_t count = reply.refusal == TWIN_ACCEPTED ? reply.count : 0;

    if (reply.refusal != TWIN_ACCEPTED)
        printf("  refused %u\n", reply.refusal);
    else if (reply.outcome == TWIN_SCHEDULE)
        printf("  schedule %zu\n", count);
    else if (reply.outcome == TWIN_INFEASIBLE)
        printf("  infeasible %zu\n", count);
    else
        printf("  out of room %zu\n", count);
    for (size_t i = 0; i < slots; i++)
        table[i] = (uint8_t)slot_sign(table[i]);
    printf("  table \"");
    show_bytes(table, slots);
    for (size_t i = count * width; i < numbers; i++)
        kept += area[i] == LEFT_ALONE;
    printf("\"\n  area %zu records, %zu kept", count, kept);
    if (reply.refusal == TWIN_ACCEPTED && reply.outcome != TWIN_OUT_OF_ROOM &&
        count <= MAX_SHOWN)
        show_records(area, count, width);
    printf("\n");
}

/* ---- play ---- */

static const struct twin_lent enough = {256, 256, TWIN_MAX_TASKS};

struct table {
    uint8_t entries[MAX_LINE];
    size_t length;
};

static struct table read_table(const char *word)
{
    struct table table = {.length = strlen(word)};

    for (size_t i = 0; i < table.length; i++)
        table.entries[i] = word[i] == '.' ? TWIN_IDLE : (uint8_t)(word[i] - '1');
    return table;
}

static void show_tick(struct twin_state *state, const struct table *table, const char *word)
{
    uint8_t reports[MAX_LINE];
    size_t count = strlen(word);
    struct twin_tick_reply reply;

    for (size_t i = 0; i < count; i++)
        reports[i] = (uint8_t)(word[i] - '0');
    printf("  %u: %s -> ", state->slot, word);
    uint8_t refusal =
        twin_tick(state, reports, count, table->entries, table->length, &enough, &reply);
    if (refusal != TWIN_ACCEPTED) {
        printf("refused %u\n", refusal);
        return;
    }
    printf("%c ", slot_sign(reply.runner));
    for (unsigned i = 0; i < state->set.count; i++)
        printf("%u", reply.faults[i]);
    printf("\n");
    *state = reply.state;
}

static void show_play(const struct list *list, char *rest)
{
    struct twin_set set;
    struct twin_state state;

    if (!read_set(list, &set))
        return;
    char *word = strtok(rest, " ");
    if (word == NULL)
        fail("table wanted", "");
    struct table table = read_table(word);
    uint8_t refusal = twin_start(&set, table.entries, table.length, &enough, &state);
    if (refusal != TWIN_ACCEPTED) {
        printf("  refused %u\n", refusal);
        return;
    }
    while ((word = strtok(NULL, " ")) != NULL) {
        if (*word == '=')
            table = read_table(word + 1);
        else
            show_tick(&state, &table, word);
    }
}

/* ---- the script ---- */

static void show_case(char *line)
{
    struct list list;
    char *rest = line + (read_list(&list, line + 5) - line);

    if (strncmp(line, "read ", 5) == 0)
        show_read(&list);
    else if (strncmp(line, "plan ", 5) == 0)
        show_plan(&list, rest);
    else if (strncmp(line, "play ", 5) == 0)
        show_play(&list, rest);
    else
        fail("unknown case", line);
}

int main(void)
{
    char line[MAX_LINE];

    while (fgets(line, sizeof line, stdin) != NULL) {
        size_t length = strcspn(line, "\n");
        if (line[length] != '\n')
            fail("line too long or without its line feed", line);
        line[length] = '\0';
        if (length == 0 || line[0] == '#')
            continue;
        if (length < 7)
            fail("unknown case", line);
        printf("%s\n", line);
        show_case(line);
    }
    return 0;
}
