/* What the program `plan` writes for a list on its standard input. */
#include "twin.h"

#include <stdio.h>
#include <string.h>

enum {
    SLOTS_PER_LINE = 64
};

/* A text that is being written; it always fits TWIN_MAX_TEXT. */
struct text {
    char bytes[TWIN_MAX_TEXT];
    size_t length;
};

static void add_byte(struct text *text, char byte)
{
    text->bytes[text->length++] = byte;
}

static void add_word_and_numbers(struct text *text, const char *word, size_t first,
                                 const size_t *second)
{
    size_t space = sizeof text->bytes - text->length;
    char *end = text->bytes + text->length;
    int written = second == NULL
                      ? snprintf(end, space, "%s %zu\n", word, first)
                      : snprintf(end, space, "%s %zu %zu\n", word, first, *second);

    text->length += (size_t)written;
}

static void add_slots(struct text *text, const uint8_t *table, size_t hyper_period)
{
    for (size_t slot = 0; slot < hyper_period; slot++) {
        add_byte(text, table[slot] == TWIN_IDLE ? '.' : (char)('1' + table[slot]));
        if ((slot + 1) % SLOTS_PER_LINE == 0 || slot + 1 == hyper_period)
            add_byte(text, '\n');
    }
}

static void add_plan(struct text *text, const struct twin_set *set)
{
    uint16_t area[TWIN_PLAN_AREA];
    uint8_t table[TWIN_MAX_TIME];
    struct twin_plan_reply reply =
        twin_plan(set, table, sizeof table, area, TWIN_PLAN_AREA);

    if (reply.outcome == TWIN_SCHEDULE) {
        size_t hyper_period = (size_t)twin_hyper_period(set);
        add_word_and_numbers(text, "schedule", hyper_period, &reply.count);
        add_slots(text, table, hyper_period);
    } else {
        bool infeasible = reply.outcome == TWIN_INFEASIBLE;
        add_word_and_numbers(text, infeasible ? "infeasible" : "out-of-room", reply.count,
                             NULL);
    }
}

size_t twin_text(const uint8_t *list, size_t length, char *out, size_t capacity)
{
    struct text text = {.length = 0};
    struct twin_read_reply read = twin_read(list, length);

    if (read.refusal != TWIN_ACCEPTED)
        add_word_and_numbers(&text, "refused", read.refusal, &read.line);
    else
        add_plan(&text, &read.set);
    if (text.length <= capacity)
        memcpy(out, text.bytes, text.length);
    return text.length;
}
