/* Reading a list in three passes: cut it into lines, cut a line into words, judge them. */
#include "twin.h"

#include <string.h>

/* A part of the list. */
struct part {
    size_t start;
    size_t length;
};

enum {
    MAX_DIGITS = 4,
    MAX_WORDS = TWIN_MAX_LIST / 2 /* each but the last has a space after it */
};

/* ---- judging numbers ---- */

static bool within(unsigned number, unsigned highest)
{
    return number >= 1 && number <= highest;
}

/* Judges the numbers of one task in the order of a line: 3, then 4. */
static uint8_t numbers_refusal(const unsigned *numbers, size_t count)
{
    for (size_t i = 0; i < count; i++)
        if (!within(numbers[i], i < 2 ? TWIN_MAX_TIME : TWIN_MAX_UNITS))
            return TWIN_BAD_NUMBER;
    return numbers[1] > numbers[0] ? TWIN_LATE_DEADLINE : TWIN_ACCEPTED;
}

static uint8_t task_refusal(const struct twin_task *task)
{
    unsigned numbers[TWIN_MAX_FIELDS] = {task->period, task->deadline};

    if (!within(task->steps, TWIN_MAX_STEPS))
        return TWIN_BAD_SHAPE;
    for (unsigned i = 0; i < twin_segment_count(task); i++)
        numbers[2 + i] = task->pattern[i];
    return numbers_refusal(numbers, 2 + twin_segment_count(task));
}

static uint64_t greatest_common_divisor(uint64_t a, uint64_t b)
{
    while (b != 0) {
        uint64_t rest = a % b;
        a = b;
        b = rest;
    }
    return a;
}

uint64_t twin_hyper_period(const struct twin_set *set)
{
    uint64_t multiple = 1;

    /* A longer prefix of the tasks never has a smaller multiple, so stop when above. */
    for (unsigned i = 0; i < set->count && multiple <= TWIN_MAX_TIME; i++) {
        uint64_t period = set->tasks[i].period;
        multiple = multiple / greatest_common_divisor(multiple, period) * period;
    }
    return multiple;
}

uint8_t twin_set_refusal(const struct twin_set *set)
{
    if (!within(set->count, TWIN_MAX_TASKS))
        return TWIN_BAD_COUNT;
    for (unsigned i = 0; i < set->count; i++) {
        uint8_t refusal = task_refusal(&set->tasks[i]);
        if (refusal != TWIN_ACCEPTED)
            return refusal;
    }
    return twin_hyper_period(set) > TWIN_MAX_TIME ? TWIN_LONG_HYPER_PERIOD : TWIN_ACCEPTED;
}

struct twin_set twin_set_in_use(const struct twin_set *set)
{
    struct twin_set clean = {.count = set->count};

    for (unsigned i = 0; i < set->count; i++) {
        const struct twin_task *task = &set->tasks[i];
        clean.tasks[i].period = task->period;
        clean.tasks[i].deadline = task->deadline;
        clean.tasks[i].steps = task->steps;
        memcpy(clean.tasks[i].pattern, task->pattern, twin_segment_count(task));
    }
    return clean;
}

/* ---- lines and words ---- */

/* The line that starts there, without its line feed. */
static struct part line_from(const uint8_t *list, size_t length, size_t start)
{
    const uint8_t *feed = memchr(list + start, '\n', length - start);
    size_t end = feed == NULL ? length : (size_t)(feed - list);

    return (struct part){start, end - start};
}

/* Cuts a line at its spaces; whatever else a line holds is part of some word. */
static size_t split_words(const uint8_t *list, struct part line, struct part *words)
{
    size_t count = 0;
    bool in_word = false;

    for (size_t at = line.start; at < line.start + line.length; at++) {
        if (list[at] == ' ') {
            in_word = false;
        } else if (in_word) {
            words[count - 1].length++;
        } else {
            words[count++] = (struct part){at, 1};
            in_word = true;
        }
    }
    return count;
}

static bool is_comment(const uint8_t *list, struct part line)
{
    return line.length > 0 && list[line.start] == '#';
}

static bool is_field(const uint8_t *list, struct part word)
{
    if (word.length > MAX_DIGITS)
        return false;
    for (size_t i = 0; i < word.length; i++)
        if (list[word.start + i] < '0' || list[word.start + i] > '9')
            return false;
    return true;
}

static unsigned field_value(const uint8_t *list, struct part field)
{
    unsigned value = 0;

    for (size_t i = 0; i < field.length; i++)
        value = 10 * value + (unsigned)(list[field.start + i] - '0');
    return value;
}

static bool has_task_shape(const uint8_t *list, const struct part *words, size_t count)
{
    if (count < 3 || count > TWIN_MAX_FIELDS || count % 2 == 0)
        return false;
    for (size_t i = 0; i < count; i++)
        if (!is_field(list, words[i]))
            return false;
    return true;
}

static struct twin_task task_of(const unsigned *numbers, size_t count)
{
    struct twin_task task = {
        .period = (uint16_t)numbers[0],
        .deadline = (uint16_t)numbers[1],
        .steps = (uint8_t)((count - 1) / 2),
    };

    for (size_t i = 2; i < count; i++)
        task.pattern[i - 2] = (uint8_t)numbers[i];
    return task;
}

/* Judges a line that is neither empty nor a comment, and adds its task to the set. */
static uint8_t take_line(const uint8_t *list, const struct part *words, size_t count,
                         struct twin_set *set)
{
    unsigned numbers[TWIN_MAX_FIELDS];

    if (set->count == TWIN_MAX_TASKS)
        return TWIN_BAD_COUNT;
    if (!has_task_shape(list, words, count))
        return TWIN_BAD_SHAPE;
    for (size_t i = 0; i < count; i++)
        numbers[i] = field_value(list, words[i]);
    uint8_t refusal = numbers_refusal(numbers, count);
    if (refusal == TWIN_ACCEPTED)
        set->tasks[set->count++] = task_of(numbers, count);
    return refusal;
}

/* ---- the list ---- */

static struct twin_read_reply refused(uint8_t refusal, size_t line, struct part shown)
{
    return (struct twin_read_reply){.refusal = refusal,
                                    .line = line,
                                    .shown_start = shown.start,
                                    .shown_length = shown.length};
}

struct twin_read_reply twin_read(const uint8_t *list, size_t length)
{
    const struct part nothing = {0, 0};
    struct part words[MAX_WORDS];
    struct twin_set set = {0};
    size_t number = 0;

    if (length > TWIN_MAX_LIST)
        return refused(TWIN_LONG_LIST, 0, nothing);
    for (size_t start = 0; start < length;) {
        struct part line = line_from(list, length, start);
        size_t word_count = split_words(list, line, words);

        number++;
        start = line.start + line.length + 1;
        if (word_count == 0 || is_comment(list, line))
            continue;
        uint8_t refusal = take_line(list, words, word_count, &set);
        if (refusal != TWIN_ACCEPTED)
            return refused(refusal, number, line);
    }
    if (set.count == 0)
        return refused(TWIN_BAD_COUNT, 0, nothing);
    if (twin_hyper_period(&set) > TWIN_MAX_TIME)
        return refused(TWIN_LONG_HYPER_PERIOD, 0, nothing);
    return (struct twin_read_reply){.refusal = TWIN_ACCEPTED, .set = set};
}
