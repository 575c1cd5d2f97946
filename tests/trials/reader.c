/* Lists: refusal, shown line and set of the library's reader against the twin's. */
#include "trials.h"

#include <stdio.h>
#include <string.h>

enum {
    GUARD = 0xa5,
    MOST_SET = KILUVSAAT_SET_SIZE + 16,
    LONGEST_CUT = 2048
};

struct input {
    size_t set_length; /* of the lent buffer */
    size_t length;
    uint8_t list[GEN_MAX_LIST];
};

/* ---- making ---- */

/* The lent buffer fits exactly, is longer, or now and then too short. */
static size_t any_set_length(struct gen *gen)
{
    if (gen_chance(gen, 5))
        return gen_below(gen, KILUVSAAT_SET_SIZE);
    return gen_from_to(gen, KILUVSAAT_SET_SIZE, MOST_SET);
}

/* The list of a set with one number just beside its bounds, or too long a hyper-period. */
static size_t near_list(struct gen *gen, uint8_t *list)
{
    struct twin_set set;

    do
        set = gen_set(gen, GEN_SET_NEAR);
    while (twin_set_refusal(&set) == TWIN_BAD_COUNT ||
           twin_set_refusal(&set) == TWIN_BAD_SHAPE);
    return gen_list_of_set(gen, &set, list);
}

/* A list of any kind; a quarter of them with a further byte, so that every value comes. */
static void make(struct gen *gen, void *any)
{
    struct input *in = any;
    enum gen_list_kind kind = (enum gen_list_kind)gen_below(gen, GEN_LIST_KINDS + 1);

    in->length =
        kind < GEN_LIST_KINDS ? gen_list(gen, kind, in->list) : near_list(gen, in->list);
    if (gen_chance(gen, 25))
        in->length = gen_put_byte(gen, in->list, in->length, (uint8_t)gen_below(gen, 256));
    in->set_length = any_set_length(gen);
}

/* ---- comparing ---- */

static uint64_t shown_place(const struct twin_read_reply *reply)
{
    return (uint64_t)reply->line << 32 | (uint64_t)reply->shown_start << 16 |
           (uint64_t)reply->shown_length;
}

static const char *set_difference(const uint8_t *lent, const struct twin_read_reply *reply,
                                  bool written)
{
    uint8_t expected[MOST_SET];

    memset(expected, GUARD, sizeof expected);
    if (written)
        bytes_of_set(&reply->set, expected);
    if (memcmp(lent, expected, KILUVSAAT_SET_SIZE) != 0)
        return written ? "another set" : "a set written in spite of a refusal";
    if (memcmp(lent, expected, sizeof expected) != 0)
        return "bytes behind the set changed";
    return NULL;
}

static const char *difference(const void *any)
{
    const struct input *in = any;
    uint8_t lent[MOST_SET];
    struct twin_read_reply reply = twin_read(in->list, in->length);
    uint8_t expected = reply.refusal;

    if (expected == TWIN_ACCEPTED && in->set_length < KILUVSAAT_SET_SIZE)
        expected = TWIN_SHORT_BUFFER;
    memset(lent, GUARD, sizeof lent);
    if (kiluvsaat_read(in->list, in->length, lent, in->set_length) != expected)
        return "another refusal";
    if (kiluvsaat_refused_line(in->list, in->length) != shown_place(&reply))
        return "another line is shown";
    return set_difference(lent, &reply, expected == TWIN_ACCEPTED);
}

/* ---- making smaller ---- */

static void cut(struct input *in, size_t start, size_t count)
{
    if (count > in->length - start)
        count = in->length - start;
    memmove(in->list + start, in->list + start + count, in->length - start - count);
    in->length -= count;
}

static size_t line_count(const struct input *in)
{
    size_t lines = 1;

    for (size_t i = 0; i < in->length; i++)
        lines += in->list[i] == '\n';
    return lines;
}

static void cut_line(struct input *in, size_t line)
{
    size_t start = 0;
    size_t end;

    for (; line > 0; line--)
        while (in->list[start++] != '\n')
            ;
    for (end = start; end < in->length && in->list[end] != '\n'; end++)
        ;
    cut(in, start, end + 1 - start);
}

/* Whole lines first, then pieces that become shorter. */
static bool reduce(void *any, size_t way)
{
    struct input *in = any;
    size_t lines = line_count(in);

    if (way < lines) {
        cut_line(in, way);
        return true;
    }
    way -= lines;
    for (size_t piece = LONGEST_CUT; piece > 0; piece /= 2) {
        size_t pieces = (in->length + piece - 1) / piece;
        if (way < pieces) {
            cut(in, way * piece, piece);
            return true;
        }
        way -= pieces;
    }
    return false;
}

static void show_escaped(const uint8_t *bytes, size_t count)
{
    for (size_t i = 0; i < count; i++) {
        if (bytes[i] == '\n')
            printf("\\n");
        else if (bytes[i] < ' ' || bytes[i] > '~' || bytes[i] == '\\')
            printf("\\x%02x", bytes[i]);
        else
            putchar(bytes[i]);
    }
}

static void show(const void *any)
{
    const struct input *in = any;
    uint8_t lent[MOST_SET] = {0};
    struct twin_read_reply reply = twin_read(in->list, in->length);

    printf("  list of %zu bytes: \"", in->length);
    show_escaped(in->list, in->length);
    printf("\"\n  buffer for the set: %zu bytes\n", in->set_length);
    printf("  twin: refusal %u, place %#llx\n", reply.refusal,
           (unsigned long long)shown_place(&reply));
    printf("  library: refusal %u, place %#llx\n",
           kiluvsaat_read(in->list, in->length, lent, in->set_length),
           (unsigned long long)kiluvsaat_refused_line(in->list, in->length));
}

const struct part reader_part = {
    .name = "reader",
    .unit = "lists",
    .input_size = sizeof(struct input),
    .make = make,
    .difference = difference,
    .reduce = reduce,
    .show = show,
};
