/* trials PART SEED AMOUNT   trials of that part from that seed on; every input has its own
 *                           seed, one more than the last
 * trials list SEED          a list for the program `plan`, to standard output
 * trials text               what `plan` should write for the list on standard input
 */
#include "trials.h"

#include <inttypes.h>
#include <signal.h>
#include <stdio.h>
#include <stdlib.h>
#include <string.h>
#include <unistd.h>

enum {
    MOST_DIFFERENCES = 5, /* shown before a part is given up */
    MOST_SECONDS = 900    /* for one input, with making it smaller */
};

static const struct part *const parts[] = {
    &reader_part, &sets_part, &planner_part, &start_part, &play_part, &tick_part,
};

/* ---- one trial ---- */

static void *space(size_t size)
{
    void *memory = calloc(1, size);

    if (memory == NULL) {
        fputs("trials: out of memory\n", stderr);
        exit(2);
    }
    return memory;
}

/* One pass over the ways to make the input smaller; true if one of them kept a difference.
 */
static bool shrink_once(const struct part *part, void *input, void *trial)
{
    bool changed = false;

    for (size_t way = 0;;) {
        memcpy(trial, input, part->input_size);
        if (!part->reduce(trial, way))
            return changed;
        if (memcmp(trial, input, part->input_size) != 0 &&
            part->difference(trial) != NULL) {
            memcpy(input, trial, part->input_size);
            changed = true;
        } else {
            way++;
        }
    }
}

static void show_difference(const struct part *part, uint64_t seed, void *input)
{
    void *trial = space(part->input_size);

    printf("%s: seed %" PRIu64 ": %s\n", part->name, seed, part->difference(input));
    printf("  again: tests/trials/run %s %" PRIu64 " 1\n", part->name, seed);
    fflush(stdout);
    while (shrink_once(part, input, trial))
        ;
    printf("  made smaller: %s\n", part->difference(input));
    part->show(input);
    fflush(stdout);
    free(trial);
}

/* ---- a part ---- */

/* Under way, for the last words of a run that a signal ends. */
static const char *volatile current_part = "";
static volatile sig_atomic_t current_case;
static uint64_t first_seed;

static void last_words(int signal_number)
{
    char words[128];
    int length = snprintf(words, sizeof words, "%s: seed %" PRIu64 ": ended by signal %d\n",
                          current_part, first_seed + (uint64_t)current_case, signal_number);
    ssize_t written = write(STDOUT_FILENO, words, (size_t)length);

    _exit(written == length ? 1 : 2);
}

static void catch_signals(void)
{
    static const int signals[] = {SIGSEGV, SIGBUS, SIGILL, SIGFPE, SIGABRT, SIGALRM};

    for (size_t i = 0; i < sizeof signals / sizeof signals[0]; i++)
        signal(signals[i], last_words);
}

static int run_part(const struct part *part, uint64_t seed, size_t amount)
{
    void *input = space(part->input_size);
    unsigned differences = 0;
    size_t weight = 0;
    int cases = 0;

    current_part = part->name;
    first_seed = seed;
    for (; weight < amount && differences < MOST_DIFFERENCES; cases++) {
        struct gen gen;

        current_case = cases;
        alarm(MOST_SECONDS);
        gen_seed(&gen, seed + (uint64_t)cases);
        memset(input, 0, part->input_size);
        part->make(&gen, input);
        weight += part->weight == NULL ? 1 : part->weight(input);
        if (part->difference(input) != NULL) {
            differences++;
            show_difference(part, seed + (uint64_t)cases, input);
        }
    }
    free(input);
    printf("%s: %zu %s, seeds %" PRIu64 " to %" PRIu64 "\n", part->name, weight, part->unit,
           seed, seed + (uint64_t)cases - 1);
    printf("%u passed, %u failed\n", (unsigned)cases - differences, differences);
    return differences == 0 ? 0 : 1;
}

/* ---- the program's lists ---- */

/* Half of them hold an admissible set. */
static int write_list(uint64_t seed)
{
    static uint8_t list[GEN_MAX_LIST];
    enum gen_list_kind kind = GEN_LIST_GOOD;
    struct gen gen;

    gen_seed(&gen, seed);
    if (gen_chance(&gen, 50))
        kind = (enum gen_list_kind)gen_below(&gen, GEN_LIST_KINDS);
    size_t length = gen_list(&gen, kind, list);
    return fwrite(list, 1, length, stdout) == length ? 0 : 2;
}

static int write_text(void)
{
    static uint8_t list[GEN_MAX_LIST + 1];
    static char text[TWIN_MAX_TEXT];
    size_t length = fread(list, 1, sizeof list, stdin);
    size_t written = twin_text(list, length, text, sizeof text);

    return fwrite(text, 1, written, stdout) == written ? 0 : 2;
}

static uint64_t number(const char *word)
{
    return strtoull(word, NULL, 10);
}

int main(int argc, char **argv)
{
    catch_signals();
    if (argc == 2 && strcmp(argv[1], "text") == 0)
        return write_text();
    if (argc == 3 && strcmp(argv[1], "list") == 0)
        return write_list(number(argv[2]));
    for (size_t i = 0; argc == 4 && i < sizeof parts / sizeof parts[0]; i++)
        if (strcmp(argv[1], parts[i]->name) == 0)
            return run_part(parts[i], number(argv[2]), (size_t)number(argv[3]));
    fputs("usage: trials PART SEED AMOUNT | trials list SEED | trials text\n", stderr);
    return 2;
}
