#define _POSIX_C_SOURCE 200809L /* clock_gettime */
#include "measure.h"

#include <math.h>
#include <stdio.h>
#include <time.h>

enum {
    RUNS = 41,
    RUNS_IF_LONG = 5
};

static const double shortest_run = 0.005; /* seconds; shorter work is repeated */
static const double long_run = 0.3;

static double processor_time(void)
{
    struct timespec now;

    clock_gettime(CLOCK_PROCESS_CPUTIME_ID, &now);
    return (double)now.tv_sec + 1e-9 * (double)now.tv_nsec;
}

static double time_of(work *work, void *context, unsigned repeats)
{
    double begun = processor_time();

    for (unsigned i = 0; i < repeats; i++)
        work(context);
    return processor_time() - begun;
}

/* How often to repeat the work so that it takes the shortest run. */
static unsigned repeats_for(work *work, void *context)
{
    unsigned repeats = 1;

    while (time_of(work, context, repeats) < shortest_run)
        repeats *= 2;
    return repeats;
}

static double lesser(double a, double b)
{
    return a < b ? a : b;
}

struct times measure(work *library, work *other, void *context)
{
    unsigned library_repeats = repeats_for(library, context);
    unsigned other_repeats = repeats_for(other, context);
    unsigned runs = time_of(library, context, 1) < long_run ? RUNS : RUNS_IF_LONG;
    struct times least = {HUGE_VAL, HUGE_VAL};

    for (unsigned i = 0; i < runs; i++) {
        least.library = lesser(least.library,
                               time_of(library, context, library_repeats) / library_repeats);
        least.other =
            lesser(least.other, time_of(other, context, other_repeats) / other_repeats);
    }
    return least;
}

const char *in_words(double seconds)
{
    static char texts[4][32];
    static unsigned next;
    char *text = texts[next++ % 4];

    if (seconds >= 1)
        snprintf(text, sizeof texts[0], "%.2f s", seconds);
    else if (seconds >= 1e-3)
        snprintf(text, sizeof texts[0], "%.2f ms", 1e3 * seconds);
    else if (seconds >= 1e-6)
        snprintf(text, sizeof texts[0], "%.2f us", 1e6 * seconds);
    else
        snprintf(text, sizeof texts[0], "%.1f ns", 1e9 * seconds);
    return text;
}
