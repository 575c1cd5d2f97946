/* Measuring two ways to do the same work, in turns, within one process; and its stack. */
#ifndef MEASURE_H
#define MEASURE_H

#include <stddef.h>

/* Does the work once. */
typedef void work(void *context);

/* Seconds of processor time for doing the work once, each the least of several runs: what else
 * the machine does only adds to it. */
struct times {
    double library;
    double other;
};

struct times measure(work *library, work *other, void *context);

/* Bytes of stack that doing the work takes. */
size_t stack_of(work *work, void *context);

/* The time in a unit that suits it, in a text that stays until the fourth next call. */
const char *in_words(double seconds);

#endif
