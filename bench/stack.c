/* How much stack a work takes: it runs on a painted one, and the paint that is left tells.
 */
#include "measure.h"

#include <stdint.h>
#include <string.h>
#include <ucontext.h>

enum {
    STACK_SIZE = 4 << 20,
    PAINT = 0xa5
};

static uint8_t stack[STACK_SIZE];
static work *work_to_do;
static void *context_of_work;

static void do_work(void)
{
    work_to_do(context_of_work);
}

static void do_nothing(void *context)
{
    (void)context;
}

/* All that is used, from the high end down, the change of stacks included. */
static size_t stack_used(work *work, void *context)
{
    ucontext_t here;
    ucontext_t there;
    size_t kept = 0;

    work_to_do = work;
    context_of_work = context;
    memset(stack, PAINT, sizeof stack);
    getcontext(&there);
    there.uc_stack.ss_sp = stack;
    there.uc_stack.ss_size = sizeof stack;
    there.uc_link = &here;
    makecontext(&there, do_work, 0);
    swapcontext(&here, &there);
    while (kept < sizeof stack && stack[kept] == PAINT)
        kept++;
    return sizeof stack - kept;
}

size_t stack_of(work *work, void *context)
{
    return stack_used(work, context) - stack_used(do_nothing, NULL);
}
