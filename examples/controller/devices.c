#include "devices.h"

#include "kiluvsaat.h"

#define STUCK 10000

/* Where a device does not take the time written in the list. Jobs and parts count from 0; even parts are
 * computing. */
static const struct {
    unsigned task, job, part;
    int slots; /* more than written, or fewer */
} troubles[] = {
    {0, 1, 1, -3},    /* the pump's second stroke is early */
    {1, 1, 1, 4},     /* the stage's second move is late */
    {2, 4, 1, STUCK}, /* the camera's fifth exposure never ends */
    {2, 7, 0, 1},     /* its eighth shutter command computes a slot too long */
};

static struct {
    const uint8_t *pattern;
    unsigned parts; /* of the pattern; 0 while no job is under way */
    unsigned part;
    int left; /* slots of this part */
    unsigned jobs;
} devices[KILUVSAAT_TASKS_MAX];

static void enter_part(unsigned task, unsigned part)
{
    devices[task].part = part;
    if (part == devices[task].parts) {
        devices[task].parts = 0;
        return;
    }
    devices[task].left = devices[task].pattern[part];
    for (size_t i = 0; i < sizeof troubles / sizeof troubles[0]; i++)
        if (troubles[i].task == task && troubles[i].job + 1 == devices[task].jobs && troubles[i].part == part)
            devices[task].left += troubles[i].slots;
    if (devices[task].left < 1)
        devices[task].left = 1;
}

void device_release(unsigned task, const uint8_t *pattern, unsigned parts)
{
    devices[task].pattern = pattern;
    devices[task].parts = parts;
    devices[task].jobs++;
    enter_part(task, 0);
}

void device_stop(unsigned task)
{
    devices[task].parts = 0;
}

uint8_t device_slot(unsigned task, int ran)
{
    int waits = devices[task].part % 2 == 1;

    if (devices[task].parts == 0 || (!ran && !waits) || --devices[task].left > 0)
        return KILUVSAAT_NOTHING;
    enter_part(task, devices[task].part + 1);
    return waits ? KILUVSAAT_WAIT_ENDED : KILUVSAAT_STEP_FINISHED;
}
