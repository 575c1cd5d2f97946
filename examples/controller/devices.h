/* Stand-ins for the hardware: each task's code and the device it waits for. */
#ifndef DEVICES_H
#define DEVICES_H

#include <stddef.h>
#include <stdint.h>

/* A task's pattern is released again: its next job begins. */
void device_release(unsigned task, const uint8_t *pattern, unsigned parts);
/* The player has stopped the job. */
void device_stop(unsigned task);
/* One slot passes. Returns the task's report on it; `ran` says whether the slot was its own. */
uint8_t device_slot(unsigned task, int ran);

#endif
