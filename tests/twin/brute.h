/* The document's definitions of positions, live lists, schedules and dead positions taken
 * word by word, by listing all lists of choices. Only for tiny hyper-periods. */
#ifndef TWIN_BRUTE_H
#define TWIN_BRUTE_H

#include "twin.h"

enum {
    BRUTE_MAX_HYPER = 12,
    BRUTE_MAX_DEAD = 20000
};

struct brute {
    bool feasible;
    uint8_t first[BRUTE_MAX_HYPER]; /* the first schedule, if feasible */
    size_t dead_count;              /* B */
    uint16_t dead[BRUTE_MAX_DEAD][TWIN_MAX_RECORD];
};

/* Only for a valid set with a hyper-period of at most BRUTE_MAX_HYPER. */
void brute_plan(const struct twin_set *set, struct brute *brute);

#endif
