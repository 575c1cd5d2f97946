/* The yardstick: a plain search for a schedule, of the same kind as the verified planner.
 */
#ifndef SEARCH_H
#define SEARCH_H

#include <stddef.h>
#include <stdint.h>

enum search_word {
    SEARCH_SCHEDULE,
    SEARCH_INFEASIBLE,
    SEARCH_OUT_OF_ROOM
};

struct search_reply {
    enum search_word word;
    size_t count; /* dead positions recorded */
};

/* Plans an admissible set, given as the byte string of docs/STATE.md. The table has at
 * least as many bytes as there are slots; the area holds the records. */
struct search_reply search_plan(const uint8_t *set, uint8_t *table, uint16_t *area,
                                size_t area_length);

#endif
