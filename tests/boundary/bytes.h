/* The byte strings of docs/STATE.md as the twin's structs, and back. */
#ifndef BYTES_H
#define BYTES_H

#include "twin.h"

enum {
    SET_BYTES = 97,
    STATE_BYTES = 140
};

struct twin_set set_of_bytes(const uint8_t *bytes);
void bytes_of_set(const struct twin_set *set, uint8_t *bytes);

/* False if a standing byte stands for nothing. */
bool state_of_bytes(const uint8_t *bytes, struct twin_state *state);
/* A standing that no byte stands for is written as a byte above 5. */
void bytes_of_state(const struct twin_state *state, uint8_t *bytes);

#endif
