/* Asks the library and the twin the same thing, and compares the replies and every byte of
 * every buffer with its guards. A difference or a memory fault is reported with the seed
 * and the input, and ends the part of the test that asked. */
#ifndef ASK_H
#define ASK_H

#include "bytes.h"
#include "gen.h"
#include "kiluvsaat.h"
#include "lend.h"

/* Once, before anything else. */
void ask_open(uint64_t seed);

/* Runs one part of the test: its generator begins anew from the seed and the part's name,
 * `count` is how much it is to do. Returns true if nothing was found. */
bool ask_part(const char *name, void (*part)(struct gen *gen, unsigned count),
              unsigned count);

/* Where buffers lie from now on; LEND_PLACES for somewhere else at each call. */
void ask_place(enum lend_place place);

/* How often the library was called by this part. */
extern unsigned long ask_calls;

/* Reports what is wrong with the last call and leaves the part. */
_Noreturn void ask_wrong(const char *words);

/* Lengths count elements. Each returns the reply that both gave. */
void ask_version(void);
uint8_t ask_read(struct gen *gen, const uint8_t *list, size_t list_len, size_t set_len);
uint64_t ask_refused_line(struct gen *gen, const uint8_t *list, size_t list_len);
uint16_t ask_slots(struct gen *gen, const uint8_t *set, size_t set_len);
uint8_t ask_plan(struct gen *gen, const uint8_t *set, size_t set_len, size_t table_len,
                 size_t area_len);
uint8_t ask_start(struct gen *gen, const uint8_t *set, size_t set_len, const uint8_t *table,
                  size_t table_len, size_t state_len);
uint16_t ask_tick(struct gen *gen, const uint8_t *state, size_t state_len,
                  const uint8_t *table, size_t table_len, const uint8_t *reports,
                  size_t reports_len, size_t next_len, size_t faults_len);

/* What the last accepted start or tick wrote. */
const uint8_t *ask_state(void);
/* The faults of the last accepted tick. */
const uint8_t *ask_faults(void);

#endif
