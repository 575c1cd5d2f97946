/* What the twin answers to the calls of include/kiluvsaat.h, under other names, so that one
 * program can ask both. */
#ifndef ORACLE_H
#define ORACLE_H

#include <stddef.h>
#include <stdint.h>

uint8_t oracle_read(const uint8_t *list, size_t list_len, uint8_t *set, size_t set_len);
uint64_t oracle_refused_line(const uint8_t *list, size_t list_len);
uint16_t oracle_slots(const uint8_t *set, size_t set_len);
uint8_t oracle_plan(const uint8_t *set, size_t set_len, uint8_t *table, size_t table_len,
                    uint16_t *area, size_t area_len, uint64_t *count);
uint8_t oracle_start(const uint8_t *set, size_t set_len, const uint8_t *table,
                     size_t table_len, uint8_t *state, size_t state_len);
uint16_t oracle_tick(const uint8_t *state, size_t state_len, const uint8_t *table,
                     size_t table_len, const uint8_t *reports, size_t reports_len,
                     uint8_t *next, size_t next_len, uint8_t *faults, size_t faults_len);

#endif
