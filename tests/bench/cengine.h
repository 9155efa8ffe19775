/* An engine written by hand in C99, to hold the proved one against: frame, step, arrive and board on the same table and
 * round bytes, with the same refusals in the same order. cengine.c says more. The arguments and answers are those of
 * include/engine.h. */
#ifndef CENGINE_H
#define CENGINE_H

#include <stddef.h>
#include <stdint.h>

uint64_t cengine_frame(const uint8_t *table, size_t table_len, uint8_t *round, size_t round_len, uint32_t steps,
                       uint8_t *commits, size_t commits_len);

uint64_t cengine_step(const uint8_t *table, size_t table_len, uint8_t *round, size_t round_len);

uint32_t cengine_arrive(const uint8_t *table, size_t table_len, uint8_t *round, size_t round_len, uint32_t event,
                        uint32_t player);

uint64_t cengine_board(const uint8_t *table, size_t table_len, const uint8_t *round, size_t round_len,
                       uint32_t behaviour, uint32_t player);

#endif
