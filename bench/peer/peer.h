/* The planner's enumeration in plain C++, to compare speed with. Each function takes the file of an accepted plan; the
 * answers are those of the planner's calls of the same names, cell for cell. */
#ifndef PEER_H
#define PEER_H

#include <stddef.h>
#include <stdint.h>

extern "C" {

/* Of a plan of edition 1. */

/* out: 0, variant, makespan, sessions, shortest sessions; or 7, 0 where there are more sessions than the cap. */
void peer_best(const uint8_t *file, size_t file_len, uint32_t cap, uint32_t starts[24], uint64_t out[5]);

/* out: 0, rows; or 7, 0; or 8 and the cells needed. */
void peer_list(const uint8_t *file, size_t file_len, uint32_t cap, uint32_t *area, size_t area_len, uint64_t out[4]);

/* The same of a plan of edition 2. */

void units_best(const uint8_t *file, size_t file_len, uint32_t cap, uint32_t starts[24], uint64_t out[5]);

void units_list(const uint8_t *file, size_t file_len, uint32_t cap, uint32_t *area, size_t area_len, uint64_t out[4]);
}

#endif
