/* Seeded random values, many of them where something is decided. An expression takes one at most, so that no compiler's
 * order of evaluation decides what a seed gives. */
#ifndef RANDOM_H
#define RANDOM_H

#include <stdbool.h>
#include <stddef.h>
#include <stdint.h>

void random_begin(uint64_t seed);
uint64_t random_next(void);

/* From 0 to most. */
size_t up_to(size_t most);

/* True in so many of a hundred calls. */
bool percent(unsigned chance);

/* Near 0, near a length, near 2^32, near 2^64, or any. */
size_t any_size(size_t len);

/* Near 0, near a limit, a single bit, or any. */
uint32_t any_u32(uint32_t limit);

void any_bytes(uint8_t *bytes, size_t len);

#endif
