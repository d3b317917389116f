/* A simulated NOR flash, which takes two commands. It stands for hardware: nothing here goes onto a board. */
#ifndef NOR_PART_H
#define NOR_PART_H

#include <stddef.h>
#include <stdint.h>

enum { POWER_LOST = 3 };

/* The part lives in a file. Answers its window, which can only be read: a write through it crashes. */
const uint8_t *nor_open(const char *path);

/* Clears bits within one page. */
void nor_program(size_t at, const uint8_t *data, size_t len);

/* Sets all bits of a sector. */
void nor_erase(size_t at);

#endif
