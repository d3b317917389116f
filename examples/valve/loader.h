/* The valve's loader. driver_loader.c and memory_loader.c each provide power_up and carry_out; loader.c has the rest.
 * Each finished step is added to the record. */
#ifndef LOADER_H
#define LOADER_H

#include "board.h"

/* At power-up, before anything else. Boot: the image in BOOT is to be started. Refused: there is none to be started;
 * but 28, of memory_loader.c alone: the record is full, and the caller clears it and asks again. Where so many steps
 * are not enough, the one that is due; after frondicare_most_steps the flash doesn't take what is written. */
frondicare_answer power_up(uint32_t most_steps, frondicare_step_counts *counts);

void carry_out(frondicare_answer step);

/* Asks, carries out what is answered and asks again, for at most so many steps. A last step ends it as a boot. */
frondicare_answer carry_out_steps(frondicare_answer (*ask)(void), uint32_t most_steps, frondicare_step_counts *counts);

#endif
