/* What the simulated flashes share: their file, and what the environment says. */
#ifndef FILE_H
#define FILE_H

#include <stdbool.h>

/* Ends the program and says why, where this doesn't hold. */
void require(bool holds, const char *otherwise);

/* The file of a flash as memory. */
void *map_flash(const char *path, int protection);

/* The number in an environment variable, or another one where it isn't set. */
unsigned long setting(const char *name, unsigned long otherwise);

#endif
