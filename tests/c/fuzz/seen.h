/* How often each answer was given, so that the run cannot become empty unnoticed. */
#ifndef SEEN_H
#define SEEN_H

#include <stdbool.h>

/* The entry that is called answers this. Fails where that is none of its answers. */
void seen(const char *answer);

/* Prints what was seen. False where an answer that is required was never given. */
bool seen_report(bool required);

#endif
