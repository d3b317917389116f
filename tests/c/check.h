/* What the C tests share: document 01's geometry G, and a count of checks. */
#ifndef CHECK_H
#define CHECK_H

#include "frondicare.h"
#include <stdio.h>
#include <string.h>

/* The areas, and where their trailers have states and flags. */
enum { SECTOR = 256, SECTORS = 2, BOOT = 0, UPDATE = 768, SWAP = 1536, FLASH = 1792 };
enum { BOOT_STATE = 763, UPDATE_FLAGS = 1530, UPDATE_STATE = 1531 };

static int checks, failures;

/* Says which check failed. */
static void check(bool right, const char *what)
{
    checks++;
    if (!right) {
        failures++;
        printf("FAILED %s\n", what);
    }
}

/* What main returns. */
static int report(const char *name)
{
    printf("%s: %d checks, %d failed\n", name, checks, failures);
    return failures != 0;
}

#endif
