/* The valve's flash as a driver gives it: read as memory, written by commands. nor_driver.c and
 * simulation/memory_flash.c each provide it. An offset counts from the start of the flash. */
#ifndef FLASH_H
#define FLASH_H

#include <stddef.h>
#include <stdint.h>

extern const uint8_t *flash;

void flash_open(const char *path);

/* A sector becomes all FF. Where power is lost meanwhile, its last four bytes are not 42 4F 4F 54 any more, or nothing
 * has changed: document 01 assumes it of a trailer. */
void flash_erase(size_t at);

/* Any number of bytes, onto erased ones; written over others, bits are only cleared. */
void flash_program(size_t at, const uint8_t *data, size_t len);

#endif
