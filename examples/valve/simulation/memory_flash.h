/* A flash that is memory: the same bytes as flash.h's, to be written in place. */
#ifndef MEMORY_FLASH_H
#define MEMORY_FLASH_H

#include "flash.h"

extern uint8_t *memory_flash;

#endif
