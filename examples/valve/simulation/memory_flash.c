/* Simulated by a file that is mapped for writing. */
#include "simulation/memory_flash.h"
#include "board.h"
#include "simulation/file.h"
#include <sys/mman.h>

const uint8_t *flash;
uint8_t *memory_flash;

void flash_open(const char *path)
{
    memory_flash = map_flash(path, PROT_READ | PROT_WRITE);
    flash = memory_flash;
}

/* As a run erases. */
void flash_erase(size_t at)
{
    frondicare_answer step = { .kind = FRONDICARE_STEP, .op = FRONDICARE_ERASE, .at = at };
    frondicare_carry_out_on(memory_flash, &board, step);
}

void flash_program(size_t at, const uint8_t *data, size_t len)
{
    size_t i;
    for (i = 0; i < len; i++)
        memory_flash[at + i] &= data[i];
}
