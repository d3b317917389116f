/* The loader over a flash that only its driver can write. It asks the library and carries each step out itself. The
 * driver's status is not needed: each answer goes by what the flash holds. */
#include "checker.h"
#include "flash.h"
#include "loader.h"
#include <string.h>

/* By pages in memory: a part that is being programmed can't be read, and the valve has no room for a sector. */
static void copy_sector(size_t from, size_t to)
{
    uint8_t page[FLASH_PAGE];
    size_t i;
    for (i = 0; i < SECTOR_SIZE; i += FLASH_PAGE) {
        memcpy(page, flash + from + i, FLASH_PAGE);
        flash_program(to + i, page, FLASH_PAGE);
    }
}

void carry_out(frondicare_answer step)
{
    static const uint8_t closing[] = FRONDICARE_CLOSING_BYTES;
    uint8_t value = (uint8_t)step.value;
    switch ((enum frondicare_op)step.op) {
    case FRONDICARE_ERASE:
        flash_erase(step.at);
        break;
    case FRONDICARE_COPY:
        copy_sector(step.at, step.to);
        break;
    case FRONDICARE_BYTE:
        flash_program(step.at, &value, 1);
        break;
    case FRONDICARE_MARK:
        flash_program(step.at, closing, sizeof closing);
        break;
    }
}

/* Both slots are checked as they are, before each step. In mid-swap neither is whole, and the library doesn't look at
 * these answers. frondicare.h says how a slow checker is asked less often. */
static frondicare_answer next_step(void)
{
    return frondicare_next_step_on(flash, &board, is_signed(flash + BOOT), is_signed(flash + UPDATE));
}

frondicare_answer power_up(uint32_t most_steps, frondicare_step_counts *counts)
{
    return carry_out_steps(next_step, most_steps, counts);
}
