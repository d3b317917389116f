#include "requests.h"
#include "checker.h"
#include "flash.h"
#include "loader.h"

/* No request takes more steps. */
enum { MOST_STEPS = 3 };

static frondicare_answer ask_trigger(void)
{
    return frondicare_trigger_on(flash, &board);
}

static frondicare_answer ask_confirm(void)
{
    return frondicare_confirm_on(flash, &board);
}

/* Trigger is asked here already: where it refuses, UPDATE has the image to return to. The trailer is erased first, so
 * that what comes is no update before it is triggered itself. */
frondicare_answer clear_update(void)
{
    static const frondicare_answer finished = { .kind = FRONDICARE_FINISHED };
    frondicare_answer a = ask_trigger();
    size_t at;
    if (a.kind == FRONDICARE_REFUSED)
        return a;
    for (at = UPDATE + SLOT_SIZE; at > UPDATE; at -= SECTOR_SIZE)
        flash_erase(at - SECTOR_SIZE);
    return finished;
}

bool write_update(size_t at, const uint8_t *data, size_t len)
{
    if (at > IMAGE_SIZE || len > IMAGE_SIZE - at)
        return false;
    flash_program(UPDATE + at, data, len);
    return true;
}

/* The image as the flash holds it, since pieces may be missing or damaged. The loader verifies it again at power-up. */
static uint32_t verify_update(void)
{
    const uint8_t *image = flash + UPDATE;
    return frondicare_verify(image, IMAGE_SIZE, is_signed(image));
}

frondicare_answer trigger(frondicare_step_counts *counts)
{
    frondicare_answer refused = { .kind = FRONDICARE_REFUSED, .number = verify_update() };
    if (refused.number != 0)
        return refused;
    return carry_out_steps(ask_trigger, MOST_STEPS, counts);
}

frondicare_answer confirm(frondicare_step_counts *counts)
{
    return carry_out_steps(ask_confirm, MOST_STEPS, counts);
}
