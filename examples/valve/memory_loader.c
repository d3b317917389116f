/* The loader over a flash that is memory. The library carries the steps out. */
#include "checker.h"
#include "loader.h"
#include "simulation/memory_flash.h"

/* Not refused: the library accepts each step that it answers. */
void carry_out(frondicare_answer step)
{
    frondicare_carry_out_on(memory_flash, &board, step);
}

/* A run goes by the checker's answers from its start, but a swap that was cut has no whole slot to check. Its steps are
 * done one by one, and no answer is looked at; then the slots are whole, and one run does the rest. */
frondicare_answer power_up(uint32_t most_steps, frondicare_step_counts *counts)
{
    for (; most_steps > 0 && frondicare_in_mid_swap_on(flash, &board); most_steps--)
        frondicare_run_on(memory_flash, &board, false, false, 1, counts);
    return frondicare_run_on(memory_flash, &board, is_signed(flash + BOOT), is_signed(flash + UPDATE), most_steps,
                             counts);
}
