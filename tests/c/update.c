/* The loader's entries as a firmware engineer uses them: an update is triggered and swapped in, returned from where
 * it isn't confirmed, and stays where it is; and what is refused. */
#include "board.h"

static frondicare_answer next_step(void)
{
    return frondicare_next_step(flash, FLASH, SECTOR, SECTORS, BOOT, UPDATE, SWAP, is_signed(BOOT), is_signed(UPDATE));
}

static frondicare_answer trigger(void)
{
    return frondicare_trigger(flash, FLASH, SECTOR, SECTORS, BOOT, UPDATE, SWAP);
}

static frondicare_answer confirm(void)
{
    return frondicare_confirm(flash, FLASH, SECTOR, SECTORS, BOOT, UPDATE, SWAP);
}

static void carry_out(frondicare_answer a)
{
    uint32_t number =
        frondicare_apply_step(flash, FLASH, SECTOR, SECTORS, BOOT, UPDATE, SWAP, a.op, a.at, a.to, a.value);
    check(number == 0, "a step that was answered is accepted");
}

/* Whether the slots are sound with these states. */
static bool are(uint32_t boot, uint32_t update)
{
    frondicare_slot_state b = frondicare_boot_state(flash, FLASH, SECTOR, SECTORS, BOOT, UPDATE, SWAP);
    frondicare_slot_state u = frondicare_update_state(flash, FLASH, SECTOR, SECTORS, BOOT, UPDATE, SWAP);
    return b.number == 0 && b.state == boot && u.number == 0 && u.state == update;
}

static void carry_out_trigger(void)
{
    frondicare_answer a;
    for (a = trigger(); a.kind == FRONDICARE_STEP; a = trigger())
        carry_out(a);
    check(says(a, FRONDICARE_FINISHED, 0), "triggered");
}

/* How many decisions of a power-up fell in mid-swap. */
static int in_mid_swap;

/* One power-up. Counts its steps, and answers as the last call does. */
static frondicare_answer power_up(int *steps)
{
    frondicare_answer a;
    *steps = in_mid_swap = 0;
    do {
        in_mid_swap += frondicare_in_mid_swap(flash, FLASH, SECTOR, SECTORS, BOOT, UPDATE, SWAP);
        a = next_step();
        if (a.kind == FRONDICARE_STEP || a.kind == FRONDICARE_LAST_STEP) {
            carry_out(a);
            ++*steps;
        }
    } while (a.kind == FRONDICARE_STEP);
    return a;
}

static void updated(void)
{
    int steps;
    staged();
    check(are(FRONDICARE_STATE_UNSOUND, FRONDICARE_STATE_UNSOUND), "nothing triggered");
    check(says(power_up(&steps), FRONDICARE_BOOT, 0) && steps == 0, "boot, nothing triggered");
    carry_out_trigger();
    check(are(FRONDICARE_STATE_UNSOUND, FRONDICARE_STATE_UPDATING), "updating");
    check(power_up(&steps).kind == FRONDICARE_LAST_STEP && steps == 20 && in_boot(NEW), "update in 20 steps");
    check(in_mid_swap == 15, "mid-swap from the first flag to the last");
    check(has_states("\x10" "BOOT", "\x30" "BOOT"), "on trial, spent");
    check(are(FRONDICARE_STATE_ON_TRIAL, FRONDICARE_STATE_SPENT), "on trial, spent, as told");
}

static void returned(void)
{
    int steps;
    updated();
    check(says(trigger(), FRONDICARE_REFUSED, 21), "trigger on trial");
    check(power_up(&steps).kind == FRONDICARE_LAST_STEP && in_boot(OLD), "return");
}

static void confirmed(void)
{
    int steps;
    updated();
    carry_out(confirm());
    check(flash[BOOT_STATE] == 0x00 && are(FRONDICARE_STATE_CONFIRMED, FRONDICARE_STATE_SPENT), "confirm");
    check(says(confirm(), FRONDICARE_FINISHED, 0), "confirmed");
    check(says(power_up(&steps), FRONDICARE_BOOT, 0) && steps == 0 && in_boot(NEW), "boot, confirmed");
}

static void refused(void)
{
    frondicare_answer a;
    int steps;
    staged();
    check(says(confirm(), FRONDICARE_REFUSED, 23), "confirm, nothing on trial");
    carry_out_trigger();
    flash[UPDATE + 256] ^= 1;
    check(says(power_up(&steps), FRONDICARE_BOOT, 17) && steps == 0, "boot, UPDATE damaged");
    flash[BOOT + 511] ^= 1;
    check(says(power_up(&steps), FRONDICARE_REFUSED, 17) && steps == 0, "BOOT damaged too");
    flash[UPDATE_FLAGS] = 0xf5;
    check(says(next_step(), FRONDICARE_REFUSED, 20), "flags ill-formed");
    check(says(trigger(), FRONDICARE_REFUSED, 22) && says(confirm(), FRONDICARE_REFUSED, 22), "requests in mid-swap");
    a = frondicare_next_step(flash, FLASH - 1, SECTOR, SECTORS, BOOT, UPDATE, SWAP, true, true);
    check(says(a, FRONDICARE_REFUSED, 3), "flash too short");
}

int main(void)
{
    returned();
    confirmed();
    refused();
    return report("C loader");
}
