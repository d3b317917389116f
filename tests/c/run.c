/* The run as a firmware engineer uses it: an update in one call and the return in another, an update in pieces, a
 * refusal that comes late and those that come first, and steps added to a record one by one. */
#include "board.h"

/* The largest counter with room for a run. */
static const uint32_t most = 4294963199;
static frondicare_step_counts counts;

static frondicare_answer run(bool boot_signed, bool update_signed, uint32_t number)
{
    return frondicare_run(flash, FLASH, SECTOR, SECTORS, BOOT, UPDATE, SWAP, boot_signed, update_signed, number,
                          &counts);
}

static bool counted(uint32_t erases, uint32_t copies, uint32_t bytes, uint32_t marks)
{
    return counts.erases == erases && counts.copies == copies && counts.bytes == bytes && counts.marks == marks;
}

static void triggered(void)
{
    staged();
    memcpy(flash + UPDATE_STATE, "\x70" "BOOT", 5);
    memset(&counts, 0, sizeof counts);
}

/* Document 01's twenty steps, and the return in 9n + 4. */
static void updated_and_returned(void)
{
    triggered();
    check(says(run(is_signed(BOOT), is_signed(UPDATE), 4096), FRONDICARE_BOOT, 0) && in_boot(NEW), "update");
    check(counted(5, 6, 8, 1), "twenty steps");
    check(has_states("\x10" "BOOT", "\x30" "BOOT"), "on trial, spent");
    check(says(run(is_signed(BOOT), is_signed(UPDATE), 4096), FRONDICARE_BOOT, 0) && in_boot(OLD), "return");
    check(counted(5 + 7, 6 + 6, 8 + 8, 1 + 1), "22 steps more");
}

/* The step due is answered and not done. A new image that is signed alone is enough. */
static void in_pieces(void)
{
    frondicare_answer a;
    triggered();
    a = run(false, true, 7);
    check(a.kind == FRONDICARE_STEP && a.op == FRONDICARE_BYTE && a.at == UPDATE_FLAGS && a.value == 0xf0, "step due");
    check(counted(2, 3, 2, 0) && flash[UPDATE_FLAGS] == 0xf3, "seven steps");
    a = run(false, true, 12);
    check(a.kind == FRONDICARE_LAST_STEP && a.op == FRONDICARE_BYTE && a.at == UPDATE_STATE && a.value == 0x30, "last");
    check(counted(5, 6, 7, 1) && flash[UPDATE_STATE] == 0x70, "nineteen steps");
    /* The slots are exchanged by now. */
    check(says(run(true, false, 1), FRONDICARE_BOOT, 0) && counted(5, 6, 8, 1), "boot");
    check(says(run(true, false, 0), FRONDICARE_BOOT, 18), "no return");
}

/* Neither image is signed: UPDATE is spent before that is found. */
static void refused_late(void)
{
    triggered();
    flash[UPDATE_FLAGS] = 0x00;
    check(says(run(false, false, 4096), FRONDICARE_REFUSED, 18) && counted(0, 0, 2, 1), "three steps stay counted");
    check(has_states("\x10" "BOOT", "\x30" "BOOT"), "and done");
}

/* Geometry, then 29, then 28. Nothing changes. */
static void refused_first(void)
{
    static uint8_t before[FLASH];
    frondicare_answer a;
    triggered();
    memcpy(before, flash, FLASH);
    counts.marks = most + 1;
    a = frondicare_run(flash, FLASH - 1, SECTOR, SECTORS, BOOT, UPDATE, SWAP, true, true, 4097, &counts);
    check(says(a, FRONDICARE_REFUSED, 3), "flash too short");
    check(says(run(true, true, 4097), FRONDICARE_REFUSED, 29), "number too large");
    check(says(run(true, true, 4096), FRONDICARE_REFUSED, 28), "no room");
    check(counted(0, 0, 0, most + 1) && memcmp(flash, before, FLASH) == 0, "nothing changed");
    counts.marks = most;
    check(says(run(true, true, 4096), FRONDICARE_BOOT, 0) && counted(5, 6, 8, most + 1), "room for a run");
}

static void added(void)
{
    uint32_t op;
    memset(&counts, 0, sizeof counts);
    for (op = FRONDICARE_ERASE; op <= FRONDICARE_MARK; op++)
        check(frondicare_add_step(&counts, op) == 0, "a step added");
    check(frondicare_add_step(&counts, FRONDICARE_COPY) == 0 && counted(1, 2, 1, 1), "each by its kind");
    counts.bytes = most + 1;
    check(frondicare_add_step(&counts, FRONDICARE_MARK + 1) == 24, "no step");
    check(frondicare_add_step(&counts, FRONDICARE_ERASE) == 28, "no room for a step");
    check(counted(1, 2, most + 1, 1), "nothing added");
}

int main(void)
{
    updated_and_returned();
    in_pieces();
    refused_late();
    refused_first();
    added();
    return report("C run");
}
