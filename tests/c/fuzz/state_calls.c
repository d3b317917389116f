#include "boards.h"
#include "fuzz.h"
#include "random.h"
#include "seen.h"
#include <stdio.h>

enum { NO_STATE = 256 };

static void seen_state(uint32_t state)
{
    static const uint32_t named[] = { 0x00, 0x10, 0x30, 0x70, 0xff };
    char label[16];
    size_t i;
    snprintf(label, sizeof label, "%s", state == NO_STATE ? "no state" : "other state");
    for (i = 0; i < sizeof named / sizeof *named; i++) {
        if (state == named[i])
            snprintf(label, sizeof label, "state %02X", state);
    }
    seen(label);
}

/* A state is a byte or none, and there is none where the geometry is refused. */
static void same_state(frondicare_slot_state s, frondicare_slot_state expected)
{
    if (s.state != expected.state || s.state > NO_STATE || (s.number != 0 && s.state != NO_STATE))
        fail("number %u: state %u, not %u", s.number, s.state, expected.state);
    if (s.number == 0 && expected.number == 0)
        seen_state(s.state);
    else
        same_number(s.number, expected.number);
}

void call_boot_state(void)
{
    plain_board b = any_board();
    readable f = to_read(&flash);
    same_state(frondicare_boot_state(f.at, f.len, NUMBERS_OF(b.geometry)),
               plain_boot_state(f.at, f.len, NUMBERS_OF(b.geometry)));
}

void call_update_state(void)
{
    plain_board b = any_board();
    readable f = to_read(&flash);
    same_state(frondicare_update_state(f.at, f.len, NUMBERS_OF(b.geometry)),
               plain_update_state(f.at, f.len, NUMBERS_OF(b.geometry)));
}

void call_in_mid_swap(void)
{
    plain_board b = any_board();
    readable f = to_read(&flash);
    bool is = frondicare_in_mid_swap(f.at, f.len, NUMBERS_OF(b.geometry));
    if (is != plain_in_mid_swap(f.at, f.len, NUMBERS_OF(b.geometry)))
        fail("answers %s", is ? "yes" : "no");
    seen(is ? "yes" : "no");
}
