#include "boards.h"
#include "fuzz.h"

void call_next_step(void)
{
    plain_board b = any_board();
    readable f = to_read(&flash);
    same_answer(frondicare_next_step(f.at, f.len, NUMBERS_OF(b.geometry), b.boot_signed, b.update_signed),
                plain_next_step(f.at, f.len, NUMBERS_OF(b.geometry), b.boot_signed, b.update_signed));
}

void call_trigger(void)
{
    plain_board b = any_board();
    readable f = to_read(&flash);
    same_answer(frondicare_trigger(f.at, f.len, NUMBERS_OF(b.geometry)),
                plain_trigger(f.at, f.len, NUMBERS_OF(b.geometry)));
}

void call_confirm(void)
{
    plain_board b = any_board();
    readable f = to_read(&flash);
    same_answer(frondicare_confirm(f.at, f.len, NUMBERS_OF(b.geometry)),
                plain_confirm(f.at, f.len, NUMBERS_OF(b.geometry)));
}
