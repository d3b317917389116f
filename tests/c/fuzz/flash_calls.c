#include "boards.h"
#include "fuzz.h"
#include "random.h"

/* No flash is lent, so that it may be of any length, up to 2^64. */
void call_check_geometry(void)
{
    plain_board b = any_board();
    if (percent(50))
        move_up(&b, (SIZE_MAX - b.flash_len) / 4096 * 4096);
    if (percent(20))
        b.flash_len = any_size(b.flash_len);
    if (percent(30))
        disturb_geometry(&b.geometry, b.flash_len);
    same_number(frondicare_check_geometry(b.flash_len, NUMBERS_OF(b.geometry)),
                plain_check_geometry(b.flash_len, NUMBERS_OF(b.geometry)));
}

static plain_step noise(size_t flash_len)
{
    plain_step s;
    s.op = any_u32(FRONDICARE_MARK);
    s.at = any_size(flash_len);
    s.to = any_size(flash_len);
    s.value = any_u32(256);
    return s;
}

void call_apply_step(void)
{
    plain_board b = any_board();
    plain_step s = percent(20) ? noise(b.flash_len) : plain_random_step(random_next(), &b.geometry);
    uint8_t *f = to_write(&flash);
    uint32_t number, expected;
    number = frondicare_apply_step(f, b.flash_len, NUMBERS_OF(b.geometry), s.op, s.at, s.to, s.value);
    expected = plain_apply_step(to_expect(&flash), b.flash_len, NUMBERS_OF(b.geometry), s.op, s.at, s.to, s.value);
    same_number_of_step(number, expected, s.op);
    lent_check(&flash, number != 0);
}
