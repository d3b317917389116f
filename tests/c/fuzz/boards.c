#include "boards.h"
#include "fuzz.h"
#include "random.h"
#include <string.h>

enum { MOST_FLASH = 1 << 17, MOST_NOISE = 9000 };

lent flash;

void open_boards(void)
{
    lent_open(&flash, "flash", MOST_FLASH);
}

void disturb_geometry(plain_geometry *g, size_t flash_len)
{
    size_t *const numbers[] = { &g->sector_size, &g->sector_count, &g->boot, &g->update, &g->swap };
    size_t *number = numbers[up_to(4)];
    *number = any_size(flash_len);
}

void move_up(plain_board *b, size_t bytes)
{
    b->flash_len += bytes;
    b->geometry.boot += bytes;
    b->geometry.update += bytes;
    b->geometry.swap += bytes;
}

/* The sizes are mostly right, so that the offsets are looked at. */
static plain_board noise(uint8_t *room)
{
    plain_board b;
    plain_geometry *g = &b.geometry;
    b.boot_signed = percent(50);
    b.update_signed = percent(50);
    b.flash_len = percent(10) ? 0 : up_to(MOST_NOISE);
    g->sector_size = percent(80) ? (size_t)256 << up_to(4) : any_size(b.flash_len);
    g->sector_count = percent(80) ? 1 + up_to(4) : any_size(b.flash_len);
    g->boot = any_size(b.flash_len);
    g->update = any_size(b.flash_len);
    g->swap = any_size(b.flash_len);
    any_bytes(room, b.flash_len);
    return b;
}

/* No area comes to lie in the bytes before the flash, which cannot be written. */
static bool may_move_up(plain_geometry g)
{
    return (g.boot | g.update | g.swap) < SIZE_MAX / 2;
}

plain_board any_board(void)
{
    static uint8_t room[MOST_FLASH];
    plain_board b = percent(5) ? noise(room) : plain_random_board(random_next(), room, sizeof room);
    bool far;
    if (percent(10))
        disturb_geometry(&b.geometry, b.flash_len);
    if (percent(5))
        b.flash_len = up_to(b.flash_len);
    if (percent(10) && b.flash_len > 0)
        any_bytes(room + up_to(b.flash_len - 1), 1);
    far = percent(10) && may_move_up(b.geometry);
    memcpy(far ? lend_far(&flash, b.flash_len, FAR) : lend(&flash, b.flash_len), room, b.flash_len);
    if (far)
        move_up(&b, FAR);
    return b;
}
