/* Random boards: a flash that is lent, its geometry, and the checker's answers. */
#ifndef BOARDS_H
#define BOARDS_H

#include "lent.h"
#include "plain.h"

/* The flash that any_board lends. */
extern lent flash;

/* In any state that the loader decides on; at times with any geometry, all noise, or behind 4 GiB. */
plain_board any_board(void);

/* Puts any value in place of one of the numbers. */
void disturb_geometry(plain_geometry *g, size_t flash_len);

/* Puts so many bytes before the flash. */
void move_up(plain_board *b, size_t bytes);

/* A geometry as the entries take it. */
#define NUMBERS_OF(g) (g).sector_size, (g).sector_count, (g).boot, (g).update, (g).swap

#endif
