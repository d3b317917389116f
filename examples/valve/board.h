/* The valve's flash map. The loader writes BOOT, UPDATE and SWAP and nothing else. */
#ifndef BOARD_H
#define BOARD_H

#include "frondicare_geometry.h"

/* The tests build a board of small sectors too. */
#ifndef SECTOR_SIZE
#define SECTOR_SIZE 4096
#define SECTOR_COUNT 8
#endif

enum {
    FLASH_PAGE = 256, /* the part programs no more at once */
    IMAGE_SIZE = SECTOR_COUNT * SECTOR_SIZE,
    SLOT_SIZE = IMAGE_SIZE + SECTOR_SIZE, /* the image, then its trailer */
    SETTINGS = 0,
    BOOT = SETTINGS + 2 * SECTOR_SIZE,
    UPDATE = BOOT + SLOT_SIZE,
    SWAP = UPDATE + SLOT_SIZE,
    WATERING_LOG = SWAP + SECTOR_SIZE,
    FLASH_SIZE = WATERING_LOG + SECTOR_SIZE
};

/* The same for the library. */
extern const frondicare_geometry board;

#endif
