#include "board.h"

const frondicare_geometry board = { FLASH_SIZE, SECTOR_SIZE, SECTOR_COUNT, BOOT, UPDATE, SWAP };
