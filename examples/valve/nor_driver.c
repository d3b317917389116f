/* The driver of the NOR flash. */
#include "board.h"
#include "flash.h"
#include "simulation/nor_part.h"

const uint8_t *flash;

void flash_open(const char *path)
{
    flash = nor_open(path);
}

/* The last four bytes are cleared first, since the part promises no order in which a cut erase leaves them. */
void flash_erase(size_t at)
{
    static const uint8_t zeros[4];
    nor_program(at + SECTOR_SIZE - sizeof zeros, zeros, sizeof zeros);
    nor_erase(at);
}

void flash_program(size_t at, const uint8_t *data, size_t len)
{
    while (len > 0) {
        size_t room = FLASH_PAGE - at % FLASH_PAGE;
        size_t part = len < room ? len : room;
        nor_program(at, data, part);
        at += part;
        data += part;
        len -= part;
    }
}
