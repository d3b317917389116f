/* Environment variables say what goes wrong with the part:
 * LOSE_POWER_AT=c BYTES_DONE=b: power is lost during command c, from 0, with b of its bytes done. The program ends with
 * the status POWER_LOST. Up to four bytes are one word of the part: it is programmed or it isn't.
 * WORN=offset: the byte there is not programmed any more. */
#include "simulation/nor_part.h"
#include "board.h"
#include "simulation/file.h"
#include <fcntl.h>
#include <limits.h>
#include <stdlib.h>
#include <string.h>
#include <sys/mman.h>
#include <unistd.h>

enum { WORD = 4 };

static const uint8_t *window;
static int file;
static unsigned long commands_powered, bytes_done, worn;

const uint8_t *nor_open(const char *path)
{
    window = map_flash(path, PROT_READ);
    file = open(path, O_WRONLY);
    commands_powered = setting("LOSE_POWER_AT", ULONG_MAX);
    bytes_done = setting("BYTES_DONE", 0);
    worn = setting("WORN", FLASH_SIZE);
    return window;
}

/* How many of a command's bytes are done. */
static size_t powered(size_t len)
{
    if (commands_powered > 0 || bytes_done >= len)
        return len;
    return len <= WORD ? 0 : bytes_done;
}

/* Keeps what a command did, and ends with the power. */
static void keep(size_t at, const uint8_t *data, size_t len)
{
    require(pwrite(file, data, len, (off_t)at) == (ssize_t)len, "the flash's file is not written");
    if (commands_powered == 0)
        exit(POWER_LOST);
    commands_powered--;
}

void nor_program(size_t at, const uint8_t *data, size_t len)
{
    uint8_t page[FLASH_PAGE];
    size_t i, done = powered(len);
    require(len > 0 && at < FLASH_SIZE && at % FLASH_PAGE + len <= FLASH_PAGE, "programmed across a page");
    for (i = 0; i < done; i++)
        page[i] = at + i == worn ? window[at + i] : window[at + i] & data[i];
    keep(at, page, done);
}

/* Upward, so that a trailer's closing bytes go last: a part promises no order, and this is the worst. */
void nor_erase(size_t at)
{
    uint8_t blank[SECTOR_SIZE];
    require(at < FLASH_SIZE && at % SECTOR_SIZE == 0, "erased from within a sector");
    memset(blank, 0xff, SECTOR_SIZE);
    keep(at, blank, powered(SECTOR_SIZE));
}
