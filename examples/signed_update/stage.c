/* Lays two images into an erased flash, one in BOOT and one in UPDATE, and triggers the update. Writes the simulator's
 * input to standard output: a record of 24 bytes, in which the signature checker has not answered yet, and the flash.
 * Usage: stage SECTOR_SIZE SECTOR_COUNT BOOT UPDATE SWAP BOOT_IMAGE UPDATE_IMAGE */
#include <stdio.h>
#include <stdlib.h>
#include <string.h>

#include "frondicare_geometry.h"
#include "frondicare_words.h"

enum { MOST_FLASH = 65536 };

static uint8_t flash[MOST_FLASH];
static frondicare_geometry board;

static _Noreturn void fail(const char *what)
{
    fprintf(stderr, "stage: %s\n", what);
    exit(1);
}

static void refuse(uint32_t number)
{
    if (number != FRONDICARE_OK)
        fail(frondicare_in_words(number));
}

/* SWAP is the last area, and the flash ends behind it. */
static void set_geometry(char **numbers)
{
    size_t *to[] = { &board.sector_size, &board.sector_count, &board.boot, &board.update, &board.swap };
    for (int i = 0; i < 5; i++)
        *to[i] = strtoul(numbers[i], NULL, 10);
    board.flash_len = board.swap + board.sector_size;
    if (board.flash_len > MOST_FLASH)
        fail("more flash than the simulator takes");
    refuse(frondicare_check_geometry_on(&board));
}

/* In a real loader the flash's own driver does this. */
static void lay(const char *name, size_t slot)
{
    FILE *file = fopen(name, "rb");
    if (file == NULL)
        fail(name);
    size_t room = board.sector_size * board.sector_count, len = fread(flash + slot, 1, room, file);
    if (ferror(file) || len == 0 || (len == room && fgetc(file) != EOF))
        fail(name);
    fclose(file);
}

/* Not verified first, as examples/valve does it: here a bad image is to be met at power-up. */
static void trigger_update(void)
{
    frondicare_answer a;
    while ((a = frondicare_trigger_on(flash, &board)).kind == FRONDICARE_STEP)
        refuse(frondicare_carry_out_on(flash, &board, a));
    refuse(a.number);
}

static void put_number(size_t x)
{
    for (int i = 0; i < 4; i++)
        putchar((int)(x >> (8 * i) & 0xff));
}

int main(int argc, char **argv)
{
    if (argc != 8)
        fail("SECTOR_SIZE SECTOR_COUNT BOOT UPDATE SWAP BOOT_IMAGE UPDATE_IMAGE");
    set_geometry(argv + 1);
    memset(flash, 0xff, board.flash_len);
    lay(argv[6], board.boot);
    lay(argv[7], board.update);
    trigger_update();
    const size_t record[] = { board.sector_size, board.sector_count, board.boot, board.update, board.swap, 0 };
    for (int i = 0; i < 6; i++)
        put_number(record[i]);
    fwrite(flash, 1, board.flash_len, stdout);
    return fflush(stdout) == 0 ? 0 : 1;
}
