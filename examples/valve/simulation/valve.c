/* A valve to play with: its flash is a file, and each command is a power-up or something that the firmware asks for.
 *
 * valve FLASH new                  makes the file, with version 1 in BOOT
 * valve FLASH receive VERSION LEN  an image comes in, with LEN bytes of firmware
 * valve FLASH trigger              it is verified, and the update to it is triggered
 * valve FLASH stage VERSION LEN    both
 * valve FLASH power-up [STEPS]     the loader runs, for at most so many steps, and says what it starts
 * valve FLASH confirm              the image on trial works
 * valve geometry                   sector size and count, BOOT, UPDATE, SWAP and the size of the flash
 *
 * Status: 0 done, 1 refused, 2 the command is wrong, 3 power lost, 4 the steps were not enough. */
#include "flash.h"
#include "frondicare_words.h"
#include "loader.h"
#include "requests.h"
#include "simulation/file.h"
#include "simulation/image.h"
#include <stdio.h>
#include <stdlib.h>
#include <string.h>

enum { DONE = 0, REFUSED = 1, NOT_ENOUGH = 4 };
enum { HEADER = FRONDICARE_HEADER_SIZE, PIECE = 100 };

static uint8_t image[LONGEST_IMAGE];
static frondicare_step_counts counts;

/* Also where power is lost. */
static void print_counts(void)
{
    printf("steps: %u erases, %u copies, %u bytes, %u marks\n",
           counts.erases, counts.copies, counts.bytes, counts.marks);
}

static uint32_t number_in(const char *word)
{
    char *end;
    unsigned long number = strtoul(word, &end, 10);
    require(*word != '\0' && *end == '\0' && number <= UINT32_MAX, "not a number");
    return (uint32_t)number;
}

static int make_flash(const char *path)
{
    FILE *file = fopen(path, "wb");
    size_t i;
    require(file != NULL, "that file can't be written");
    for (i = 0; i < FLASH_SIZE; i++)
        putc(0xff, file);
    require(fclose(file) == 0, "that file can't be written");
    flash_open(path);
    make_image(image, 1, IMAGE_SIZE - HEADER);
    flash_program(BOOT, image, IMAGE_SIZE);
    return DONE;
}

/* What is told where no image is started. */
static int tell(frondicare_answer a)
{
    if (a.kind == FRONDICARE_FINISHED)
        return DONE;
    if (a.kind != FRONDICARE_REFUSED) {
        printf("stopped before a step\n");
        return NOT_ENOUGH;
    }
    printf("refused: %s (%u)\n", frondicare_in_words(a.number), a.number);
    return REFUSED;
}

/* The image comes in pieces. */
static int receive(size_t len)
{
    frondicare_answer a = clear_update();
    size_t at, piece;
    if (a.kind != FRONDICARE_FINISHED)
        return tell(a);
    for (at = 0; at < len; at += piece) {
        piece = len - at < PIECE ? len - at : PIECE;
        if (!write_update(at, image + at, piece)) {
            printf("too long\n");
            return REFUSED;
        }
    }
    return DONE;
}

static int stage(size_t len)
{
    int status = receive(len);
    return status == DONE ? tell(trigger(&counts)) : status;
}

/* A real loader jumps to the firmware, at BOOT + 256. */
static int start(uint32_t passed_over)
{
    bool on_trial = frondicare_boot_state_on(flash, &board).state == FRONDICARE_STATE_ON_TRIAL;
    printf("boots version %u%s", frondicare_version_of(flash + BOOT, IMAGE_SIZE).version, on_trial ? ", on trial" : "");
    if (passed_over != FRONDICARE_OK)
        printf(", update passed over: %s (%u)", frondicare_in_words(passed_over), passed_over);
    printf("\n");
    return DONE;
}

static int switch_on(uint32_t most_steps)
{
    frondicare_answer a = power_up(most_steps, &counts);
    return a.kind == FRONDICARE_BOOT ? start(a.number) : tell(a);
}

static int command(int count, char **words)
{
    bool stages = strcmp(words[0], "stage") == 0;
    size_t len;
    atexit(print_counts);
    if (count == 1 && strcmp(words[0], "power-up") == 0)
        return switch_on(frondicare_most_steps(SECTOR_COUNT));
    if (count == 2 && strcmp(words[0], "power-up") == 0)
        return switch_on(number_in(words[1]));
    if (count == 1 && strcmp(words[0], "confirm") == 0)
        return tell(confirm(&counts));
    if (count == 1 && strcmp(words[0], "trigger") == 0)
        return tell(trigger(&counts));
    require(count == 3 && (stages || strcmp(words[0], "receive") == 0),
            "no such command; simulation/valve.c lists them");
    len = HEADER + number_in(words[2]);
    make_image(image, number_in(words[1]), len - HEADER);
    return stages ? stage(len) : receive(len);
}

int main(int count, char **words)
{
    if (count == 2 && strcmp(words[1], "geometry") == 0) {
        printf("%d %d %d %d %d %d\n", SECTOR_SIZE, SECTOR_COUNT, BOOT, UPDATE, SWAP, FLASH_SIZE);
        return DONE;
    }
    require(count > 2, "no command; simulation/valve.c lists them");
    if (strcmp(words[2], "new") == 0)
        return make_flash(words[1]);
    flash_open(words[1]);
    return command(count - 2, words + 2);
}
