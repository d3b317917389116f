/* The calls that stack.c measures, each of them with arguments that take it a long way. */
#ifndef STACK_CALLS_H
#define STACK_CALLS_H

#include "frondicare.h"
#include <string.h>

/* One image sector to a slot. */
enum { SECTOR = 4096, BOOT = 0, UPDATE = 2 * SECTOR, SWAP = 4 * SECTOR, FLASH = 5 * SECTOR };
#define AREAS SECTOR, 1, BOOT, UPDATE, SWAP

static const uint8_t custom[10] = { 0x42, 0, 1, 0, 'x', 0x43, 0, 1, 0, 'y' };
static const frondicare_fields fields = { 1, 2, 3 }, newer = { 2, 2, 3 };

static uint8_t image[256 + 1000];
static uint8_t *const message = image + 256;
static uint8_t digest[32];
static uint8_t flash[FLASH];
static frondicare_step_counts counts;
static uint32_t number;

static void one_piece(void) { number = frondicare_digest(message, 1000, digest); }
static void two_pieces(void) { number = frondicare_digest_of_two(message, 70, message + 70, 930, digest); }
static void verify(void) { number = frondicare_verify(image, sizeof image, true); }
static void version_of(void) { number = frondicare_version_of(image, sizeof image).number; }
static void next_tag(void) { number = frondicare_next_tag(image, sizeof image, 8, false, 0x0020).number; }
static void find_tag(void) { number = frondicare_find_tag(image, sizeof image, 0x0020).number; }

/* Two custom tags, so that the run is read too. The message stands for hint and signature. */
static void digest_to_sign(void)
{
    number = frondicare_digest_to_sign(fields, message, 1000, custom, sizeof custom, message, digest);
}

static void write_header(void)
{
    number = frondicare_write_header(image, 256, fields, message, 1000, custom, sizeof custom, message, message);
}

static void check_geometry(void) { number = frondicare_check_geometry(FLASH, AREAS); }

static void apply(uint32_t op, size_t at)
{
    number = frondicare_apply_step(flash, FLASH, AREAS, op, at, SWAP, 0);
}

static void erase(void) { apply(FRONDICARE_ERASE, BOOT); }
static void copy(void) { apply(FRONDICARE_COPY, BOOT); }
static void byte(void) { apply(FRONDICARE_BYTE, BOOT + SECTOR); }
static void mark(void) { apply(FRONDICARE_MARK, UPDATE - 4); }

/* 0 where the kind is this one. */
static void next_step(uint32_t kind)
{
    number = frondicare_next_step(flash, FLASH, AREAS, true, true).kind ^ kind;
}

static void step(void) { next_step(FRONDICARE_STEP); }
static void boot(void) { next_step(FRONDICARE_BOOT); }

/* A step's kind is 0. */
static void trigger(void) { number = frondicare_trigger(flash, FLASH, AREAS).kind; }
static void confirm(void) { number = frondicare_confirm(flash, FLASH, AREAS).kind; }

/* 0 where the state is the one that a slot was closed with. */
static void boot_state(void) { number = frondicare_boot_state(flash, FLASH, AREAS).state ^ 0x10; }
static void update_state(void) { number = frondicare_update_state(flash, FLASH, AREAS).state ^ 0x70; }
static void in_mid_swap(void) { number = !frondicare_in_mid_swap(flash, FLASH, AREAS); }
static void most_steps(void) { number = frondicare_most_steps(1) ^ 26; }

/* 0 where it boots. */
static void run(void)
{
    frondicare_answer a = frondicare_run(flash, FLASH, AREAS, true, true, 4096, &counts);
    number = a.kind ^ FRONDICARE_BOOT;
}

static void add_step(void) { number = frondicare_add_step(&counts, FRONDICARE_MARK); }

static void close_slot(size_t trailer, const char *state_and_mark)
{
    memcpy(flash + trailer + SECTOR - 5, state_and_mark, 5);
}

/* Two images, the one in UPDATE with the greater version. */
static void fill_slots(void)
{
    memset(flash, 0xff, FLASH);
    memcpy(flash + BOOT, image, sizeof image);
    memcpy(flash + UPDATE + 256, message, 1000);
    frondicare_write_header(flash + UPDATE, 256, newer, message, 1000, custom, sizeof custom, message, message);
}

#endif
