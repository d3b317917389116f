/* What the headers name: version, constants, types of tags, states, numbers in words; and each call with a geometry,
 * which answers as its entry does with six numbers. */
#include "board.h"
#include "frondicare_geometry.h"
#include "frondicare_words.h"

#if FRONDICARE_VERSION_NUMBER < 300 || FRONDICARE_HEADER_SIZE != 256
#error "the preprocessor knows these"
#endif

static void constants(void)
{
    static const uint8_t closing[] = FRONDICARE_CLOSING_BYTES;
    char version[16];
    snprintf(version, sizeof version, "%d.%d.%d", FRONDICARE_VERSION_NUMBER / 10000,
             FRONDICARE_VERSION_NUMBER / 100 % 100, FRONDICARE_VERSION_NUMBER % 100);
    check(strcmp(version, FRONDICARE_VERSION) == 0, "the version and its number");
    memset(flash, 0xff, FLASH);
    frondicare_apply_step(flash, FLASH, SECTOR, SECTORS, BOOT, UPDATE, SWAP, FRONDICARE_MARK, UPDATE - 4, 0, 0);
    check(sizeof closing == 4 && memcmp(flash + UPDATE - 4, closing, 4) == 0, "closing bytes");
    check(strcmp(frondicare_in_words(FRONDICARE_ERR_OVERLAP), frondicare_in_words(4)) == 0, "in words");
    check(strcmp(frondicare_in_words(6), frondicare_in_words(UINT32_MAX)) == 0, "no such number");
}

/* Each name of a number, in the order of document 01's table. */
static void numbers(void)
{
    static const uint32_t from_1[] = {
        FRONDICARE_ERR_SECTOR_SIZE, FRONDICARE_ERR_SECTOR_COUNT, FRONDICARE_ERR_PLACE, FRONDICARE_ERR_OVERLAP,
        FRONDICARE_ERR_SIMULATOR_INPUT,
    }, from_10[] = {
        FRONDICARE_ERR_HEADER_LENGTH, FRONDICARE_ERR_IMAGE_MARK, FRONDICARE_ERR_SIZE, FRONDICARE_ERR_TAG_PASSES_END,
        FRONDICARE_ERR_TAG_MISSING, FRONDICARE_ERR_TAG_REPEATED, FRONDICARE_ERR_TAG_LENGTH, FRONDICARE_ERR_DIGEST,
        FRONDICARE_ERR_SIGNATURE, FRONDICARE_ERR_VERSION, FRONDICARE_ERR_FLAGS, FRONDICARE_ERR_ON_TRIAL,
        FRONDICARE_ERR_SWAP_BEGUN, FRONDICARE_ERR_NOTHING_ON_TRIAL, FRONDICARE_ERR_STEP, FRONDICARE_ERR_NO_SUCH_TAG,
        FRONDICARE_ERR_CUSTOM_LENGTH, FRONDICARE_ERR_CUSTOM_TAGS, FRONDICARE_ERR_COUNTER, FRONDICARE_ERR_MOST_STEPS,
        FRONDICARE_ERR_UNCOVERED, FRONDICARE_ERR_START,
    };
    uint32_t i;
    for (i = 0; i < sizeof from_1 / sizeof *from_1; i++)
        check(from_1[i] == 1 + i, "a number's name, from 1");
    for (i = 0; i < sizeof from_10 / sizeof *from_10; i++)
        check(from_10[i] == 10 + i, "a number's name, from 10");
}

/* A written header has each, of the length that document 01 gives it, in the order of the writer. */
static void tags(void)
{
    static const struct { uint16_t type; size_t at, len; } expected[] = {
        { FRONDICARE_TAG_VERSION, 12, 4 }, { FRONDICARE_TAG_TIMESTAMP, 20, 8 }, { FRONDICARE_TAG_FIRMWARE_TYPE, 32, 2 },
        { FRONDICARE_TAG_KEY_HINT, 38, 32 }, { FRONDICARE_TAG_DIGEST, 74, 32 }, { FRONDICARE_TAG_SIGNATURE, 110, 64 },
    };
    size_t i;
    staged();
    for (i = 0; i < sizeof expected / sizeof *expected; i++) {
        frondicare_tag tag = frondicare_find_tag(flash + UPDATE, FRONDICARE_HEADER_SIZE, expected[i].type);
        check(tag.number == FRONDICARE_OK && tag.at == expected[i].at && tag.len == expected[i].len, "a tag's type");
    }
    check(frondicare_find_tag(flash, FRONDICARE_HEADER_SIZE - 1, 1).number == FRONDICARE_ERR_HEADER_LENGTH, "header");
}

/* Lookups of any type list what a written header has, in that order, and end with 25. */
static void listed(void)
{
    static const uint16_t expected[] = {
        FRONDICARE_TAG_VERSION, FRONDICARE_TAG_TIMESTAMP, FRONDICARE_TAG_FIRMWARE_TYPE, FRONDICARE_TAG_KEY_HINT,
        FRONDICARE_TAG_DIGEST, FRONDICARE_TAG_SIGNATURE,
    };
    enum { TAGS = sizeof expected / sizeof *expected };
    const uint8_t *header = flash + UPDATE;
    frondicare_listed_tag tag = { .next = FRONDICARE_FIRST_TAG };
    size_t count = 0;
    staged();
    while ((tag = frondicare_next_tag(header, 256, tag.next, true, 0)).number == FRONDICARE_OK) {
        frondicare_tag found = frondicare_find_tag(header, 256, tag.type);
        check(count < TAGS && tag.type == expected[count], "a listed tag's type");
        check(tag.at == found.at && tag.len == found.len && tag.next == tag.at + tag.len, "a listed tag's place");
        count++;
    }
    check(count == TAGS && tag.number == FRONDICARE_ERR_NO_SUCH_TAG, "the list's end");
    check(tag.type == 0 && tag.at == 0 && tag.len == 0 && tag.next == 0, "nothing beside the number");
    check(frondicare_next_tag(header, 256, 7, true, 0).number == FRONDICARE_ERR_START, "start below 8");
    check(frondicare_next_tag(header, 256, 257, true, 0).number == FRONDICARE_ERR_START, "start above 256");
    check(frondicare_next_tag(header, 256, SIZE_MAX, true, 0).number == FRONDICARE_ERR_START, "start at 2^64 - 1");
    check(frondicare_next_tag(header, 256, ((size_t)1 << 32) + 8, true, 0).number == 31, "start at 2^32 + 8");
    check(frondicare_next_tag(header, 256, 256, true, 0).number == FRONDICARE_ERR_NO_SUCH_TAG, "start at 256");
    check(frondicare_next_tag(header, 255, 7, true, 0).number == FRONDICARE_ERR_HEADER_LENGTH, "length first");
    check(frondicare_next_tag(header, 256, 16, false, FRONDICARE_TAG_VERSION).number == 25, "none behind the first");
    check(frondicare_next_tag(header, 256, 16, true, FRONDICARE_TAG_VERSION).type == 2, "the type is ignored");
}

static void versions(void)
{
    frondicare_version v;
    staged();
    v = frondicare_version_of(flash + UPDATE, 512);
    check(v.number == FRONDICARE_OK && v.version == 2, "version");
    flash[UPDATE + 256] ^= 1;
    v = frondicare_version_of(flash + UPDATE, 512);
    check(v.number == FRONDICARE_OK && v.version == 2, "version of a damaged image");
    v = frondicare_version_of(flash + UPDATE, 511);
    check(v.number == FRONDICARE_ERR_SIZE && v.version == 0, "version of a cut image");
}

/* Of a slot that is sound with a byte that is no state, or is new, and of a geometry that is refused. */
static void states(void)
{
    frondicare_slot_state s;
    memset(flash, 0xff, FLASH);
    memcpy(flash + UPDATE_STATE, "\x55" "BOOT", 5);
    s = frondicare_update_state(flash, FLASH, SECTOR, SECTORS, BOOT, UPDATE, SWAP);
    check(s.number == FRONDICARE_OK && s.state == 0x55, "another byte");
    memcpy(flash + UPDATE_STATE, "\xff" "BOOT", 5);
    s = frondicare_update_state(flash, FLASH, SECTOR, SECTORS, BOOT, UPDATE, SWAP);
    check(s.number == FRONDICARE_OK && s.state == FRONDICARE_STATE_NEW, "new");
    s = frondicare_update_state(flash, FLASH, SECTOR, SECTORS, BOOT, UPDATE, UPDATE);
    check(s.number == FRONDICARE_ERR_OVERLAP && s.state == FRONDICARE_STATE_UNSOUND, "no state of UPDATE");
    s = frondicare_boot_state(flash, FLASH, SECTOR, SECTORS, BOOT, UPDATE, UPDATE);
    check(s.number == FRONDICARE_ERR_OVERLAP && s.state == FRONDICARE_STATE_UNSOUND, "no state of BOOT");
    check(frondicare_most_steps(SECTORS) == 44 && frondicare_most_steps(64) == 1160, "most steps");
    check(frondicare_most_steps(0) == 0 && frondicare_most_steps(65) == 0, "most steps of no geometry");
}

/* The answers of a call with a geometry and of its entry. */
static bool same(frondicare_answer a, frondicare_answer b)
{
    return a.kind == b.kind && a.number == b.number && a.op == b.op && a.value == b.value && a.at == b.at
        && a.to == b.to;
}

static bool same_state(frondicare_slot_state a, frondicare_slot_state b)
{
    return a.number == b.number && a.state == b.state;
}

static void asked(const frondicare_geometry *g)
{
    size_t len = g->flash_len, z = g->sector_size, n = g->sector_count, b = g->boot, u = g->update, s = g->swap;
    check(frondicare_check_geometry_on(g) == frondicare_check_geometry(len, z, n, b, u, s), "check");
    check(same(frondicare_next_step_on(flash, g, true, false),
               frondicare_next_step(flash, len, z, n, b, u, s, true, false)), "next step");
    check(same(frondicare_next_step_on(flash, g, false, true),
               frondicare_next_step(flash, len, z, n, b, u, s, false, true)), "next step, signed otherwise");
    check(same(frondicare_trigger_on(flash, g), frondicare_trigger(flash, len, z, n, b, u, s)), "trigger");
    check(same(frondicare_confirm_on(flash, g), frondicare_confirm(flash, len, z, n, b, u, s)), "confirm");
    check(same_state(frondicare_boot_state_on(flash, g), frondicare_boot_state(flash, len, z, n, b, u, s)), "BOOT");
    check(same_state(frondicare_update_state_on(flash, g),
                     frondicare_update_state(flash, len, z, n, b, u, s)), "UPDATE");
    check(frondicare_in_mid_swap_on(flash, g) == frondicare_in_mid_swap(flash, len, z, n, b, u, s), "mid-swap");
}

static void run(const frondicare_geometry *g, bool boot_signed, bool update_signed)
{
    static uint8_t before[FLASH], after[FLASH];
    frondicare_step_counts counts = { 0, 0, 0, 0 }, other = { 0, 0, 0, 0 };
    frondicare_answer a;
    memcpy(before, flash, FLASH);
    a = frondicare_run_on(flash, g, boot_signed, update_signed, 7, &counts);
    memcpy(after, flash, FLASH);
    memcpy(flash, before, FLASH);
    check(same(a, frondicare_run(flash, g->flash_len, g->sector_size, g->sector_count, g->boot, g->update, g->swap,
                                 boot_signed, update_signed, 7, &other)), "run");
    check(memcmp(&counts, &other, sizeof counts) == 0 && memcmp(flash, after, FLASH) == 0, "run's counts and flash");
    memcpy(flash, before, FLASH);
}

/* Of an answer without a step nothing is carried out, though its zeros are an erase of BOOT. */
static void carried_out(const frondicare_geometry *g)
{
    static uint8_t before[FLASH];
    frondicare_answer a = { FRONDICARE_BOOT, 0, 0, 0, 0, 0 };
    staged();
    memcpy(before, flash, FLASH);
    for (; a.kind <= FRONDICARE_FINISHED + 1; a.kind++)
        check(frondicare_carry_out_on(flash, g, a) == FRONDICARE_ERR_STEP, "no step");
    check(memcmp(flash, before, FLASH) == 0, "nothing carried out");
    for (a.kind = FRONDICARE_STEP; a.kind <= FRONDICARE_LAST_STEP; a.kind++) {
        frondicare_answer copy = { a.kind, 0, FRONDICARE_COPY, 0, UPDATE, SWAP };
        frondicare_answer byte = { a.kind, 0, FRONDICARE_BYTE, 0xf7, UPDATE_FLAGS, 0 };
        check(frondicare_carry_out_on(flash, g, copy) == FRONDICARE_OK, "a copy");
        check(frondicare_carry_out_on(flash, g, byte) == FRONDICARE_OK, "a byte");
        check(memcmp(flash + SWAP, before + UPDATE, SECTOR) == 0 && flash[UPDATE_FLAGS] == 0xf7, "carried out");
        memcpy(flash, before, FLASH);
    }
}

/* Exchanged arguments show in an answer on one of these. */
static void with_a_geometry(void)
{
    static const frondicare_geometry on[] = {
        { FLASH, SECTOR, SECTORS, BOOT, UPDATE, SWAP }, { FLASH, SECTOR, SECTORS, UPDATE, BOOT, SWAP },
        { FLASH, SECTOR, 1, BOOT, UPDATE, SWAP }, { FLASH - 1, SECTOR, SECTORS, BOOT, UPDATE, SWAP },
        { FLASH, 512, SECTORS, BOOT, UPDATE, SWAP }, { FLASH, SECTOR, SECTORS, BOOT, UPDATE, UPDATE },
    };
    static const uint8_t flags[] = { 0xff, 0xf7 };
    size_t i, j;
    for (i = 0; i < sizeof on / sizeof *on; i++)
        for (j = 0; j < 4; j++) {
            staged();
            memcpy(flash + BOOT_STATE, j % 2 == 0 ? "\x10" "BOOT" : "\x00" "BOOT", 5);
            memcpy(flash + UPDATE_STATE, "\x70" "BOOT", 5);
            flash[UPDATE_FLAGS] = flags[j / 2];
            asked(&on[i]);
            run(&on[i], true, false);
            run(&on[i], false, true);
        }
    carried_out(on);
}

int main(void)
{
    constants();
    numbers();
    tags();
    listed();
    versions();
    states();
    with_a_geometry();
    return report("C names");
}
