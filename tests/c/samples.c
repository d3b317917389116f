/* The samples in the header's comment, as they stand there: with power lost at every step of an update and of the
 * return after it, and again in the power-up after that; the list of a header's tags. And the shortest loader over a
 * run, which loses an update. */
#include "board.h"
#include "frondicare_geometry.h"

enum { FLASH_SIZE = FLASH, SECTOR_SIZE = SECTOR, SECTOR_COUNT = SECTORS, IMAGE = SECTORS * SECTOR };
enum { SIGNATURE = 110 }; /* within an image */

/* The flash's driver. */
static bool worn;

static void flash_erase(size_t at)
{
    memset(flash + at, 0xff, SECTOR);
}

static void flash_write(size_t at, const uint8_t *data, size_t len)
{
    size_t i;
    for (i = 0; i < len && !worn; i++)
        flash[at + i] &= data[i];
}

static void flash_copy(size_t from, size_t to)
{
    flash_write(to, flash + from, SECTOR);
}

/* What the list of tags showed: the number of tags, their types added up, and their last byte. */
static struct { size_t count; uint32_t types; uint8_t last; } shown;

static void show(uint16_t type, const uint8_t *content, size_t len)
{
    shown.count++;
    shown.types += type;
    shown.last = len > 0 ? content[len - 1] : 0;
}

void carry_out(frondicare_answer a);
bool power_up_by_steps(void);
bool power_up_by_run(void);
bool list_tags(const uint8_t *header, size_t header_len);
#include "samples.h" /* made by tests/c/samples.py */

static bool (*const samples[])(void) = { power_up_by_steps, power_up_by_run };

/* power_up_by_run without its loop. */
static frondicare_answer shortest(void)
{
    frondicare_step_counts counts = { 0, 0, 0, 0 };
    return frondicare_run_on(flash, &board, is_signed(BOOT), is_signed(UPDATE), 4096, &counts);
}

/* What a cut leaves of a step: nothing is begun, or an erase or a copy leaves these bytes in its sector. */
enum { NOT_BEGUN, ZEROS, HALF, NOISE, WAYS };

static void tear(frondicare_answer due, int way)
{
    uint8_t *sector = flash + (due.op == FRONDICARE_COPY ? due.to : due.at);
    size_t i, length = way == HALF ? SECTOR / 2 : SECTOR;
    if (way == NOT_BEGUN || due.op == FRONDICARE_BYTE || due.op == FRONDICARE_MARK)
        return;
    for (i = 0; i < length; i++)
        sector[i] = way == ZEROS ? 0 : way == HALF ? 0xff : (uint8_t)(i * 89 + 7);
    sector[SECTOR - 1] = 0; /* no closing bytes */
}

/* A power-up from this flash that is cut on the step after so many, which is then torn. False where it ends before. */
static bool cut(const uint8_t *from, int steps, int way)
{
    frondicare_answer a;
    memcpy(flash, from, FLASH);
    a = frondicare_next_step_on(flash, &board, is_signed(BOOT), is_signed(UPDATE));
    for (; steps > 0 && a.kind == FRONDICARE_STEP; steps--) {
        check(frondicare_carry_out_on(flash, &board, a) == 0, "a step that was answered is accepted");
        a = frondicare_next_step_on(flash, &board, is_signed(BOOT), is_signed(UPDATE));
    }
    if (steps > 0 || a.kind == FRONDICARE_BOOT)
        return false;
    tear(a, way);
    return true;
}

/* From the flash as it is now, each sample ends with the images of the start exchanged, on trial. */
static void ends_well(const uint8_t *start)
{
    uint8_t now[FLASH];
    size_t i;
    memcpy(now, flash, FLASH);
    for (i = 0; i < 2; i++) {
        memcpy(flash, now, FLASH);
        check(samples[i]() && has_states("\x10" "BOOT", "\x30" "BOOT")
              && memcmp(flash + BOOT, start + UPDATE, IMAGE) == 0 && memcmp(flash + UPDATE, start + BOOT, IMAGE) == 0,
              i == 0 ? "cut, by steps" : "cut, by a run");
    }
}

/* Every cut, and every second cut after it. Answers how often the shortest loader undoes what was cut, or refuses. */
static int cut_everywhere(const uint8_t *start)
{
    uint8_t once[FLASH];
    int way, first = 0, second, lost = 0;
    for (way = 0; way < WAYS; way++)
        for (first = 0; cut(start, first, way); first++) {
            memcpy(once, flash, FLASH);
            ends_well(start);
            for (second = 0; cut(once, second, (first + second) % WAYS); second++)
                ends_well(start);
            memcpy(flash, once, FLASH);
            lost += !says(shortest(), FRONDICARE_BOOT, 0) || memcmp(flash + BOOT, start + UPDATE, IMAGE) != 0;
        }
    check(first >= 20, "twenty steps and more");
    return lost;
}

/* A good update is cut after three steps; the shortest loader undoes it, with no reason. */
static void lost(const uint8_t *start)
{
    check(cut(start, 3, NOT_BEGUN) && says(shortest(), FRONDICARE_BOOT, 0) && in_boot(OLD), "the shortest loader");
}

/* An update is not taken where its own signature is damaged, and is where BOOT's is. */
static void one_signed(const uint8_t *start)
{
    size_t i;
    for (i = 0; i < 2; i++) {
        memcpy(flash, start, FLASH);
        flash[UPDATE + SIGNATURE] ^= 1;
        check(samples[i]() && in_boot(OLD), "UPDATE not signed");
        memcpy(flash, start, FLASH);
        flash[BOOT + SIGNATURE] ^= 1;
        check(samples[i]() && in_boot(NEW), "BOOT not signed");
    }
}

/* The new image is damaged after its first sector is exchanged: the swap is finished, BOOT doesn't pass, and the same
 * power-up returns to the old one. Where that is damaged too, there is none to be started. */
static void damaged_in_mid_swap(const uint8_t *start)
{
    enum { STEPS = 8, OLD_END = 511 };
    size_t i;
    for (i = 0; i < 2; i++) {
        check(cut(start, STEPS, NOT_BEGUN) && flash[UPDATE_FLAGS] == 0xf0, "one sector is exchanged");
        flash[BOOT + SIGNATURE] ^= 1;
        check(samples[i]() && in_boot(OLD) && has_states("\x10" "BOOT", "\x30" "BOOT"), "damaged in mid-swap");
        check(cut(start, STEPS, NOT_BEGUN), "again");
        flash[BOOT + SIGNATURE] ^= 1;
        flash[BOOT + OLD_END] ^= 1;
        check(!samples[i]() && has_states("\x10" "BOOT", "\x30" "BOOT"), "both damaged in mid-swap");
    }
}

/* Each sample ends where it can't go on, and says so. */
static void given_up(const uint8_t *start)
{
    memcpy(flash, start, FLASH);
    flash[UPDATE_FLAGS] = 0xf5;
    check(frondicare_in_mid_swap_on(flash, &board) && !power_up_by_run() && !power_up_by_steps(), "flags ill-formed");
    memcpy(flash, start, FLASH);
    worn = true;
    check(!power_up_by_steps(), "a flash that is not written");
    worn = false;
}

/* A written header has six tags; with its last one a byte longer than the header, five and then none. */
static void listed(void)
{
    uint8_t header[256];
    memcpy(header, flash + UPDATE, 256);
    check(list_tags(header, 256) && shown.count == 6 && shown.types == 0x66, "all tags are listed");
    check(shown.last == header[SIGNATURE + 63], "with their contents");
    header[SIGNATURE - 2] = 256 - SIGNATURE + 1;
    memset(&shown, 0, sizeof shown);
    check(!list_tags(header, 256) && shown.count == 5 && shown.types == 0x46, "a bad tag ends the list");
    check(!list_tags(header, 255) && shown.count == 5, "a short header has none");
}

int main(void)
{
    static uint8_t start[FLASH];
    int losses;
    staged();
    memcpy(flash + UPDATE_STATE, "\x70" "BOOT", 5);
    memcpy(start, flash, FLASH);
    listed();
    lost(start);
    one_signed(start);
    damaged_in_mid_swap(start);
    given_up(start);
    losses = cut_everywhere(start);
    memcpy(flash, start, FLASH);
    check(power_up_by_run() && in_boot(NEW), "update");
    memcpy(start, flash, FLASH);
    losses += cut_everywhere(start);
    check(losses > 0, "the shortest loader loses some");
    printf("the shortest loader over a run: %d cuts lost an update or a return\n", losses);
    return report("C samples");
}
