/* The C header as a loader uses it: writes a header, verifies the image, finds its tags, exchanges a sector of
 * two slots, and sees that a refused call leaves its buffer and the flash. */
#include "check.h"

enum { HEADER = 256, FIRMWARE = 1000, PAINT = 0xa5 };

static const frondicare_fields fields = { 0x01020304, 0x1112131415161718, 0x2122 };
static const uint8_t custom[] = { 0x42, 0x00, 0x03, 0x00, 'a', 'b', 'c' };
static const uint8_t padding[] = { 0xff };
static uint8_t image[HEADER + FIRMWARE];
static uint8_t hint[32], signature[64];
static uint8_t flash[FLASH];

static uint32_t write_header(uint8_t *buffer, size_t length, const uint8_t *run, size_t run_length)
{
    return frondicare_write_header(buffer, length, fields, image + HEADER, FIRMWARE, run, run_length, hint, signature);
}

/* A tag is found at its place, and its content is this. */
static bool found(uint16_t type, size_t at, const void *content, size_t length)
{
    frondicare_tag tag = frondicare_find_tag(image, sizeof image, type);
    return tag.number == 0 && tag.at == at && tag.len == length && memcmp(image + tag.at, content, length) == 0;
}

static void written_and_read(void)
{
    static const uint8_t version[] = { 0x04, 0x03, 0x02, 0x01 };
    static const uint8_t timestamp[] = { 0x18, 0x17, 0x16, 0x15, 0x14, 0x13, 0x12, 0x11 };
    static const uint8_t type[] = { 0x22, 0x21 };
    uint8_t digest[32];
    frondicare_tag absent;
    uint32_t to_sign =
        frondicare_digest_to_sign(fields, image + HEADER, FIRMWARE, custom, sizeof custom, hint, digest);
    check(to_sign == 0, "to sign");
    check(write_header(image, HEADER, custom, sizeof custom) == 0, "write");
    check(frondicare_verify(image, sizeof image, true) == 0, "verify");
    check(frondicare_verify(image, sizeof image, false) == 18, "verify without a signature");
    check(frondicare_verify(image, sizeof image - 1, true) == 12, "verify a cut image");
    check(found(0x0001, 12, version, sizeof version), "version");
    check(found(0x0002, 20, timestamp, sizeof timestamp), "timestamp");
    check(found(0x0030, 32, type, sizeof type), "firmware type");
    check(found(0x0042, 38, "abc", 3), "custom tag");
    check(found(0x0003, 81, digest, sizeof digest), "the digest to sign is the one in the header");
    check(found(0x0020, 117, signature, sizeof signature), "signature");
    absent = frondicare_find_tag(image, HEADER, 0x0043);
    check(absent.number == 25 && absent.at == 0 && absent.len == 0, "absent tag");
    image[HEADER] ^= 1;
    check(frondicare_verify(image, sizeof image, true) == 17, "verify damaged firmware");
    image[HEADER] ^= 1;
}

/* The digest covers no tag behind its own: one that is added there is found in an image that passes. */
static void added_behind_the_digest(void)
{
    static const uint8_t tag[] = { 0x43, 0x00, 0x01, 0x00, 'x' };
    enum { CUSTOM = 38, BEHIND = 181 };
    check(image[BEHIND - 1] == 0x44 && image[BEHIND] == 0xff, "padding follows the signature");
    memcpy(image + BEHIND, tag, sizeof tag);
    check(frondicare_verify(image, sizeof image, true) == 0 && found(0x0043, BEHIND + 4, "x", 1), "an added tag");
    memset(image + BEHIND, 0xff, sizeof tag);
    image[CUSTOM] ^= 1;
    check(frondicare_verify(image, sizeof image, true) == 17, "a tag changed before the digest");
    image[CUSTOM] ^= 1;
}

/* The version's tag moved behind the signature's, where it could be altered unseen. */
static void version_behind_the_digest(void)
{
    enum { VERSION = 8, TAG = 8, END = 181 };
    uint8_t kept[HEADER];
    frondicare_version version;
    memcpy(kept, image, HEADER);
    memmove(image + VERSION, kept + VERSION + TAG, END - VERSION - TAG);
    memcpy(image + END - TAG, kept + VERSION, TAG);
    version = frondicare_version_of(image, sizeof image);
    check(frondicare_find_tag(image, sizeof image, 0x0001).at == END - TAG + 4, "a version behind the signature");
    check(frondicare_verify(image, sizeof image, true) == 30, "verify a version that the digest doesn't cover");
    check(version.number == 30 && version.version == 0, "an uncovered version is none");
    memcpy(image, kept, HEADER);
}

static void refused(void)
{
    uint8_t buffer[HEADER + 1], untouched[HEADER + 1], digest[32];
    memset(buffer, PAINT, sizeof buffer);
    memset(untouched, PAINT, sizeof untouched);
    memset(digest, PAINT, sizeof digest);
    check(write_header(buffer, HEADER - 1, custom, 0) == 10, "buffer too short");
    check(write_header(buffer, HEADER + 1, custom, 0) == 10, "buffer too long");
    check(frondicare_write_header(buffer, HEADER, fields, image, 0, custom, 0, hint, signature) == 12, "no firmware");
    check(write_header(buffer, HEADER, image, 83) == 26, "83 custom bytes");
    check(write_header(buffer, HEADER, padding, 1) == 27, "padding in the custom run");
    check(frondicare_digest_to_sign(fields, image, 1, padding, 1, hint, digest) == 27, "to sign, padding");
    check(memcmp(buffer, untouched, sizeof buffer) == 0, "buffer after refusals");
    check(memcmp(digest, untouched, sizeof digest) == 0, "digest after a refusal");
}

static uint32_t step(uint32_t op, size_t at, size_t to, uint32_t value)
{
    return frondicare_apply_step(flash, FLASH, SECTOR, SECTORS, BOOT, UPDATE, SWAP, op, at, to, value);
}

/* So many bytes of the flash from a place on have this value. */
static bool holds(size_t at, uint8_t value, size_t length)
{
    while (length > 0 && flash[at] == value) {
        at++;
        length--;
    }
    return length == 0;
}

/* Sector 0 of two slots changes places, as an update begins; then BOOT's trailer is closed. */
static void exchanged(void)
{
    memset(flash, 0xff, FLASH);
    memset(flash + BOOT, 0x11, SECTOR);
    memset(flash + UPDATE, 0x22, SECTOR);
    check(frondicare_check_geometry(FLASH, SECTOR, SECTORS, BOOT, UPDATE, SWAP) == 0, "geometry");
    check(step(FRONDICARE_COPY, UPDATE, SWAP, 0) == 0, "copy to SWAP");
    check(step(FRONDICARE_BYTE, UPDATE_FLAGS, 0, 0xf7) == 0, "flag");
    check(step(FRONDICARE_ERASE, UPDATE, 0, 0) == 0 && holds(UPDATE, 0xff, SECTOR), "erase");
    check(step(FRONDICARE_COPY, BOOT, UPDATE, 0) == 0 && step(FRONDICARE_ERASE, BOOT, 0, 0) == 0, "copy to UPDATE");
    check(step(FRONDICARE_COPY, SWAP, BOOT, 0) == 0, "copy to BOOT");
    check(step(FRONDICARE_BYTE, BOOT_STATE, 0, 0x10) == 0, "state");
    check(step(FRONDICARE_MARK, BOOT_STATE + 1, 0, 0) == 0, "mark");
    check(holds(BOOT, 0x22, SECTOR) && holds(UPDATE, 0x11, SECTOR) && holds(SWAP, 0x22, SECTOR), "sectors exchanged");
    check(holds(SECTOR, 0xff, BOOT_STATE - SECTOR), "BOOT up to its state");
    check(memcmp(flash + BOOT_STATE, "\x10" "BOOT", 5) == 0, "BOOT's state and closing bytes");
    check(holds(UPDATE + SECTOR, 0xff, UPDATE_FLAGS - UPDATE - SECTOR), "UPDATE up to its flags");
    check(flash[UPDATE_FLAGS] == 0xf7 && holds(UPDATE_STATE, 0xff, 5), "UPDATE's flags and state");
    check(step(FRONDICARE_BYTE, UPDATE_FLAGS, 0, 0xfb) == 0 && flash[UPDATE_FLAGS] == 0xf3, "bits are only cleared");
}

static void refused_geometry(void)
{
    check(frondicare_check_geometry(FLASH, 255, SECTORS, BOOT, UPDATE, SWAP) == 1, "sector size");
    check(frondicare_check_geometry(FLASH, SECTOR, 65, BOOT, UPDATE, SWAP) == 2, "sector count");
    check(frondicare_check_geometry(FLASH - 1, SECTOR, SECTORS, BOOT, UPDATE, SWAP) == 3, "flash too short");
    check(frondicare_check_geometry(FLASH, SECTOR, SECTORS, SIZE_MAX - 255, UPDATE, SWAP) == 3, "BOOT near 2^64");
    check(frondicare_check_geometry(FLASH, SECTOR, SECTORS, BOOT, UPDATE, 1280) == 4, "areas overlap");
}

static void refused_step(void)
{
    uint8_t before[FLASH];
    memset(flash, PAINT, FLASH);
    memcpy(before, flash, FLASH);
    check(step(FRONDICARE_ERASE, 1, 0, 0) == 24, "erase within a sector");
    check(step(FRONDICARE_COPY, SWAP, SWAP, 0) == 24, "copy onto itself");
    check(step(FRONDICARE_COPY, SWAP, SIZE_MAX - 255, 0) == 24, "copy near 2^64");
    check(step(FRONDICARE_BYTE, BOOT, 0, 0) == 24, "byte in an image");
    check(step(FRONDICARE_BYTE, BOOT_STATE, 0, 256) == 24, "byte of 9 bits");
    check(step(FRONDICARE_MARK, BOOT_STATE, 0, 0) == 24, "mark at a state");
    check(step(FRONDICARE_MARK + 1, BOOT, 0, 0) == 24, "no such step");
    check(frondicare_apply_step(flash, FLASH, SECTOR, SECTORS, BOOT, 512, SWAP, 4, BOOT, 0, 0) == 4, "4 before 24");
    check(memcmp(flash, before, FLASH) == 0, "flash after refusals");
}

int main(void)
{
    size_t i;
    for (i = 0; i < FIRMWARE; i++)
        image[HEADER + i] = (uint8_t)(7 * i);
    memset(hint, 0x33, sizeof hint);
    memset(signature, 0x44, sizeof signature);
    written_and_read();
    added_behind_the_digest();
    version_behind_the_digest();
    refused();
    exchanged();
    refused_geometry();
    refused_step();
    return report("C header");
}
