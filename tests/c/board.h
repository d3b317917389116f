/* Document 01's example, for the tests of the loader's entries: a flash with an old image in BOOT and a new one in
 * UPDATE, and what an answer says. Inline, since not every test uses all. */
#ifndef BOARD_H
#define BOARD_H

#include "check.h"

/* The images' bytes of firmware. */
enum { OLD = 0x11, NEW = 0x22 };

static uint8_t flash[FLASH];

/* A signature is the digest, twice. */
static void write_image(size_t slot, uint32_t version, uint8_t byte)
{
    static const uint8_t hint[32];
    frondicare_fields fields = { version, 0, 0 };
    uint8_t *firmware = flash + slot + 256, signature[64];
    memset(firmware, byte, 256);
    check(frondicare_digest_to_sign(fields, firmware, 256, NULL, 0, hint, signature) == 0, "digest");
    memcpy(signature + 32, signature, 32);
    check(frondicare_write_header(flash + slot, 256, fields, firmware, 256, NULL, 0, hint, signature) == 0, "image");
}

/* Not yet triggered. */
static void staged(void)
{
    memset(flash, 0xff, FLASH);
    write_image(BOOT, 1, OLD);
    write_image(UPDATE, 2, NEW);
}

/* Stands for the board's signature checker, and like it goes by the header where it lies. */
static inline bool is_signed(size_t slot)
{
    const uint8_t *header = flash + slot;
    frondicare_tag digest = frondicare_find_tag(header, 256, FRONDICARE_TAG_DIGEST);
    frondicare_tag signature = frondicare_find_tag(header, 256, FRONDICARE_TAG_SIGNATURE);
    return digest.len == 32 && signature.len == 64 && memcmp(header + signature.at, header + digest.at, 32) == 0
        && memcmp(header + signature.at + 32, header + digest.at, 32) == 0;
}

/* Whether BOOT holds the image with this byte. */
static inline bool in_boot(uint8_t byte)
{
    return flash[BOOT + 256] == byte && flash[BOOT + 511] == byte;
}

static inline bool has_states(const char *boot, const char *update)
{
    return memcmp(flash + BOOT_STATE, boot, 5) == 0 && memcmp(flash + UPDATE_STATE, update, 5) == 0;
}

/* The kind and the number of an answer, and that nothing else is in it. */
static inline bool says(frondicare_answer a, uint32_t kind, uint32_t number)
{
    return a.kind == kind && a.number == number && a.op == 0 && a.value == 0 && a.at == 0 && a.to == 0;
}

#endif
