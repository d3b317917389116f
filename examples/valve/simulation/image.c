#include "simulation/image.h"
#include "checker.h"
#include "simulation/file.h"

/* Bytes that differ from version to version and from sector to sector. */
static void fill(uint8_t *firmware, size_t len, uint32_t version)
{
    uint32_t state = version;
    size_t i;
    for (i = 0; i < len; i++) {
        state = state * 1664525 + 1013904223;
        firmware[i] = (uint8_t)(state >> 24);
    }
}

void make_image(uint8_t image[LONGEST_IMAGE], uint32_t version, size_t firmware_len)
{
    static const uint8_t hint[32];
    frondicare_fields fields = { version, 0, 0 };
    uint8_t *firmware = image + FRONDICARE_HEADER_SIZE, digest[32], signature[64];
    uint32_t number;
    require(firmware_len <= IMAGE_SIZE, "more firmware than the gateway has");
    fill(firmware, firmware_len, version);
    number = frondicare_digest_to_sign(fields, firmware, firmware_len, NULL, 0, hint, digest);
    sign(digest, signature);
    number |= frondicare_write_header(image, FRONDICARE_HEADER_SIZE, fields, firmware, firmware_len, NULL, 0, hint,
                                      signature);
    require(number == 0, "no firmware");
}
