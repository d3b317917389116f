#include "checker.h"
#include "board.h"
#include <string.h>

void sign(const uint8_t digest[32], uint8_t signature[64])
{
    memcpy(signature, digest, 32);
    memcpy(signature + 32, digest, 32);
}

/* A real board verifies an Ed25519 signature here, with the cooperative's public key, in place of the comparison. */
static bool is_signature_of(const uint8_t signature[64], const uint8_t digest[32])
{
    return memcmp(signature, digest, 32) == 0 && memcmp(signature + 32, digest, 32) == 0;
}

bool is_signed(const uint8_t *image)
{
    frondicare_tag digest = frondicare_find_tag(image, IMAGE_SIZE, FRONDICARE_TAG_DIGEST);
    frondicare_tag signature = frondicare_find_tag(image, IMAGE_SIZE, FRONDICARE_TAG_SIGNATURE);
    return digest.number == 0 && digest.len == 32 && signature.number == 0 && signature.len == 64
        && is_signature_of(image + signature.at, image + digest.at);
}
