/* The valve's signature checker. This one is a stand-in and protects nothing: a signature is the digest, twice. */
#ifndef CHECKER_H
#define CHECKER_H

#include <stdbool.h>
#include <stdint.h>

/* Whether the digest in an image's header is signed. The loader itself compares that digest with the firmware. */
bool is_signed(const uint8_t *image);

/* As the packing desk signs. */
void sign(const uint8_t digest[32], uint8_t signature[64]);

#endif
