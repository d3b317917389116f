/* Stands for what the gateway sends: an image of any version, signed. */
#ifndef IMAGE_H
#define IMAGE_H

#include "board.h"
#include <stddef.h>
#include <stdint.h>

enum { LONGEST_IMAGE = FRONDICARE_HEADER_SIZE + IMAGE_SIZE };

/* The image with so many bytes of firmware, up to one header too many for a slot. */
void make_image(uint8_t image[LONGEST_IMAGE], uint32_t version, size_t firmware_len);

#endif
