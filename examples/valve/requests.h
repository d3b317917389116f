/* What the running firmware asks for: an update to an image that comes in pieces, and to stay. Where an answer is
 * refused, the flash is as it was; otherwise it is finished, or a step is due that the flash doesn't take. */
#ifndef REQUESTS_H
#define REQUESTS_H

#include "frondicare.h"

/* Erases UPDATE. Refused where the image there is still needed. */
frondicare_answer clear_update(void);

/* Writes a piece, at its offset in the image. False, and nothing is written, where it would pass the slot's image. */
bool write_update(size_t at, const uint8_t *data, size_t len);

/* The image in UPDATE is whole: it is verified, and the next power-up is to swap it in. Where it doesn't pass, it is
 * refused with the verdict's number, and nothing is triggered. */
frondicare_answer trigger(frondicare_step_counts *counts);

/* The image on trial works. */
frondicare_answer confirm(frondicare_step_counts *counts);

#endif
