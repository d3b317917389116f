/* The plain Rust implementation of document 01 that the library is compared with, and the generators of input for both,
 * all from tests/rust. Link libplain.a (cargo build in this folder), and the library behind it. */
#ifndef PLAIN_H
#define PLAIN_H

#include "frondicare.h"

/* Each takes and answers what the library's entry of that name does. */
extern __typeof__(frondicare_digest) plain_digest;
extern __typeof__(frondicare_digest_of_two) plain_digest_of_two;
extern __typeof__(frondicare_verify) plain_verify;
extern __typeof__(frondicare_find_tag) plain_find_tag;
extern __typeof__(frondicare_next_tag) plain_next_tag;
extern __typeof__(frondicare_version_of) plain_version_of;
extern __typeof__(frondicare_digest_to_sign) plain_digest_to_sign;
extern __typeof__(frondicare_write_header) plain_write_header;
extern __typeof__(frondicare_check_geometry) plain_check_geometry;
extern __typeof__(frondicare_apply_step) plain_apply_step;
extern __typeof__(frondicare_next_step) plain_next_step;
extern __typeof__(frondicare_trigger) plain_trigger;
extern __typeof__(frondicare_confirm) plain_confirm;
extern __typeof__(frondicare_boot_state) plain_boot_state;
extern __typeof__(frondicare_update_state) plain_update_state;
extern __typeof__(frondicare_in_mid_swap) plain_in_mid_swap;
extern __typeof__(frondicare_most_steps) plain_most_steps;
extern __typeof__(frondicare_run) plain_run;
extern __typeof__(frondicare_add_step) plain_add_step;

typedef struct {
    size_t sector_size, sector_count, boot, update, swap;
} plain_geometry;

typedef struct {
    plain_geometry geometry;
    bool boot_signed, update_signed;
    size_t flash_len;
} plain_board;

typedef struct {
    uint32_t op;
    size_t at, to;
    uint32_t value;
} plain_step;

/* A board in any state that the loader decides on; its flash is put into the room. */
plain_board plain_random_board(uint64_t seed, uint8_t *room, size_t room_len);

/* A step that is often accepted under a geometry, or misses by little. */
plain_step plain_random_step(uint64_t seed, const plain_geometry *geometry);

/* An image, well formed or damaged; a run of custom tags. They are put into the room; the answer is their length. */
size_t plain_random_image(uint64_t seed, uint8_t *room, size_t room_len);
size_t plain_random_custom_run(uint64_t seed, uint8_t *room, size_t room_len);

#endif
