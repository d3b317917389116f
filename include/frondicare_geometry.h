/* The six numbers of a flash as one struct, and each entry of frondicare.h that takes them as NAME_on(flash, &geometry,
 * ..), with the same answer; frondicare_apply_step as frondicare_carry_out_on, which takes an answer's step. C beside
 * the library: nothing more is to be linked. */
#ifndef FRONDICARE_GEOMETRY_H
#define FRONDICARE_GEOMETRY_H

#include "frondicare.h"

/* In the order in which the entries take them. */
typedef struct {
    size_t flash_len;
    size_t sector_size;  /* 256, 512, 1024, 2048 or 4096 */
    size_t sector_count; /* an image's sectors, 1 to 64; a slot has one more, the trailer */
    size_t boot;         /* offsets in the flash */
    size_t update;
    size_t swap;
} frondicare_geometry;

static inline uint32_t frondicare_check_geometry_on(const frondicare_geometry *g)
{
    return frondicare_check_geometry(g->flash_len, g->sector_size, g->sector_count, g->boot, g->update, g->swap);
}

static inline frondicare_answer frondicare_next_step_on(const uint8_t *flash_base, const frondicare_geometry *g,
                                                        bool boot_signed, bool update_signed)
{
    return frondicare_next_step(flash_base, g->flash_len, g->sector_size, g->sector_count, g->boot, g->update, g->swap,
                                boot_signed, update_signed);
}

/* Carries out the step of an answer on a flash that is memory, by frondicare_apply_step. Where the answer has none it
 * is 24, and nothing changes. */
static inline uint32_t frondicare_carry_out_on(uint8_t *flash_base, const frondicare_geometry *g, frondicare_answer a)
{
    if (a.kind != FRONDICARE_STEP && a.kind != FRONDICARE_LAST_STEP)
        return FRONDICARE_ERR_STEP;
    return frondicare_apply_step(flash_base, g->flash_len, g->sector_size, g->sector_count, g->boot, g->update, g->swap,
                                 a.op, a.at, a.to, a.value);
}

/* frondicare.h's sample shows what comes before it. */
static inline frondicare_answer frondicare_run_on(uint8_t *flash_base, const frondicare_geometry *g,
                                                  bool boot_signed, bool update_signed,
                                                  uint32_t most_steps, frondicare_step_counts *record)
{
    return frondicare_run(flash_base, g->flash_len, g->sector_size, g->sector_count, g->boot, g->update, g->swap,
                          boot_signed, update_signed, most_steps, record);
}

static inline bool frondicare_in_mid_swap_on(const uint8_t *flash_base, const frondicare_geometry *g)
{
    return frondicare_in_mid_swap(flash_base, g->flash_len, g->sector_size, g->sector_count,
                                  g->boot, g->update, g->swap);
}

static inline frondicare_answer frondicare_trigger_on(const uint8_t *flash_base, const frondicare_geometry *g)
{
    return frondicare_trigger(flash_base, g->flash_len, g->sector_size, g->sector_count, g->boot, g->update, g->swap);
}

static inline frondicare_answer frondicare_confirm_on(const uint8_t *flash_base, const frondicare_geometry *g)
{
    return frondicare_confirm(flash_base, g->flash_len, g->sector_size, g->sector_count, g->boot, g->update, g->swap);
}

static inline frondicare_slot_state frondicare_boot_state_on(const uint8_t *flash_base, const frondicare_geometry *g)
{
    return frondicare_boot_state(flash_base, g->flash_len, g->sector_size, g->sector_count,
                                 g->boot, g->update, g->swap);
}

static inline frondicare_slot_state frondicare_update_state_on(const uint8_t *flash_base, const frondicare_geometry *g)
{
    return frondicare_update_state(flash_base, g->flash_len, g->sector_size, g->sector_count,
                                   g->boot, g->update, g->swap);
}

#endif
