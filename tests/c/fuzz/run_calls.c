#include "boards.h"
#include "fuzz.h"
#include "random.h"
#include "seen.h"
#include <string.h>

enum { MOST_STEPS = 4096 };

/* The largest counter with room for a run. */
static const uint32_t most_count = 4294963199;
static lent counts;

void open_counts(void)
{
    lent_open(&counts, "record of steps", sizeof(frondicare_step_counts));
}

/* From 0 on, around the limit, or any; mostly with room. */
static frondicare_step_counts *any_counts(void)
{
    uint32_t values[4];
    size_t i;
    for (i = 0; i < 4; i++)
        values[i] = percent(3) ? any_u32(most_count + 1) : percent(50) ? 0 : most_count - (uint32_t)up_to(2);
    memcpy(lend(&counts, sizeof values), values, sizeof values);
    return (frondicare_step_counts *)(void *)to_write(&counts);
}

static frondicare_step_counts *expected_counts(void)
{
    return (frondicare_step_counts *)(void *)to_expect(&counts);
}

static bool is_untouched(const lent *l)
{
    return memcmp(l->writable.near + l->start, l->before, l->len) == 0;
}

/* To the end, a few steps, or any number. */
static uint32_t any_number(void)
{
    if (percent(40))
        return MOST_STEPS;
    return percent(80) ? (uint32_t)up_to(40) : any_u32(MOST_STEPS + 1);
}

/* A refusal before the first step changes nothing; a later one is refused with steps counted. */
void call_run(void)
{
    plain_board b = any_board();
    uint32_t number = any_number();
    uint8_t *f = to_write(&flash);
    frondicare_step_counts *record = any_counts();
    frondicare_answer answer, expected;
    bool refused;
    answer = frondicare_run(f, b.flash_len, NUMBERS_OF(b.geometry), b.boot_signed, b.update_signed, number, record);
    expected = plain_run(to_expect(&flash), b.flash_len, NUMBERS_OF(b.geometry), b.boot_signed, b.update_signed, number,
                         expected_counts());
    same_answer(answer, expected);
    refused = answer.kind == FRONDICARE_REFUSED && is_untouched(&counts);
    lent_check(&flash, refused);
    lent_check(&counts, refused);
}

void call_most_steps(void)
{
    size_t count = percent(50) ? up_to(70) : any_size(64);
    uint32_t steps = frondicare_most_steps(count), expected = plain_most_steps(count);
    if (steps != expected)
        fail("%zu sectors: %u steps, not %u", count, steps, expected);
    seen(steps == 0 ? "none" : "some");
}

void call_add_step(void)
{
    frondicare_step_counts *record = any_counts();
    uint32_t op = percent(50) ? (uint32_t)up_to(FRONDICARE_MARK) : any_u32(FRONDICARE_MARK + 1);
    uint32_t number = frondicare_add_step(record, op), expected = plain_add_step(expected_counts(), op);
    same_number_of_step(number, expected, op);
    lent_check(&counts, number != 0);
}
