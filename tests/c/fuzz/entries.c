#include "fuzz.h"

/* Document 01's numbers, and what answers hold beside them, in the words of answers.c. */
static const char *const hashed[] = { "0", "12", NULL };
static const char *const verified[] = { "0", "10", "11", "12", "13", "14", "15", "16", "17", "18", "30", NULL };
static const char *const versions[] = { "0", "10", "11", "12", "13", "14", "15", "16", "30", NULL };
static const char *const found[] = { "0", "10", "13", "25", NULL };
static const char *const listed[] = { "0", "10", "13", "25", "31", NULL };
static const char *const to_sign[] = { "0", "12", "26", "27", NULL };
static const char *const written[] = { "0", "10", "12", "26", "27", NULL };
static const char *const placed[] = { "0", "1", "2", "3", "4", NULL };
static const char *const carried_out[] = { "erase", "copy", "byte", "mark", "1", "2", "3", "4", "24", NULL };
static const char *const added[] = { "erase", "copy", "byte", "mark", "24", "28", NULL };
static const char *const triggered[] = { "erase", "byte", "mark", "finished", "1", "2", "3", "4", "21", "22", NULL };
static const char *const states[] = {
    "state 00", "state 10", "state 30", "state 70", "state FF", "other state", "no state", "1", "2", "3", "4", NULL,
};
static const char *const yes_or_no[] = { "yes", "no", NULL };
static const char *const steps[] = { "none", "some", NULL };
static const char *const confirmed[] = { "byte", "finished", "1", "2", "3", "4", "22", "23", NULL };

#define DECIDED \
    "erase", "copy", "byte", "mark", "last byte", "boot 0", "boot 11", "boot 12", "boot 13", "boot 14", "boot 15", \
    "boot 16", "boot 17", "boot 18", "boot 19", "boot 30", "1", "2", "3", "4", "11", "12", "13", "14", "15", "16", \
    "17", "18", "20", "30"

static const char *const decided[] = { DECIDED, NULL };
static const char *const run[] = { DECIDED, "28", "29", NULL };

const entry entries[] = {
    { "frondicare_digest", call_digest, hashed },
    { "frondicare_digest_of_two", call_digest_of_two, hashed },
    { "frondicare_verify", call_verify, verified },
    { "frondicare_find_tag", call_find_tag, found },
    { "frondicare_next_tag", call_next_tag, listed },
    { "frondicare_version_of", call_version_of, versions },
    { "frondicare_digest_to_sign", call_digest_to_sign, to_sign },
    { "frondicare_write_header", call_write_header, written },
    { "frondicare_check_geometry", call_check_geometry, placed },
    { "frondicare_apply_step", call_apply_step, carried_out },
    { "frondicare_next_step", call_next_step, decided },
    { "frondicare_trigger", call_trigger, triggered },
    { "frondicare_confirm", call_confirm, confirmed },
    { "frondicare_boot_state", call_boot_state, states },
    { "frondicare_update_state", call_update_state, states },
    { "frondicare_in_mid_swap", call_in_mid_swap, yes_or_no },
    { "frondicare_most_steps", call_most_steps, steps },
    { "frondicare_run", call_run, run },
    { "frondicare_add_step", call_add_step, added },
};

const size_t entry_count = sizeof entries / sizeof *entries;
