/* Calls of every entry with random arguments, compared with the plain implementation's. */
#ifndef FUZZ_H
#define FUZZ_H

#include "frondicare.h"

/* An entry: one random call of it, and all that it may answer. */
typedef struct {
    const char *name;
    void (*call)(void);
    const char *const *answers;
} entry;

extern const entry entries[];
extern const size_t entry_count;

/* Which of them is called. */
extern size_t current;

/* Random calls. Each fails where the library and the plain implementation differ. */
void call_digest(void);
void call_digest_of_two(void);
void call_verify(void);
void call_find_tag(void);
void call_next_tag(void);
void call_version_of(void);
void call_digest_to_sign(void);
void call_write_header(void);
void call_check_geometry(void);
void call_apply_step(void);
void call_next_step(void);
void call_trigger(void);
void call_confirm(void);
void call_boot_state(void);
void call_update_state(void);
void call_in_mid_swap(void);
void call_most_steps(void);
void call_run(void);
void call_add_step(void);

/* Opens what the calls lend. */
void open_messages(void);
void open_images(void);
void open_writing(void);
void open_boards(void);
void open_counts(void);

/* Says what is wrong, with the seed, the call and its entry, and ends. */
void fail(const char *format, ...) __attribute__((format(printf, 1, 2), noreturn));

/* Both numbers are the same. Counts it, in words where it is 0 and has a step. */
void same_number(uint32_t number, uint32_t expected);
void same_number_of_step(uint32_t number, uint32_t expected, uint32_t op);

/* Both answers are the same in every field, and the fields that their kind doesn't use are 0. Counts it. */
void same_answer(frondicare_answer answer, frondicare_answer expected);

#endif
