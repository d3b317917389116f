/* A null pointer with the length 0, in the place of each pointer that has a length: the calls answer and write what
 * they do with a pointer to something and the length 0. The gate runs it under valgrind and with sanitizers too. (No
 * proof speaks of it. The code handed to LLVM says of no pointer that it isn't null or has memory behind it.) */
#include "check.h"

/* All that the calls answer and write, one number after the other. */
static uint64_t seen[2][2000];
static uint64_t *next;

static void see(uint64_t x) { *next++ = x; }

static void see_bytes(const uint8_t *bytes, size_t len)
{
    while (len-- > 0)
        see(*bytes++);
}

static void see_answer(frondicare_answer a)
{
    see(a.kind);
    see(a.number);
    see(a.op);
    see(a.value);
    see(a.at);
    see(a.to);
}

static void see_state(frondicare_slot_state s)
{
    see(s.number);
    see(s.state);
}

static void of_digests(const uint8_t *none)
{
    static const uint8_t abc[] = { 'a', 'b', 'c' };
    uint8_t digest[32];
    see(frondicare_digest(none, 0, digest));
    see_bytes(digest, 32);
    see(frondicare_digest_of_two(none, 0, abc, 3, digest));
    see_bytes(digest, 32);
    see(frondicare_digest_of_two(abc, 3, none, 0, digest));
    see_bytes(digest, 32);
    see(frondicare_digest_of_two(none, 0, none, 0, digest));
    see_bytes(digest, 32);
}

static void of_images(const uint8_t *none)
{
    frondicare_tag tag = frondicare_find_tag(none, 0, FRONDICARE_TAG_VERSION);
    frondicare_listed_tag listed = frondicare_next_tag(none, 0, FRONDICARE_FIRST_TAG, true, 0);
    frondicare_version version = frondicare_version_of(none, 0);
    see(listed.number);
    see(listed.type);
    see(listed.at);
    see(listed.len);
    see(listed.next);
    see(tag.number);
    see(tag.at);
    see(tag.len);
    see(version.number);
    see(version.version);
    see(frondicare_verify(none, 0, true));
}

/* Once without custom tags; then what is refused: no buffer, and no firmware, with custom tags and without. */
static void of_writer(uint8_t *none)
{
    static const uint8_t firmware[100], hint[32], signature[64], custom[] = { 0x42, 0, 1, 0, 'x' };
    frondicare_fields f = { 1, 2, 3 };
    uint8_t digest[32] = { 0 }, buffer[256] = { 0 };
    see(frondicare_digest_to_sign(f, firmware, 100, none, 0, hint, digest));
    see_bytes(digest, 32);
    see(frondicare_write_header(buffer, 256, f, firmware, 100, none, 0, hint, signature));
    see_bytes(buffer, 256);
    see(frondicare_digest_to_sign(f, none, 0, custom, 5, hint, digest));
    see(frondicare_digest_to_sign(f, none, 0, none, 0, hint, digest));
    see_bytes(digest, 32);
    see(frondicare_write_header(none, 0, f, firmware, 100, custom, 5, hint, signature));
    see(frondicare_write_header(none, 0, f, none, 0, none, 0, hint, signature));
    see(frondicare_write_header(buffer, 256, f, none, 0, custom, 5, hint, signature));
    see(frondicare_write_header(buffer, 256, f, none, 0, none, 0, hint, signature));
    see_bytes(buffer, 256);
}

/* No area fits a flash of no bytes. */
static void of_flash(uint8_t *none, size_t size, size_t count, size_t boot, size_t update, size_t swap)
{
    frondicare_step_counts counts = { 0, 0, 0, 0 };
    uint32_t op;
    for (op = FRONDICARE_ERASE; op <= FRONDICARE_MARK + 1; op++)
        see(frondicare_apply_step(none, 0, size, count, boot, update, swap, op, boot, swap, 0));
    see_answer(frondicare_next_step(none, 0, size, count, boot, update, swap, true, true));
    see_answer(frondicare_trigger(none, 0, size, count, boot, update, swap));
    see_answer(frondicare_confirm(none, 0, size, count, boot, update, swap));
    see_answer(frondicare_run(none, 0, size, count, boot, update, swap, true, true, 4096, &counts));
    see_state(frondicare_boot_state(none, 0, size, count, boot, update, swap));
    see_state(frondicare_update_state(none, 0, size, count, boot, update, swap));
    see(frondicare_in_mid_swap(none, 0, size, count, boot, update, swap));
    see(counts.erases + counts.copies + counts.bytes + counts.marks);
}

static size_t all(uint8_t *none, uint64_t *to)
{
    next = to;
    of_digests(none);
    of_images(none);
    of_writer(none);
    of_flash(none, SECTOR, SECTORS, BOOT, UPDATE, SWAP);
    of_flash(none, 4096, 64, 0, 0, 0);
    of_flash(none, 0, 0, 0, 0, 0);
    of_flash(none, SECTOR, 65, SIZE_MAX, SIZE_MAX, SIZE_MAX);
    of_flash(none, SECTOR, SECTORS, SIZE_MAX - 255, SIZE_MAX - 255, 0);
    return (size_t)(next - to);
}

int main(void)
{
    static const uint8_t of_nothing[] = { 0xe3, 0xb0, 0xc4, 0x42, 0x98, 0xfc, 0x1c, 0x14 };
    uint8_t something[1] = { 0xa5 };
    size_t i, count = all(something, seen[0]);
    check(all(NULL, seen[1]) == count && count > 700, "as many answers");
    for (i = 0; i < count; i++)
        check(seen[0][i] == seen[1][i], "null, and something of no length");
    for (i = 0; i < sizeof of_nothing; i++)
        check(seen[1][1 + i] == of_nothing[i], "the digest of nothing");
    check(something[0] == 0xa5, "nothing is written");
    return report("C null");
}
