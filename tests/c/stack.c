/* How much stack a call takes: each runs on a stack of its own, painted first, and the paint that is gone is
 * counted. Fails where an answer is wrong or a call takes more than bench/RESULTS.md says. */
#include "stack_calls.h"
#include <stdio.h>
#include <ucontext.h>

enum { ROOM = 64 * 1024, PAINT = 0xa5, MOST_DIGEST = 768, MOST = 1152, MOST_NEXT_STEP = 1408, MOST_RUN = 1600 };

static uint8_t stack[ROOM] __attribute__((aligned(64)));
static ucontext_t main_context, call_context;

static void nothing(void) { }

/* Bytes of the painted stack that a call changed, from its top. */
static size_t used_by(void (*call)(void))
{
    size_t clean = 0;
    memset(stack, PAINT, ROOM);
    getcontext(&call_context);
    call_context.uc_stack.ss_sp = stack;
    call_context.uc_stack.ss_size = ROOM;
    call_context.uc_link = &main_context;
    makecontext(&call_context, call, 0);
    swapcontext(&main_context, &call_context);
    while (clean < ROOM && stack[clean] == PAINT)
        clean++;
    return ROOM - clean;
}

/* 1 where the call refuses or takes more stack than most. */
static int report(const char *name, void (*call)(void), size_t base, size_t most)
{
    size_t used = used_by(call) - base;
    printf("peak stack of %s: %zu bytes\n", name, used);
    return used > most || number != 0;
}

static int report_digest(const char *name, void (*call)(void), size_t base)
{
    /* 1,000 bytes of 'a', by coreutils: head -c 1000 /dev/zero | tr '\0' a | sha256sum */
    static const uint8_t expected[32] = {
        0x41, 0xed, 0xec, 0xe4, 0x2d, 0x63, 0xe8, 0xd9, 0xbf, 0x51, 0x5a, 0x9b, 0xa6, 0x93, 0x2e, 0x1c,
        0x20, 0xcb, 0xc9, 0xf5, 0xa5, 0xd1, 0x34, 0x64, 0x5a, 0xdb, 0x5d, 0xb1, 0xb9, 0x73, 0x7e, 0xa3,
    };
    int failed = report(name, call, base, MOST_DIGEST);
    return failed | (memcmp(digest, expected, 32) != 0);
}

static int report_images(size_t base)
{
    int failed = report_digest("frondicare_digest", one_piece, base);
    failed |= report_digest("frondicare_digest_of_two", two_pieces, base);
    failed |= report("frondicare_digest_to_sign", digest_to_sign, base, MOST);
    failed |= report("frondicare_write_header", write_header, base, MOST);
    failed |= report("frondicare_find_tag", find_tag, base, MOST);
    failed |= report("frondicare_next_tag", next_tag, base, MOST);
    failed |= report("frondicare_version_of", version_of, base, MOST);
    return failed | report("frondicare_verify", verify, base, MOST);
}

static int report_steps(size_t base)
{
    int failed = report("frondicare_check_geometry", check_geometry, base, MOST);
    failed |= report("frondicare_apply_step, erase", erase, base, MOST);
    failed |= report("frondicare_apply_step, copy", copy, base, MOST);
    failed |= report("frondicare_apply_step, byte", byte, base, MOST);
    failed |= report("frondicare_apply_step, mark", mark, base, MOST);
    failed |= report("frondicare_most_steps", most_steps, base, MOST);
    return failed | report("frondicare_add_step", add_step, base, MOST);
}

static int report_update(size_t base)
{
    int failed;
    fill_slots();
    failed = report("frondicare_next_step, boot", boot, base, MOST_NEXT_STEP);
    failed |= report("frondicare_trigger", trigger, base, MOST);
    close_slot(UPDATE + SECTOR, "\x70" "BOOT");
    failed |= report("frondicare_update_state", update_state, base, MOST);
    failed |= report("frondicare_next_step, update", step, base, MOST_NEXT_STEP);
    flash[UPDATE + 2 * SECTOR - 6] = 0xf7;
    failed |= report("frondicare_in_mid_swap", in_mid_swap, base, MOST);
    failed |= report("frondicare_next_step, mid-swap", step, base, MOST_NEXT_STEP);
    close_slot(BOOT + SECTOR, "\x10" "BOOT");
    failed |= report("frondicare_boot_state", boot_state, base, MOST);
    flash[UPDATE + 2 * SECTOR - 6] = 0xff;
    failed |= report("frondicare_confirm", confirm, base, MOST);
    fill_slots();
    close_slot(UPDATE + SECTOR, "\x70" "BOOT");
    failed |= report("frondicare_run, update", run, base, MOST_RUN);
    failed |= report("frondicare_run, return", run, base, MOST_RUN);
    fill_slots();
    return failed | report("frondicare_run, nothing to do", run, base, MOST_RUN);
}

int main(void)
{
    size_t base = used_by(nothing);
    int failed;
    memset(message, 'a', 1000);
    failed = report_images(base);
    failed |= report_steps(base);
    return failed | report_update(base);
}
