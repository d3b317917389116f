/* Random calls of every entry of the C header, each compared with the plain implementation: what is answered, every
 * byte lent for writing, and that no other byte is touched. SEED=.. repeats a run, CALLS=.. sets its length. Fails
 * where something differs or traps, and, from the usual number of calls on, where an answer never occurs. */
#define _GNU_SOURCE
#include "fuzz.h"
#include "lent.h"
#include "random.h"
#include "seen.h"
#include <signal.h>
#include <stdarg.h>
#include <stdio.h>
#include <stdlib.h>
#include <string.h>
#include <time.h>
#include <unistd.h>

enum { USUAL_CALLS = 200000 };

size_t current;
static uint64_t seed, calls, call;

/* Traps come to the handler below, and freed memory and its history are not kept for long. */
const char *__asan_default_options(void);
const char *__asan_default_options(void)
{
    return "handle_segv=0:handle_sigbus=0:handle_sigill=0:handle_sigfpe=0:handle_abort=0:detect_leaks=0:"
           "quarantine_size_mb=16:malloc_context_size=1";
}

static void say_call(void)
{
    printf("FAILED %s, call %lu, SEED=%lu CALLS=%lu: ", entries[current].name, call, seed, calls);
}

void fail(const char *format, ...)
{
    va_list list;
    say_call();
    va_start(list, format);
    vprintf(format, list);
    va_end(list);
    printf("\n");
    exit(1);
}

static _Noreturn void trapped(int number, siginfo_t *info, void *context)
{
    (void)context;
    say_call();
    printf("%s, address %p\n", strsignal(number), info->si_addr);
    lent_say(info->si_addr);
    fflush(stdout);
    _exit(1);
}

static void catch_traps(void)
{
    static const int numbers[] = { SIGSEGV, SIGBUS, SIGILL, SIGFPE, SIGABRT };
    struct sigaction action = { .sa_sigaction = trapped, .sa_flags = SA_SIGINFO };
    size_t i;
    for (i = 0; i < sizeof numbers / sizeof *numbers; i++)
        sigaction(numbers[i], &action, NULL);
}

static uint64_t from_environment(const char *name, uint64_t otherwise)
{
    const char *text = getenv(name);
    char *end;
    uint64_t number;
    if (text == NULL)
        return otherwise;
    number = strtoull(text, &end, 10);
    if (end == text || *end != '\0')
        fail("%s is a number", name);
    return number;
}

int main(void)
{
    struct timespec now;
    bool null_lent;
    clock_gettime(CLOCK_REALTIME, &now);
    seed = from_environment("SEED", (uint64_t)now.tv_sec * 1000000000 + (uint64_t)now.tv_nsec);
    calls = from_environment("CALLS", USUAL_CALLS);
    printf("C fuzz: SEED=%lu CALLS=%lu\n", seed, calls);
    random_begin(seed);
    open_messages();
    open_images();
    open_writing();
    open_boards();
    open_counts();
    catch_traps();
    for (call = 1; call <= calls; call++) {
        current = up_to(entry_count - 1);
        entries[current].call();
    }
    null_lent = lent_report(calls >= USUAL_CALLS);
    return seen_report(calls >= USUAL_CALLS) && null_lent ? 0 : 1;
}
