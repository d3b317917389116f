/* What was answered, compared. */
#include "fuzz.h"
#include "seen.h"
#include <stdio.h>

static const char *op_name(uint32_t op)
{
    static const char *const names[] = { "erase", "copy", "byte", "mark" };
    return op <= FRONDICARE_MARK ? names[op] : "no step";
}

void same_number(uint32_t number, uint32_t expected)
{
    char label[16];
    if (number != expected)
        fail("answers %u, not %u", number, expected);
    snprintf(label, sizeof label, "%u", number);
    seen(label);
}

void same_number_of_step(uint32_t number, uint32_t expected, uint32_t op)
{
    if (number == 0 && expected == 0)
        seen(op_name(op));
    else
        same_number(number, expected);
}

/* The fields that are not 0 are some of those that the header gives to this kind. */
static bool is_bare(frondicare_answer a)
{
    bool step = a.kind == FRONDICARE_STEP || a.kind == FRONDICARE_LAST_STEP;
    bool numbered = a.kind == FRONDICARE_BOOT || a.kind == FRONDICARE_REFUSED;
    return (numbered || a.number == 0) && (step || (a.op == 0 && a.at == 0)) &&
           ((step && a.op == FRONDICARE_BYTE) || a.value == 0) && ((step && a.op == FRONDICARE_COPY) || a.to == 0);
}

static bool is_same(frondicare_answer a, frondicare_answer b)
{
    return a.kind == b.kind && a.number == b.number && a.op == b.op && a.value == b.value && a.at == b.at &&
           a.to == b.to;
}

void same_answer(frondicare_answer a, frondicare_answer b)
{
    char label[32];
    if (!is_same(a, b) || !is_bare(a))
        fail("answers kind %u number %u op %u value %u at %zu to %zu, not %u %u %u %u %zu %zu",
             a.kind, a.number, a.op, a.value, a.at, a.to, b.kind, b.number, b.op, b.value, b.at, b.to);
    switch (a.kind) {
    case FRONDICARE_STEP:
    case FRONDICARE_LAST_STEP:
        snprintf(label, sizeof label, "%s%s", a.kind == FRONDICARE_LAST_STEP ? "last " : "", op_name(a.op));
        break;
    case FRONDICARE_BOOT:
        snprintf(label, sizeof label, "boot %u", a.number);
        break;
    case FRONDICARE_REFUSED:
        snprintf(label, sizeof label, "%u", a.number);
        break;
    default:
        snprintf(label, sizeof label, "%s", a.kind == FRONDICARE_FINISHED ? "finished" : "no kind");
    }
    seen(label);
}
