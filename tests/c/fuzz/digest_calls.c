#include "fuzz.h"
#include "lent.h"
#include "plain.h"
#include "random.h"

enum { MOST_MESSAGE = 5000 };

static lent first, second, digest;

void open_messages(void)
{
    lent_open(&first, "first message", MOST_MESSAGE);
    lent_open(&second, "second message", MOST_MESSAGE);
    lent_open(&digest, "digest", 32);
}

/* Of any length, often near the end of a block; with so many bytes ahead. */
static readable any_message(lent *l, size_t ahead)
{
    size_t blocks = 1 + up_to(3), below = up_to(10);
    size_t any = percent(2) ? 0 : up_to(percent(90) ? 300 : MOST_MESSAGE);
    size_t len = percent(50) ? 64 * blocks - below : any;
    any_bytes(ahead == 0 ? lend(l, len) : lend_far(l, len, ahead), len);
    return to_read(l);
}

static uint8_t *any_digest(void)
{
    any_bytes(lend(&digest, 32), 32);
    return to_write(&digest);
}

static void check(uint32_t number, uint32_t expected)
{
    same_number(number, expected);
    lent_check(&digest, number != 0);
}

void call_digest(void)
{
    readable m = any_message(&first, percent(95) ? 0 : FAR);
    uint8_t *out = any_digest();
    check(frondicare_digest(m.at, m.len, out), plain_digest(m.at, m.len, to_expect(&digest)));
}

/* The second piece may be a part of the first. At times both together have 4 GiB or little more. */
void call_digest_of_two(void)
{
    readable two = any_message(&second, 0), one = any_message(&first, percent(95) ? 0 : FAR - up_to(two.len));
    uint8_t *out = any_digest();
    if (percent(10))
        two = (readable){ one.at, up_to(one.len) };
    check(frondicare_digest_of_two(one.at, one.len, two.at, two.len, out),
          plain_digest_of_two(one.at, one.len, two.at, two.len, to_expect(&digest)));
}
