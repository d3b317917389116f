#include "fuzz.h"
#include "lent.h"
#include "plain.h"
#include "random.h"
#include <string.h>

enum { HEADER = 256, HINT = 32, SIGNATURE = 64, MOST_BUFFER = 1024, MOST_FIRMWARE = 2000, MOST_CUSTOM = 1024 };

static lent firmware, custom, hint, signature, digest_to_sign, buffer;

/* What both entries take. */
typedef struct {
    frondicare_fields fields;
    readable firmware, custom;
    const uint8_t *hint, *signature;
} parts;

void open_writing(void)
{
    lent_open(&firmware, "firmware", MOST_FIRMWARE);
    lent_open(&custom, "custom run", MOST_CUSTOM);
    lent_open(&hint, "hint", HINT);
    lent_open(&signature, "signature", SIGNATURE);
    lent_open(&digest_to_sign, "digest to sign", 32);
    lent_open(&buffer, "buffer", MOST_BUFFER);
}

static readable noise(lent *l, size_t len)
{
    any_bytes(lend(l, len), len);
    return to_read(l);
}

/* Well formed, damaged, or noise of any length. */
static readable any_custom_run(void)
{
    uint8_t room[MOST_CUSTOM];
    size_t len;
    if (percent(10))
        return noise(&custom, up_to(percent(80) ? 90 : MOST_CUSTOM));
    len = plain_random_custom_run(random_next(), room, sizeof room);
    memcpy(lend(&custom, len), room, len);
    return to_read(&custom);
}

/* Empty, of any length, or too long: with its header it has 4 GiB or more. */
static readable any_firmware(void)
{
    size_t len = percent(5) ? 0 : up_to(percent(80) ? 300 : MOST_FIRMWARE);
    if (percent(95))
        return noise(&firmware, len);
    lend_far(&firmware, len, FAR - up_to(HEADER + len));
    return to_read(&firmware);
}

/* Hint and signature may be parts of the firmware. */
static parts any_parts(void)
{
    parts p;
    p.fields.version = (uint32_t)random_next();
    p.fields.timestamp = random_next();
    p.fields.firmware_type = (uint16_t)random_next();
    p.firmware = any_firmware();
    p.custom = any_custom_run();
    p.hint = noise(&hint, HINT).at;
    p.signature = noise(&signature, SIGNATURE).at;
    if (percent(10) && p.firmware.len >= SIGNATURE) {
        p.hint = p.firmware.at + up_to(p.firmware.len - HINT);
        p.signature = p.firmware.at + up_to(p.firmware.len - SIGNATURE);
    }
    return p;
}

void call_digest_to_sign(void)
{
    parts p = any_parts();
    readable f = p.firmware, c = p.custom;
    uint8_t *out;
    uint32_t number, expected;
    any_bytes(lend(&digest_to_sign, 32), 32);
    out = to_write(&digest_to_sign);
    number = frondicare_digest_to_sign(p.fields, f.at, f.len, c.at, c.len, p.hint, out);
    expected = plain_digest_to_sign(p.fields, f.at, f.len, c.at, c.len, p.hint, to_expect(&digest_to_sign));
    same_number(number, expected);
    lent_check(&digest_to_sign, number != 0);
}

void call_write_header(void)
{
    parts p = any_parts();
    readable f = p.firmware, c = p.custom;
    size_t near_header = HEADER - 2 + up_to(4);
    size_t other = percent(10) ? 0 : up_to(MOST_BUFFER);
    size_t len = percent(85) ? HEADER : percent(50) ? near_header : other;
    uint8_t *out;
    uint32_t number, expected;
    any_bytes(lend(&buffer, len), len);
    out = to_write(&buffer);
    number = frondicare_write_header(out, len, p.fields, f.at, f.len, c.at, c.len, p.hint, p.signature);
    expected = plain_write_header(to_expect(&buffer), len, p.fields, f.at, f.len, c.at, c.len, p.hint, p.signature);
    same_number(number, expected);
    lent_check(&buffer, number != 0);
}
