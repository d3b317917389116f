#include "fuzz.h"
#include "lent.h"
#include "plain.h"
#include "random.h"
#include <string.h>

enum { MOST_IMAGE = 4096, HEADER = 256 };

static lent image;

void open_images(void)
{
    lent_open(&image, "image", MOST_IMAGE);
}

static size_t noise(uint8_t *room)
{
    size_t len = percent(10) ? 0 : up_to(percent(50) ? 300 : MOST_IMAGE);
    any_bytes(room, len);
    return len;
}

/* Well formed, damaged, noise, or longer than 4 GiB. */
static readable any_image(void)
{
    static uint8_t room[MOST_IMAGE];
    size_t len = percent(5) ? noise(room) : plain_random_image(random_next(), room, sizeof room);
    memcpy(percent(98) ? lend(&image, len) : lend_far(&image, len, FAR), room, len);
    return to_read(&image);
}

void call_verify(void)
{
    readable i = any_image();
    bool signature_ok = percent(80);
    same_number(frondicare_verify(i.at, i.len, signature_ok), plain_verify(i.at, i.len, signature_ok));
}

void call_version_of(void)
{
    readable i = any_image();
    frondicare_version v = frondicare_version_of(i.at, i.len), expected = plain_version_of(i.at, i.len);
    if (v.version != expected.version || (v.number != 0 && v.version != 0))
        fail("number %u: version %u, not %u", v.number, v.version, expected.version);
    same_number(v.number, expected.number);
}

/* One that is named, one that stands somewhere in the header, or any. */
static uint16_t any_type(readable header)
{
    static const uint16_t named[] = { 0x0001, 0x0002, 0x0003, 0x0010, 0x0020, 0x0030 };
    size_t place = up_to(HEADER - 2);
    uint16_t any = (uint16_t)random_next();
    if (percent(50))
        return named[up_to(sizeof named / sizeof *named - 1)];
    if (percent(50) && header.len >= HEADER)
        return (uint16_t)(header.at[place] | header.at[place + 1] << 8);
    return percent(30) ? any & 0xff : any;
}

void call_find_tag(void)
{
    readable h = any_image();
    uint16_t type = any_type(h);
    frondicare_tag tag = frondicare_find_tag(h.at, h.len, type), expected = plain_find_tag(h.at, h.len, type);
    if (tag.at != expected.at || tag.len != expected.len)
        fail("type %04x of %zu bytes: at %zu, length %zu, not %zu, %zu", type, h.len, tag.at, tag.len, expected.at,
             expected.len);
    if (tag.number != 0 && (tag.at != 0 || tag.len != 0))
        fail("type %04x of %zu bytes: refused, with a place", type, h.len);
    same_number(tag.number, expected.number);
}

/* Where a lookup goes on after some tags. */
static size_t start_in(readable header)
{
    size_t from = FRONDICARE_FIRST_TAG, tags = up_to(8);
    for (; tags > 0; tags--) {
        frondicare_listed_tag tag = plain_next_tag(header.at, header.len, from, true, 0);
        if (tag.number != 0)
            return from;
        from = tag.next;
    }
    return from;
}

/* Such a place; one of the tags' places, also within a tag; just outside of these; one that is a place of the tags if
 * it is cut to 8, 16 or 32 bits; or anywhere. */
static size_t any_start(readable header)
{
    size_t place = FRONDICARE_FIRST_TAG + up_to(HEADER - FRONDICARE_FIRST_TAG);
    if (percent(60))
        return start_in(header);
    if (percent(60))
        return place;
    if (percent(30))
        return place + ((size_t)1 << (percent(50) ? 32 : percent(50) ? 16 : 8));
    return percent(70) ? up_to(HEADER + 20) : (size_t)random_next();
}

void call_next_tag(void)
{
    readable h = any_image();
    size_t from = any_start(h);
    bool any = percent(50);
    uint16_t type = any_type(h);
    frondicare_listed_tag tag = frondicare_next_tag(h.at, h.len, from, any, type);
    frondicare_listed_tag expected = plain_next_tag(h.at, h.len, from, any, type);
    if (tag.type != expected.type || tag.at != expected.at || tag.len != expected.len || tag.next != expected.next)
        fail("type %04x (any %d) from %zu of %zu: %04x at %zu, length %zu, next %zu, not %04x, %zu, %zu, %zu", type, any,
             from, h.len, tag.type, tag.at, tag.len, tag.next, expected.type, expected.at, expected.len,
             expected.next);
    if (tag.number != 0 && (tag.type != 0 || tag.at != 0 || tag.len != 0 || tag.next != 0))
        fail("type %04x from %zu of %zu bytes: refused, with a tag", type, from, h.len);
    same_number(tag.number, expected.number);
}
