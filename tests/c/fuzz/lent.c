#define _GNU_SOURCE
#include "lent.h"
#include "fuzz.h"
#include "random.h"
#include <stdio.h>
#include <stdlib.h>
#include <string.h>
#include <sys/mman.h>
#include <unistd.h>

enum { PAGE = 4096, MOST_LENT = 16 };

static const lent *opened[MOST_LENT];
static size_t opened_count;

/* Maps a file, with so many bytes of 00 before it, between two pages that trap. */
static uint8_t *between_guards(int file, size_t room, size_t zeros, int protection)
{
    int none = MAP_PRIVATE | MAP_ANONYMOUS | MAP_NORESERVE;
    uint8_t *guard = mmap(NULL, PAGE + zeros + room + PAGE, PROT_NONE, none, -1, 0);
    uint8_t *place = guard + PAGE + zeros;
    if (guard == MAP_FAILED || mprotect(guard + PAGE, zeros, PROT_READ) != 0 ||
        mmap(place, room, protection, MAP_SHARED | MAP_FIXED, file, 0) == MAP_FAILED)
        fail("no memory");
    return place;
}

static places near_and_far(int file, size_t room, int protection)
{
    return (places){ between_guards(file, room, 0, protection), between_guards(file, room, FAR, protection) };
}

static int file_of(size_t room)
{
    int file = memfd_create("lent", 0);
    if (file < 0 || ftruncate(file, (off_t)room) != 0)
        fail("no memory");
    return file;
}

void lent_open(lent *l, const char *name, size_t room)
{
    size_t whole = (room + PAGE - 1) / PAGE * PAGE;
    int file = file_of(whole), other = file_of(whole);
    l->name = name;
    l->room = whole;
    l->readable = near_and_far(file, whole, PROT_READ);
    l->writable = near_and_far(file, whole, PROT_READ | PROT_WRITE);
    l->expected = near_and_far(other, whole, PROT_READ | PROT_WRITE);
    l->before = malloc(whole);
    close(file);
    close(other);
    if (l->before == NULL || opened_count == MOST_LENT)
        fail("no memory");
    opened[opened_count++] = l;
}

static uint8_t *place(lent *l, size_t start, size_t len, size_t ahead)
{
    if (len > l->room)
        fail("%s has no room for %zu bytes", l->name, len);
    l->varies |= l->placed && l->len != len;
    l->placed = true;
    l->start = start;
    l->len = len;
    l->ahead = ahead;
    return l->writable.near + start;
}

uint8_t *lend(lent *l, size_t len)
{
    return place(l, percent(50) ? 0 : l->room - len, len, 0);
}

/* All 4 GiB begin behind a page that traps; less of them end before one. */
uint8_t *lend_far(lent *l, size_t len, size_t ahead)
{
    return place(l, ahead == FAR ? 0 : l->room - len, len, ahead);
}

/* Where the lent part begins at one of two places. */
static uint8_t *lent_at(const lent *l, places p)
{
    return (l->ahead == 0 ? p.near : p.far) + l->start - l->ahead;
}

/* The same, but half of the time a null pointer where nothing is lent. */
static uint8_t *lent_or_null(lent *l, places p)
{
    bool null = l->ahead + l->len == 0 && percent(50);
    l->nulls += null;
    return null ? NULL : lent_at(l, p);
}

readable to_read(lent *l)
{
    return (readable){ lent_or_null(l, l->readable), l->ahead + l->len };
}

uint8_t *to_write(lent *l)
{
    memcpy(l->before, l->writable.near + l->start, l->len);
    memcpy(l->expected.near + l->start, l->before, l->len);
    return lent_or_null(l, l->writable);
}

uint8_t *to_expect(const lent *l)
{
    return lent_at(l, l->expected);
}

bool lent_report(bool required)
{
    size_t i;
    bool enough = true;
    printf("null for nothing:");
    for (i = 0; i < opened_count; i++)
        if (opened[i]->varies) {
            printf(" %s %lu;", opened[i]->name, opened[i]->nulls);
            enough &= opened[i]->nulls > 0;
        }
    printf("\n");
    return enough || !required;
}

static void same_bytes(const lent *l, const uint8_t *expected, const char *when)
{
    const uint8_t *bytes = l->writable.near + l->start;
    size_t i = 0;
    if (memcmp(bytes, expected, l->len) == 0)
        return;
    while (bytes[i] == expected[i])
        i++;
    fail("%s of %zu%s: %02x at %zu, not %02x", l->name, l->len, when, bytes[i], i, expected[i]);
}

void lent_check(const lent *l, bool refused)
{
    if (refused)
        same_bytes(l, l->before, " after a refusal");
    same_bytes(l, l->expected.near + l->start, "");
}

/* Says it of one place, where zeros are before the room. */
static void say(const lent *l, const uint8_t *address, const uint8_t *room, size_t zeros, const char *kind)
{
    if (address >= room - zeros - PAGE && address < room + l->room + PAGE)
        printf("at %td of the %s, %zu bytes %s\n", address - (room + l->start - l->ahead), l->name, l->ahead + l->len,
               kind);
}

void lent_say(const void *address)
{
    size_t i;
    for (i = 0; i < opened_count; i++) {
        say(opened[i], address, opened[i]->readable.near, 0, "to be read");
        say(opened[i], address, opened[i]->readable.far, FAR, "to be read");
        say(opened[i], address, opened[i]->writable.near, 0, "to be written");
        say(opened[i], address, opened[i]->writable.far, FAR, "to be written");
    }
}
