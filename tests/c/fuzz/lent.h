/* Memory that is lent to a call. A page that traps lies directly before it or directly behind it, so that no byte
 * outside is read or written unnoticed. The same bytes lie at several places, and at some of them a write traps too. */
#ifndef LENT_H
#define LENT_H

#include <stdbool.h>
#include <stddef.h>
#include <stdint.h>

/* Two places of the same bytes: between pages that trap; and behind 4 GiB of 00, which are only read, between such
 * pages. */
typedef struct {
    uint8_t *near, *far;
} places;

#define FAR ((size_t)1 << 32)

typedef struct {
    const char *name;
    size_t room;
    places readable, writable, expected; /* expected: other bytes, what a call should leave */
    uint8_t *before;                     /* what it found */
    size_t start, len;                   /* the part of the room that is lent */
    size_t ahead;                        /* how many bytes before the room are lent too */
    bool placed, varies;                 /* it was lent; not always with as many bytes */
    unsigned long nulls;                 /* how often nothing was lent, by a null pointer */
} lent;

/* Any bytes that a call may only read. */
typedef struct {
    const uint8_t *at;
    size_t len;
} readable;

/* Opens one with room for at least so many bytes. */
void lent_open(lent *l, const char *name, size_t room);

/* Lends so many bytes, at either end of the room, and gives them to be filled. */
uint8_t *lend(lent *l, size_t len);

/* The same with up to 4 GiB ahead of them, the first of which are 00. */
uint8_t *lend_far(lent *l, size_t len, size_t ahead);

/* All that is lent, for a call that only reads it. Nothing is lent by a null pointer at times. */
readable to_read(lent *l);

/* The same for a call that writes it. Keeps what the room holds, and once more where the call is expected. */
uint8_t *to_write(lent *l);

/* The same for the plain implementation's call, after to_write. */
uint8_t *to_expect(const lent *l);

/* Prints how often nothing was lent by a null pointer. False where that is required and some memory never was. */
bool lent_report(bool required);

/* The room holds what is expected; after a refusal it is as it was. */
void lent_check(const lent *l, bool refused);

/* Says where in lent memory an address lies. */
void lent_say(const void *address);

#endif
