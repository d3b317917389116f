#include "random.h"

static uint64_t state;

void random_begin(uint64_t seed)
{
    state = seed;
}

/* splitmix64 */
uint64_t random_next(void)
{
    uint64_t z = state += 0x9e3779b97f4a7c15;
    z = (z ^ (z >> 30)) * 0xbf58476d1ce4e5b9;
    z = (z ^ (z >> 27)) * 0x94d049bb133111eb;
    return z ^ (z >> 31);
}

size_t up_to(size_t most)
{
    return most == SIZE_MAX ? random_next() : random_next() % (most + 1);
}

bool percent(unsigned chance)
{
    return up_to(99) < chance;
}

/* A number within a few bytes or a few sectors of another. */
static size_t near(size_t number)
{
    static const size_t distances[] = { 0, 1, 2, 4, 5, 6, 255, 256, 257, 512, 4096 };
    size_t distance = distances[up_to(sizeof distances / sizeof *distances - 1)];
    return percent(50) ? number + distance : number - distance;
}

size_t any_size(size_t len)
{
    size_t any = random_next();
    switch (up_to(5)) {
    case 0:
        return near(0);
    case 1:
        return near(len);
    case 2:
        return near((size_t)1 << 32);
    case 3:
        return SIZE_MAX - up_to(9000);
    case 4:
        return up_to(len);
    default:
        return any >> up_to(63);
    }
}

uint32_t any_u32(uint32_t limit)
{
    switch (up_to(4)) {
    case 0:
        return (uint32_t)up_to(4);
    case 1:
        return limit + (uint32_t)up_to(2) - 1;
    case 2:
        return (uint32_t)1 << up_to(31);
    case 3:
        return UINT32_MAX - (uint32_t)up_to(4096);
    default:
        return (uint32_t)random_next();
    }
}

void any_bytes(uint8_t *bytes, size_t len)
{
    size_t i;
    for (i = 0; i < len; i++)
        bytes[i] = (uint8_t)random_next();
}
