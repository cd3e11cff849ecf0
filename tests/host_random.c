/*
 * host_random.c: random figures.
 *
 * An xorshift sequence: the seed determines every trial, so that a reported
 * difference can be had again.
 */
#include "host.h"

#include <string.h>

static uint64_t seed, state;

void seed_random(uint64_t from)
{
    seed = from;
    state = from ^ UINT64_C(0x9E3779B97F4A7C15);
    if (state == 0)
        state = 1;
    for (int i = 0; i < 16; i++)
        any64();
}

uint64_t any64(void)
{
    state ^= state << 13;
    state ^= state >> 7;
    state ^= state << 17;
    return state * UINT64_C(0x2545F4914F6CDD1D);
}

unsigned any(unsigned below)
{
    return (unsigned)((any64() >> 32) * below >> 32);
}

unsigned between(unsigned low, unsigned high)
{
    return low + any(high - low + 1);
}

uint8_t other_byte(uint8_t than)
{
    return (uint8_t)(than ^ between(1, 255));
}

void any_bytes(uint8_t *to, size_t count)
{
    for (; count >= 8; count -= 8, to += 8) {
        uint64_t eight = any64();
        memcpy(to, &eight, 8);
    }
    for (; count > 0; count--)
        *to++ = (uint8_t)any(256);
}

uint64_t random_seed(void)
{
    return seed;
}

unsigned share = 1;

unsigned long rounds(unsigned long full)
{
    return (full + share - 1) / share;
}
