/*
 * figures.c: figures to draw, and memory that shows whether it was written.
 */
#include "checks.h"

/* A plain generator, so that every run is the same. */
static uint32_t state = 2463534242u;

unsigned any(unsigned below)
{
    state ^= state << 13;
    state ^= state >> 17;
    state ^= state << 5;
    return state % below;
}

void fill_words(uint16_t *words, size_t n)
{
    for (size_t i = 0; i < n; i++)
        words[i] = MARK;
}

int are_marked(const uint16_t *words, size_t n)
{
    for (size_t i = 0; i < n; i++)
        if (words[i] != MARK)
            return 0;
    return 1;
}

int same_words(const uint16_t *a, const uint16_t *b, size_t n)
{
    for (size_t i = 0; i < n; i++)
        if (a[i] != b[i])
            return 0;
    return 1;
}
