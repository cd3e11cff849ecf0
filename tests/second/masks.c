/*
 * masks.c: the bits a write is expected to show.
 *
 * Written from document 02, M-100.
 */
#include "masks.h"

#include "question.h"

/* Version 2 adds sixteen bits to every entry. */
size_t s_mask_bytes(unsigned version)
{
    return version == 2 ? 2 : 0;
}

/* Writes of version 1 read as mask FFFFh. */
unsigned s_unsaid_mask(unsigned kind)
{
    return s_is_write(kind) ? 0xFFFF : 0;
}

/* A write's mask of 0, or another's mask not 0, is FILE. */
int s_is_mask(unsigned kind, unsigned mask)
{
    return s_is_write(kind) ? mask != 0 : mask == 0;
}

/* Bits outside the mask have no say. */
char s_letter(unsigned mask, unsigned read, unsigned written)
{
    unsigned differing = read ^ written;
    return (differing & mask) == 0 ? 'S' : 'O';
}
