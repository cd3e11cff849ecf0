/* masks.h: the bits a write is expected to show (02, M-100). */
#ifndef SECOND_MASKS_H
#define SECOND_MASKS_H

#include "second.h"

/* How many bytes of an entry are its mask, in a file of this version. */
size_t s_mask_bytes(unsigned version);

/* The mask of an entry that has no bytes for one. */
unsigned s_unsaid_mask(unsigned kind);

int s_is_mask(unsigned kind, unsigned mask);

/* S or O: whether the masked bits read are those written. */
char s_letter(unsigned mask, unsigned read, unsigned written);

#endif
