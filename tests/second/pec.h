/* pec.h: the packet error check (004, 'PEC Errors'). */
#ifndef SECOND_PEC_H
#define SECOND_PEC_H

#include "second.h"

/* Of n bytes. */
unsigned s_pec(const uint8_t *bytes, size_t n);

#endif
