/* twin.h: one device's step (01, 'The twin'). */
#ifndef SECOND_TWIN_H
#define SECOND_TWIN_H

#include "second.h"

/* 0, TWIN or ROOM. */
int s_step(unsigned n, unsigned device, uint16_t *memory, size_t memory_words,
           const uint16_t *line, size_t words, uint16_t *out, size_t room);

#endif
