/* chain.h: every device of a chain once, in address order (01, 'The twin'). */
#ifndef SECOND_CHAIN_H
#define SECOND_CHAIN_H

#include "second.h"

/* 0, TWIN or ROOM. */
int s_run(unsigned n, uint16_t *memory, size_t memory_words,
          const uint16_t *line, size_t words, uint16_t *out, size_t room);

#endif
