/* registers.h: the memory of a chain of twins (01, 'The twin'). */
#ifndef SECOND_REGISTERS_H
#define SECOND_REGISTERS_H

#include "second.h"

enum { S_REGISTERS = 256 };         /* of one device */

/* Whether a chain of n has a memory of so many words (row 15, but for the
 * device). */
int s_is_twin(unsigned n, size_t memory_words);

/* The registers after power-on; 0 or TWIN. */
int s_power_on(unsigned n, uint16_t *memory, size_t words);

#endif
