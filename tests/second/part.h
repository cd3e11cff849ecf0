/* part.h: the second call (01, 'Commands and answers'). */
#ifndef SECOND_PART_H
#define SECOND_PART_H

#include "question.h"

/* Where a device's register stands in an accepted read; start 0 and length 0
 * when there is none. */
void s_part(struct s_question q, unsigned device,
            const uint16_t *line, size_t words, size_t *start, size_t *length);

#endif
