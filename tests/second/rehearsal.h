/* rehearsal.h: a job file answered by a twin chain (01, 'The twin' and 'Job
 * file and certificate'). */
#ifndef SECOND_REHEARSAL_H
#define SECOND_REHEARSAL_H

#include "second.h"

/* The job file again, each answer now the one a twin chain gives; 0, FILE
 * (also when the answered file would be too long) or ROOM. */
int s_rehearse(const uint8_t *file, size_t bytes,
               uint8_t *out, size_t room, size_t *written);

#endif
