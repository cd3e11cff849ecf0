/* letters.h: what a job file's reads say of its last write (01, 'Job file and
 * certificate'). */
#ifndef SECOND_LETTERS_H
#define SECOND_LETTERS_H

#include "jobs.h"

/* The number that the reader gives to an entry's answer, and its values. */
int s_read_entry(struct s_entry entry, uint16_t values[S_MOST_DEVICES]);

/* Where the last write stands whose question is good; 0 where there is none. */
size_t s_last_write(const uint8_t *file, size_t bytes);

/* S, O or U of each device, by the reads behind the write at that place. */
void s_judge(const uint8_t *file, size_t bytes, size_t write_at,
             char letters[S_MOST_DEVICES]);

#endif
