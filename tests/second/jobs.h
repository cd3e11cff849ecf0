/* jobs.h: the job file (01, 'Job file and certificate'; 02, M-100). */
#ifndef SECOND_JOBS_H
#define SECOND_JOBS_H

#include "question.h"

enum {
    S_MOST_FILE_BYTES = 65536,
    S_HEADER_BYTES = 7
};

/* An entry: its question, the bits its write is expected to show, and its
 * answer's words, two bytes each; how many bytes stand before these. */
struct s_entry {
    struct s_question q;
    unsigned mask;
    size_t field_bytes;
    size_t words;
    const uint8_t *answer;
};

int s_is_job_file(const uint8_t *file, size_t bytes);
unsigned s_file_version(const uint8_t *file);

/* The entry at a place of a job file; how many bytes it has there. */
struct s_entry s_entry_at(const uint8_t *file, size_t at);
size_t s_entry_size(struct s_entry entry);

/* Sixteen bits of a file. */
unsigned s_two_bytes(const uint8_t *at);

#endif
