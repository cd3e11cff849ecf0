/*
 * reasons.h: why a line was turned away (02, M-101). Where a row is found that has
 * no place in 01, and in which unit it is told, stands in docs/DECISIONS.md:
 * 'Where is a row found that has no place?' and its neighbours.
 */
#ifndef SECOND_REASONS_H
#define SECOND_REASONS_H

#include "question.h"

/* How a place is counted. */
enum s_how {
    S_AT_WORD = 1,                  /* the line's words, from 0 */
    S_AT_BYTE = 2,                  /* the answer's bytes, from 0 */
    S_AT_LINE = 3,                  /* the whole line: the place is 0 */
    S_AT_FIELD = 4                  /* the question's fields */
};

/* The fields that row 1 speaks of, by where they stand in a question. */
enum { S_FIELD_KIND = 0, S_FIELD_N = 1, S_FIELD_ALIVE = 2, S_FIELD_DEVICE = 5 };

/*
 * The number, 0 for accepted, and all else 0 with it; where the row's check
 * failed; what stood there, of LENGTH the line's bytes; and right, if 'one' is
 * set: all that would have passed this check there.
 */
struct s_reason {
    int number;
    int how;
    size_t place;
    size_t stood;
    int one;
    size_t right;
};

/* The line in bytes, two a word, low first; any number of them. */
struct s_reason s_explain(struct s_question q, const uint8_t *line, size_t bytes);

#endif
