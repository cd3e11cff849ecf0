/*
 * part.c: the second call, which asks where one device's register stands.
 *
 * Written from document 01, below 'Commands and answers'.
 */
#include "part.h"

#include "reader.h"

void s_part(struct s_question q, unsigned device,
            const uint16_t *line, size_t words, size_t *start, size_t *length)
{
    uint16_t values[S_MOST_DEVICES];
    struct s_answer answer = s_read(q, line, words, values, S_MOST_DEVICES);
    *start = 0;
    *length = 0;
    if (answer.number != S_ACCEPTED || !s_is_read(q.kind) || !s_covers(q, device))
        return;
    size_t after = q.kind == S_READALL ? q.n - 1 - device : 0;
    *start = 1 + 2 * (2 + 2 * after);
    *length = 4;
}
