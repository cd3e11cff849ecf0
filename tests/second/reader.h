/* reader.h: the reader (01, 'Commands and answers' and 'Turned away'). */
#ifndef SECOND_READER_H
#define SECOND_READER_H

#include "question.h"

/*
 * What the reader answers. place belongs to CHARACTER and MANCHESTER, byte to
 * CHECK and COUNT, count to an accepted HELLOALL, values (how many values were
 * written) to an accepted answer; each is 0 everywhere else.
 */
struct s_answer {
    int number;
    size_t place;
    unsigned byte;
    unsigned count;
    size_t values;
};

struct s_answer s_read(struct s_question q, const uint16_t *line, size_t words,
                       uint16_t *out, size_t room);

#endif
