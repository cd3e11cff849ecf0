/* question.h: what the bench asks (01, 'Commands and answers'). */
#ifndef SECOND_QUESTION_H
#define SECOND_QUESTION_H

#include "second.h"

enum { S_MOST_DEVICES = 32 };       /* 01, 'Turned away', row 1 */

/* The kinds. */
enum {
    S_HELLOALL = 0,
    S_WRITEALL = 1,
    S_WRITEDEVICE = 2,
    S_READALL = 3,
    S_READDEVICE = 4
};

/* A question. A field the kind does not use is ignored. */
struct s_question {
    unsigned kind, n, alive, reg, value, device, seed;
};

int s_is_write(unsigned kind);
int s_is_read(unsigned kind);
int s_is_for_one(unsigned kind);
int s_is_good_question(struct s_question q);

/* Whether the question concerns a device, and how many values it brings. */
int s_covers(struct s_question q, unsigned device);
size_t s_value_count(struct s_question q);

/* Command and answer: their length, their first byte, and where the PEC stands
 * behind so many values of a read. */
size_t s_byte_count(struct s_question q);
uint8_t s_command_byte(struct s_question q);
size_t s_pec_place(unsigned kind, size_t values);

/* The alive byte of the answer. */
unsigned s_alive_byte(struct s_question q);

#endif
