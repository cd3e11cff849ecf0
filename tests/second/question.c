/*
 * question.c: what a question's kind says of its command and of its answer.
 *
 * Written from document 01, 'Commands and answers', and row 1 of 'Turned
 * away'.
 */
#include "question.h"

int s_is_write(unsigned kind)
{
    return kind == S_WRITEALL || kind == S_WRITEDEVICE;
}

int s_is_read(unsigned kind)
{
    return kind == S_READALL || kind == S_READDEVICE;
}

/* Names one device, in the command byte. */
int s_is_for_one(unsigned kind)
{
    return kind == S_WRITEDEVICE || kind == S_READDEVICE;
}

/* Whether a question concerns a device of its chain. */
int s_covers(struct s_question q, unsigned device)
{
    return s_is_for_one(q.kind) ? device == q.device : device < q.n;
}

/* How many values a read brings: n, or one. */
size_t s_value_count(struct s_question q)
{
    if (q.kind == S_READALL)
        return q.n;
    return q.kind == S_READDEVICE ? 1 : 0;
}

/* Command and answer have equal length. */
size_t s_byte_count(struct s_question q)
{
    if (q.kind == S_HELLOALL)
        return 3;
    if (s_is_write(q.kind))
        return 5 + q.alive;
    return 4 + 2 * s_value_count(q) + q.alive;
}

uint8_t s_command_byte(struct s_question q)
{
    switch (q.kind) {
    case S_HELLOALL:
        return 0x57;
    case S_WRITEALL:
        return 0x02;
    case S_WRITEDEVICE:
        return (uint8_t)(q.device * 8 + 4);
    case S_READALL:
        return 0x03;
    default:
        return (uint8_t)(q.device * 8 + 5);
    }
}

/* Where the PEC stands when a line carries this many values of a read. */
size_t s_pec_place(unsigned kind, size_t values)
{
    return s_is_write(kind) ? 4 : 2 + 2 * values + 1;
}

/* Each device that acts adds one, and after FFh comes 00h. */
unsigned s_alive_byte(struct s_question q)
{
    return (q.seed + (s_is_for_one(q.kind) ? 1 : q.n)) % 256;
}

/* 01, 'Turned away', row 1. */
int s_is_good_question(struct s_question q)
{
    if (q.kind > 4 || q.alive > 1)
        return 0;
    if (q.kind == S_HELLOALL)
        return 1;
    if (q.n < 1 || q.n > S_MOST_DEVICES)
        return 0;
    return !s_is_for_one(q.kind) || q.device < q.n;
}
