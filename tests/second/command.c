/*
 * command.c: the command writer.
 *
 * Written from document 01, 'Commands and answers', the command column.
 */
#include "command.h"

#include "line.h"
#include "pec.h"

static size_t put_hello(uint8_t *bytes)
{
    bytes[0] = 0x57;
    bytes[1] = 0x00;
    bytes[2] = 0x00;
    return 3;
}

static size_t put_write(struct s_question q, uint8_t *bytes)
{
    size_t length = 0;
    bytes[length++] = s_command_byte(q);
    bytes[length++] = (uint8_t)q.reg;
    bytes[length++] = (uint8_t)q.value;
    bytes[length++] = (uint8_t)(q.value >> 8);
    bytes[length] = (uint8_t)s_pec(bytes, length);
    length++;
    if (q.alive)
        bytes[length++] = (uint8_t)q.seed;
    return length;
}

static size_t put_read(struct s_question q, uint8_t *bytes)
{
    size_t length = 0;
    bytes[length++] = s_command_byte(q);
    bytes[length++] = (uint8_t)q.reg;
    bytes[length++] = 0x00;
    bytes[length] = (uint8_t)s_pec(bytes, length);
    length++;
    if (q.alive)
        bytes[length++] = (uint8_t)q.seed;
    for (size_t i = 0; i < s_value_count(q); i++) {
        bytes[length++] = 0xC2;
        bytes[length++] = 0xD3;
    }
    return length;
}

size_t s_put_command(struct s_question q, uint8_t *bytes)
{
    if (q.kind == S_HELLOALL)
        return put_hello(bytes);
    return s_is_write(q.kind) ? put_write(q, bytes) : put_read(q, bytes);
}

int s_command(struct s_question q, uint16_t *out, size_t room, size_t *written)
{
    uint8_t bytes[S_MOST_BYTES];
    *written = 0;
    if (!s_is_good_question(q))
        return S_QUESTION;
    if (room < s_line_words(s_byte_count(q)))
        return S_ROOM;
    size_t length = s_put_command(q, bytes);
    s_put_line(bytes, length, out);
    *written = s_line_words(length);
    return S_ACCEPTED;
}
