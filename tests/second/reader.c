/*
 * reader.c: the reader, row by row in the order of its checks.
 *
 * Written from document 01, 'Turned away', rows 1 to 11, and the answer column
 * of 'Commands and answers'.
 */
#include "reader.h"

#include "line.h"
#include "pec.h"

static struct s_answer refuse(int number)
{
    struct s_answer answer = { .number = number };
    return answer;
}

static struct s_answer refuse_place(int number, size_t place)
{
    struct s_answer answer = { .number = number, .place = place };
    return answer;
}

static struct s_answer refuse_byte(int number, unsigned byte)
{
    struct s_answer answer = { .number = number, .byte = byte };
    return answer;
}

/* Row 4: the lowest place of a word that is no character, or words. */
static size_t bad_character(const uint16_t *line, size_t words)
{
    size_t place = 0;
    while (place < words && s_is_character(line[place]))
        place++;
    return place;
}

/* Row 5. */
static int is_framed(const uint16_t *line, size_t words)
{
    return line[0] == s_preamble() && line[words - 1] == s_stop();
}

/* Row 6: the lowest place between that is no nibble, or words - 1. */
static size_t bad_nibble(const uint16_t *line, size_t words)
{
    size_t place = 1;
    while (place < words - 1 && s_is_nibble(line[place]))
        place++;
    return place;
}

/* Row 7. */
static int is_echo(struct s_question q, const uint8_t *bytes)
{
    if (bytes[0] != s_command_byte(q))
        return 0;
    if (q.kind == S_HELLOALL)
        return bytes[1] == 0x00;
    if (bytes[1] != (uint8_t)q.reg)
        return 0;
    if (!s_is_write(q.kind))
        return 1;
    return bytes[2] == (uint8_t)q.value && bytes[3] == (uint8_t)(q.value >> 8);
}

/* Row 8. */
static int is_pec_right(struct s_question q, const uint8_t *bytes)
{
    size_t place = s_pec_place(q.kind, s_value_count(q));
    return bytes[place] == s_pec(bytes, place);
}

/* Row 9. */
static int is_alive_right(struct s_question q, const uint8_t *bytes)
{
    size_t place = s_pec_place(q.kind, s_value_count(q)) + 1;
    return !q.alive || bytes[place] == s_alive_byte(q);
}

/* HELLOALL has neither PEC nor alive byte: rows 7 and 11. */
static struct s_answer read_hello(struct s_question q, const uint8_t *bytes)
{
    struct s_answer answer = { .number = S_ACCEPTED, .count = bytes[2] };
    if (!is_echo(q, bytes))
        return refuse(S_ECHO);
    if (bytes[2] == 0 || bytes[2] > S_MOST_DEVICES)
        return refuse_byte(S_COUNT, bytes[2]);
    return answer;
}

/* Rows 7 to 10 for the other kinds. */
static struct s_answer read_bytes(struct s_question q, const uint8_t *bytes)
{
    struct s_answer answer = { .number = S_ACCEPTED, .values = s_value_count(q) };
    unsigned check = bytes[s_pec_place(q.kind, s_value_count(q)) - 1];
    if (!is_echo(q, bytes))
        return refuse(S_ECHO);
    if (!is_pec_right(q, bytes))
        return refuse(S_PEC);
    if (!is_alive_right(q, bytes))
        return refuse(S_ALIVE);
    if (s_is_read(q.kind) && check != 0x00)
        return refuse_byte(S_CHECK, check);
    return answer;
}

/* The wire has the highest address first; values come out lowest first. */
static void put_values(const uint8_t *bytes, size_t count, uint16_t *out)
{
    for (size_t address = 0; address < count; address++) {
        size_t at = 2 + 2 * (count - 1 - address);
        out[address] = (uint16_t)(bytes[at] | bytes[at + 1] << 8);
    }
}

/* The line is as long as the answer and its characters are good: rows 7 on. */
static struct s_answer read_framed(struct s_question q, const uint16_t *line,
                                   uint16_t *out)
{
    uint8_t bytes[S_MOST_BYTES];
    struct s_answer answer;
    for (size_t i = 0; i < s_byte_count(q); i++)
        bytes[i] = (uint8_t)s_line_byte(line, i);
    if (q.kind == S_HELLOALL)
        return read_hello(q, bytes);
    answer = read_bytes(q, bytes);
    put_values(bytes, answer.values, out);
    return answer;
}

struct s_answer s_read(struct s_question q, const uint16_t *line, size_t words,
                       uint16_t *out, size_t room)
{
    size_t place;
    if (!s_is_good_question(q))
        return refuse(S_QUESTION);
    if (room < s_value_count(q))
        return refuse(S_ROOM);
    if (words != s_line_words(s_byte_count(q)))
        return refuse(S_LENGTH);
    place = bad_character(line, words);
    if (place < words)
        return refuse_place(S_CHARACTER, place);
    if (!is_framed(line, words))
        return refuse(S_FRAME);
    place = bad_nibble(line, words);
    if (place < words - 1)
        return refuse_place(S_MANCHESTER, place);
    return read_framed(q, line, out);
}
