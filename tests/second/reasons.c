/*
 * reasons.c: why a line was turned away, where, and what would have passed.
 *
 * Written from document 02, M-101, document 01, 'Turned away', rows 1 and 3 to
 * 11, and docs/DECISIONS.md: where a row is found that has no place in 01, what
 * is asked of a question's field, and what 'the one thing' is held to. The row is
 * the reader's, with room for every value; what is left is to find where its
 * check fails first.
 */
#include "reasons.h"

#include "command.h"
#include "jobs.h"
#include "line.h"
#include "pec.h"
#include "reader.h"

/* More than one thing would have passed. */
static struct s_reason several(int number, int how, size_t place, size_t stood)
{
    struct s_reason reason = { number, how, place, stood, 0, 0 };
    return reason;
}

static struct s_reason only(int number, int how, size_t place, size_t stood, size_t right)
{
    struct s_reason reason = { number, how, place, stood, 1, right };
    return reason;
}

/* Row 1: the first field that breaks its own clause. A chain of one device has
 * device 0 and no other. */
static struct s_reason bad_field(struct s_question q)
{
    if (q.kind > 4)
        return several(S_QUESTION, S_AT_FIELD, S_FIELD_KIND, q.kind);
    if (q.alive > 1)
        return several(S_QUESTION, S_AT_FIELD, S_FIELD_ALIVE, q.alive);
    if (q.n < 1 || q.n > S_MOST_DEVICES)
        return several(S_QUESTION, S_AT_FIELD, S_FIELD_N, q.n);
    if (q.n == 1)
        return only(S_QUESTION, S_AT_FIELD, S_FIELD_DEVICE, q.device, 0);
    return several(S_QUESTION, S_AT_FIELD, S_FIELD_DEVICE, q.device);
}

/* Row 5: the preamble, and else the stop character. */
static struct s_reason bad_frame(const uint16_t *line, size_t words)
{
    if (line[0] != s_preamble())
        return only(S_FRAME, S_AT_WORD, 0, line[0], s_preamble());
    return only(S_FRAME, S_AT_WORD, words - 1, line[words - 1], s_stop());
}

/* Row 7: what is echoed stands at the front of the command as well, a write's
 * value included. */
static struct s_reason bad_echo(struct s_question q, const uint8_t *bytes)
{
    uint8_t asked[S_MOST_BYTES];
    size_t echoed = s_is_write(q.kind) ? 4 : 2, i = 0;
    s_put_command(q, asked);
    while (i < echoed - 1 && bytes[i] == asked[i])
        i++;
    return only(S_ECHO, S_AT_BYTE, i, bytes[i], asked[i]);
}

/* Rows 7 to 11: the line is the line of these bytes. */
static struct s_reason bad_byte(int number, struct s_question q, const uint8_t *bytes)
{
    size_t pec = s_pec_place(q.kind, s_value_count(q));
    switch (number) {
    case S_ECHO:
        return bad_echo(q, bytes);
    case S_PEC:
        return only(S_PEC, S_AT_BYTE, pec, bytes[pec], s_pec(bytes, pec));
    case S_ALIVE:
        return only(S_ALIVE, S_AT_BYTE, pec + 1, bytes[pec + 1], s_alive_byte(q));
    case S_CHECK:
        return only(S_CHECK, S_AT_BYTE, pec - 1, bytes[pec - 1], 0x00);
    default:
        return several(S_COUNT, S_AT_BYTE, 2, bytes[2]);
    }
}

/* The line is as long as the answer. */
static struct s_reason explain_words(struct s_question q, const uint16_t *line, size_t words)
{
    uint16_t values[S_MOST_DEVICES];
    uint8_t bytes[S_MOST_BYTES];
    const struct s_reason accepted = { .number = S_ACCEPTED };
    struct s_answer answer = s_read(q, line, words, values, S_MOST_DEVICES);
    switch (answer.number) {
    case S_ACCEPTED:
        return accepted;
    case S_CHARACTER:
    case S_MANCHESTER:
        return several(answer.number, S_AT_WORD, answer.place, line[answer.place]);
    case S_FRAME:
        return bad_frame(line, words);
    }
    for (size_t i = 0; i < s_byte_count(q); i++)
        bytes[i] = (uint8_t)s_line_byte(line, i);
    return bad_byte(answer.number, q, bytes);
}

/* An odd number of bytes is no answer's length. */
struct s_reason s_explain(struct s_question q, const uint8_t *line, size_t bytes)
{
    uint16_t words[S_MOST_WORDS];
    if (!s_is_good_question(q))
        return bad_field(q);
    size_t count = s_line_words(s_byte_count(q));
    if (bytes != 2 * count)
        return only(S_LENGTH, S_AT_LINE, 0, bytes, 2 * count);
    for (size_t i = 0; i < count; i++)
        words[i] = (uint16_t)s_two_bytes(line + 2 * i);
    return explain_words(q, words, count);
}
