/*
 * twin.c: one device's step of the twin.
 *
 * Written from document 01, 'The twin', and the table of 'Commands and
 * answers'. A device acts on a line exactly where that line is a command as
 * the devices below it leave it: the command is supposed, then written, then
 * compared word by word.
 */
#include "twin.h"

#include "command.h"
#include "line.h"
#include "pec.h"
#include "registers.h"

/* ---- 01, 'The twin': the table's change for one device ------------------- */

/* Own value directly after the register byte, one fill pair dropped, PEC
 * afresh. 'values' stood on the line before. */
static void add_value(uint8_t *bytes, size_t length, size_t values, unsigned value)
{
    size_t pec = s_pec_place(S_READALL, values + 1);
    for (size_t i = length; i-- > 4;)
        bytes[i] = bytes[i - 2];
    bytes[2] = (uint8_t)value;
    bytes[3] = (uint8_t)(value >> 8);
    bytes[pec] = (uint8_t)s_pec(bytes, pec);
}

/* 'before' devices acted already, 'value' is the device's register. */
static void act(struct s_question q, uint8_t *bytes, size_t length,
                size_t before, unsigned value)
{
    if (q.kind == S_HELLOALL) {
        bytes[2] = (uint8_t)(bytes[2] + 1);
        return;
    }
    if (s_is_read(q.kind))
        add_value(bytes, length, before, value);
    if (q.alive) {
        size_t alive = s_pec_place(q.kind, before + 1) + 1;
        bytes[alive] = (uint8_t)(bytes[alive] + 1);
    }
}

/* How many devices below this one a command makes act. */
static unsigned acting_below(unsigned kind, unsigned device)
{
    return s_is_for_one(kind) ? 0 : device;
}

/* ---- 01, 'The twin': which lines a device acts on ------------------------ */

/* The command a line would have to come from, if it is of this kind and this
 * device acts on it; values[j] is what device j below would have put on it. */
static struct s_question supposed(struct s_question shape, unsigned device,
                                  const uint16_t *line, uint16_t *values)
{
    struct s_question q = shape;
    unsigned before = acting_below(q.kind, device);
    q.device = device;
    if (q.kind == S_HELLOALL)
        return q;
    q.reg = s_line_byte(line, 1);
    if (s_is_write(q.kind))
        q.value = s_line_value(line, 2);
    if (s_is_read(q.kind))
        for (unsigned j = 0; j < before; j++)
            values[j] = s_line_value(line, 2 + 2 * (before - 1 - j));
    if (q.alive)
        q.seed = (s_line_byte(line, s_pec_place(q.kind, before) + 1) + 256 - before)
               % 256;
    return q;
}

/* The bytes of a command as the devices below this one leave it. */
static size_t put_left(struct s_question q, unsigned device,
                       const uint16_t *values, uint8_t *bytes)
{
    size_t length = s_put_command(q, bytes);
    for (unsigned j = 0; j < acting_below(q.kind, device); j++)
        act(q, bytes, length, j, s_is_read(q.kind) ? values[j] : 0);
    return length;
}

static int is_line_of(const uint8_t *bytes, size_t length,
                      const uint16_t *line, size_t words)
{
    uint16_t expected[S_MOST_WORDS];
    if (words != s_line_words(length))
        return 0;
    s_put_line(bytes, length, expected);
    for (size_t i = 0; i < words; i++)
        if (line[i] != expected[i])
            return 0;
    return 1;
}

/* Whether a line is a command of this shape as left for this device; then
 * its question and bytes. */
static int is_left(struct s_question shape, unsigned device,
                   const uint16_t *line, size_t words,
                   struct s_question *q, uint8_t *bytes)
{
    uint16_t values[S_MOST_DEVICES];
    if (words != s_line_words(s_byte_count(shape)))
        return 0;
    *q = supposed(shape, device, line, values);
    return is_line_of(bytes, put_left(*q, device, values, bytes), line, words);
}

/* Every kind, alive off and on: the first bytes and the lengths keep them
 * apart, so at most one fits. */
static int is_for_device(unsigned n, unsigned device,
                         const uint16_t *line, size_t words,
                         struct s_question *q, uint8_t *bytes)
{
    for (unsigned kind = 0; kind <= 4; kind++)
        for (unsigned alive = 0; alive <= 1; alive++) {
            struct s_question shape = { .kind = kind, .n = n, .alive = alive };
            if (is_left(shape, device, line, words, q, bytes))
                return 1;
        }
    return 0;
}

int s_step(unsigned n, unsigned device, uint16_t *memory, size_t memory_words,
           const uint16_t *line, size_t words, uint16_t *out, size_t room)
{
    struct s_question q;
    uint8_t bytes[S_MOST_BYTES];
    if (!s_is_twin(n, memory_words) || device >= n)
        return S_TWIN;
    if (room < words)
        return S_ROOM;
    for (size_t i = 0; i < words; i++)
        out[i] = line[i];
    if (!is_for_device(n, device, line, words, &q, bytes))
        return S_ACCEPTED;
    uint16_t *own = memory + S_REGISTERS * device + q.reg;
    act(q, bytes, s_byte_count(q), acting_below(q.kind, device), *own);
    s_put_line(bytes, s_byte_count(q), out);
    if (s_is_write(q.kind) && q.reg != 0x00)
        *own = (uint16_t)q.value;
    return S_ACCEPTED;
}
