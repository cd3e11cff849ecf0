/*
 * host_answers.c: questions and their right answers, built from the table
 * 'Commands and answers' of document 01, byte by byte.
 *
 * Nothing here asks the library or the reference's reader: a right answer is
 * right because the table says so.
 */
#include "host.h"
#include "second/pec.h"

#include <string.h>

/* ---- Questions ---------------------------------------------------------- */

int is_read(unsigned kind)
{
    return kind == BMC_READALL || kind == BMC_READDEVICE;
}

int is_write(unsigned kind)
{
    return kind == BMC_WRITEALL || kind == BMC_WRITEDEVICE;
}

static int names_one(unsigned kind)
{
    return kind == BMC_WRITEDEVICE || kind == BMC_READDEVICE;
}

size_t values_of(struct s_question q)
{
    if (!is_read(q.kind))
        return 0;
    return q.kind == BMC_READALL ? q.n : 1;
}

size_t words_of(struct s_question q)
{
    if (q.kind == BMC_HELLOALL)
        return 8;
    if (is_write(q.kind))
        return 12 + 2 * q.alive;
    return 10 + 4 * values_of(q) + 2 * q.alive;
}

/* Good, and every field it does not use random. */
struct s_question any_question(unsigned kind)
{
    struct s_question q = {
        .kind = kind, .n = between(1, 32), .alive = any(2), .reg = any(256),
        .value = any(65536), .device = any(256), .seed = any(256)
    };
    if (kind == BMC_HELLOALL)
        q.n = any(256);
    if (names_one(kind))
        q.device = any(q.n);
    return q;
}

/* One rule of row QUESTION broken. */
struct s_question bad_question(void)
{
    struct s_question q = any_question(between(1, 4));
    switch (any(5)) {
    case 0:
        q.kind = between(5, 255);
        break;
    case 1:
        q.alive = between(2, 255);
        break;
    case 2:
        q.n = 0;
        break;
    case 3:
        q.n = any(4) == 0 ? 33 : between(33, 255);
        break;
    default:
        q.kind = any(2) == 0 ? BMC_WRITEDEVICE : BMC_READDEVICE;
        q.device = any(4) == 0 ? q.n : between(q.n, 255);
    }
    return q;
}

/* ---- The answer's bytes ------------------------------------------------- */

static uint8_t first_byte(struct s_question q)
{
    static const uint8_t bytes[] = { 0x57, 0x02, 0x04, 0x03, 0x05 };
    unsigned address = names_one(q.kind) ? q.device : 0;
    return (uint8_t)(bytes[q.kind] + 8 * address);
}

static void put_byte(struct reply *r, unsigned byte)
{
    r->bytes[r->byte_count++] = (uint8_t)byte;
}

static void put_word(struct reply *r, unsigned word)
{
    put_byte(r, word & 255);
    put_byte(r, word >> 8);
}

/* The PEC covers every byte before it and is followed by the alive byte only. */
size_t pec_place(const struct reply *r)
{
    return r->byte_count - 1 - r->q.alive;
}

void put_pec(struct reply *r)
{
    r->bytes[pec_place(r)] = (uint8_t)s_pec(r->bytes, pec_place(r));
}

/* What stands between the register byte and the PEC. */
static void put_content(struct reply *r)
{
    if (is_write(r->q.kind)) {
        put_word(r, r->q.value);
        return;
    }
    for (size_t address = values_of(r->q); address-- > 0;)
        put_word(r, r->values[address]);
    put_byte(r, 0x00);
}

void put_right_bytes(struct reply *r)
{
    r->byte_count = 0;
    put_byte(r, first_byte(r->q));
    if (r->q.kind == BMC_HELLOALL) {
        put_byte(r, 0x00);
        put_byte(r, between(1, 32));
        return;
    }
    put_byte(r, r->q.reg);
    put_content(r);
    put_byte(r, 0x00);
    if (r->q.alive)
        put_byte(r, (r->q.seed + (names_one(r->q.kind) ? 1 : r->q.n)) % 256);
    put_pec(r);
}

/* ---- The line ----------------------------------------------------------- */

uint16_t character_of(unsigned data)
{
    unsigned parity = 0;
    for (unsigned bit = 0; bit < 8; bit++)
        parity ^= data >> bit & 1;
    return (uint16_t)(0xC00 | parity << 9 | data << 1);
}

static const uint16_t nibbles[16] = {
    0xD54, 0xD52, 0xD4C, 0xD4A, 0xD34, 0xD32, 0xD2C, 0xD2A,
    0xCD4, 0xCD2, 0xCCC, 0xCCA, 0xCB4, 0xCB2, 0xCAC, 0xCAA
};

uint16_t nibble_word(unsigned nibble)
{
    return nibbles[nibble & 15];
}

void put_words(struct reply *r)
{
    size_t at = 0;
    r->words[at++] = 0xE2A;
    for (size_t i = 0; i < r->byte_count; i++) {
        r->words[at++] = nibbles[r->bytes[i] & 15];
        r->words[at++] = nibbles[r->bytes[i] >> 4];
    }
    r->words[at++] = 0xEA8;
    r->word_count = at;
}

void put_slice(const uint16_t *words, size_t count, uint8_t *to)
{
    for (size_t i = 0; i < count; i++) {
        to[2 * i] = (uint8_t)(words[i] & 255);
        to[2 * i + 1] = (uint8_t)(words[i] >> 8);
    }
}

void put_line(struct reply *r)
{
    put_slice(r->words, r->word_count, r->line);
    r->line_bytes = 2 * r->word_count;
}

/* ---- Whole answers ------------------------------------------------------ */

/* Enough room, often exactly. */
size_t any_room(size_t words)
{
    return any(2) == 0 ? 2 * words : 2 * words + any(24);
}

void set_question_of(struct reply *r, struct s_question q)
{
    r->q = q;
    any_bytes((uint8_t *)r->values, sizeof r->values);
    r->room = any_room(values_of(q));
}

void put_right_answer(struct reply *r, struct s_question q)
{
    set_question_of(r, q);
    put_right_bytes(r);
    put_words(r);
    put_line(r);
}
