/*
 * plain.c: reader, command writer and certificate in ordinary C.
 *
 * The baseline of the benchmark: tables for the PEC and for the nibbles both
 * ways, one pass over a good line, no memory but the caller's and the stack.
 * A line is decoded and its PEC worked in the same pass; only where a word is
 * no nibble is it looked at more closely.
 */
#include "plain.h"

#include <string.h>

enum {
    ACCEPTED, QUESTION, ROOM, LENGTH, CHARACTER, FRAME, MANCHESTER, ECHO, PEC,
    ALIVE, CHECK, COUNT, FILE_REFUSED = 14
};

enum { HELLOALL, WRITEALL, WRITEDEVICE, READALL, READDEVICE };

enum {
    PREAMBLE = 0xE2A, STOP = 0xEA8, MOST_DEVICES = 32, MOST_BYTES = 69,
    MOST_WORDS = 140, MOST_FILE = 65536, HEADER = 7, MOST_ENTRIES = 8191,
    ALL_BITS = 0xFFFF
};

/* ---- Tables ------------------------------------------------------------- */

static const uint8_t pec_table[256] = {
    0x00, 0x3E, 0x7C, 0x42, 0xF8, 0xC6, 0x84, 0xBA, 0x95, 0xAB, 0xE9, 0xD7,
    0x6D, 0x53, 0x11, 0x2F, 0x4F, 0x71, 0x33, 0x0D, 0xB7, 0x89, 0xCB, 0xF5,
    0xDA, 0xE4, 0xA6, 0x98, 0x22, 0x1C, 0x5E, 0x60, 0x9E, 0xA0, 0xE2, 0xDC,
    0x66, 0x58, 0x1A, 0x24, 0x0B, 0x35, 0x77, 0x49, 0xF3, 0xCD, 0x8F, 0xB1,
    0xD1, 0xEF, 0xAD, 0x93, 0x29, 0x17, 0x55, 0x6B, 0x44, 0x7A, 0x38, 0x06,
    0xBC, 0x82, 0xC0, 0xFE, 0x59, 0x67, 0x25, 0x1B, 0xA1, 0x9F, 0xDD, 0xE3,
    0xCC, 0xF2, 0xB0, 0x8E, 0x34, 0x0A, 0x48, 0x76, 0x16, 0x28, 0x6A, 0x54,
    0xEE, 0xD0, 0x92, 0xAC, 0x83, 0xBD, 0xFF, 0xC1, 0x7B, 0x45, 0x07, 0x39,
    0xC7, 0xF9, 0xBB, 0x85, 0x3F, 0x01, 0x43, 0x7D, 0x52, 0x6C, 0x2E, 0x10,
    0xAA, 0x94, 0xD6, 0xE8, 0x88, 0xB6, 0xF4, 0xCA, 0x70, 0x4E, 0x0C, 0x32,
    0x1D, 0x23, 0x61, 0x5F, 0xE5, 0xDB, 0x99, 0xA7, 0xB2, 0x8C, 0xCE, 0xF0,
    0x4A, 0x74, 0x36, 0x08, 0x27, 0x19, 0x5B, 0x65, 0xDF, 0xE1, 0xA3, 0x9D,
    0xFD, 0xC3, 0x81, 0xBF, 0x05, 0x3B, 0x79, 0x47, 0x68, 0x56, 0x14, 0x2A,
    0x90, 0xAE, 0xEC, 0xD2, 0x2C, 0x12, 0x50, 0x6E, 0xD4, 0xEA, 0xA8, 0x96,
    0xB9, 0x87, 0xC5, 0xFB, 0x41, 0x7F, 0x3D, 0x03, 0x63, 0x5D, 0x1F, 0x21,
    0x9B, 0xA5, 0xE7, 0xD9, 0xF6, 0xC8, 0x8A, 0xB4, 0x0E, 0x30, 0x72, 0x4C,
    0xEB, 0xD5, 0x97, 0xA9, 0x13, 0x2D, 0x6F, 0x51, 0x7E, 0x40, 0x02, 0x3C,
    0x86, 0xB8, 0xFA, 0xC4, 0xA4, 0x9A, 0xD8, 0xE6, 0x5C, 0x62, 0x20, 0x1E,
    0x31, 0x0F, 0x4D, 0x73, 0xC9, 0xF7, 0xB5, 0x8B, 0x75, 0x4B, 0x09, 0x37,
    0x8D, 0xB3, 0xF1, 0xCF, 0xE0, 0xDE, 0x9C, 0xA2, 0x18, 0x26, 0x64, 0x5A,
    0x3A, 0x04, 0x46, 0x78, 0xC2, 0xFC, 0xBE, 0x80, 0xAF, 0x91, 0xD3, 0xED,
    0x57, 0x69, 0x2B, 0x15
};

static const uint16_t nibble_words[16] = {
    0xD54, 0xD52, 0xD4C, 0xD4A, 0xD34, 0xD32, 0xD2C, 0xD2A,
    0xCD4, 0xCD2, 0xCCC, 0xCCA, 0xCB4, 0xCB2, 0xCAC, 0xCAA
};

/* By the eight data bits: the nibble and 10h, or 0 where there is none. */
static const uint8_t nibble_of_data[256] = {
    [0xAA] = 0x10, [0xA9] = 0x11, [0xA6] = 0x12, [0xA5] = 0x13,
    [0x9A] = 0x14, [0x99] = 0x15, [0x96] = 0x16, [0x95] = 0x17,
    [0x6A] = 0x18, [0x69] = 0x19, [0x66] = 0x1A, [0x65] = 0x1B,
    [0x5A] = 0x1C, [0x59] = 0x1D, [0x56] = 0x1E, [0x55] = 0x1F
};

uint32_t plain_pec(const uint8_t *bytes, size_t n)
{
    uint8_t pec = 0;
    for (size_t i = 0; i < n; i++)
        pec = pec_table[pec ^ bytes[i]];
    return pec;
}

/* ---- Words -------------------------------------------------------------- */

static inline unsigned get_word(const uint8_t *at)
{
    return at[0] | (unsigned)at[1] << 8;
}

static inline uint8_t *put_word(uint8_t *at, unsigned word)
{
    at[0] = (uint8_t)word;
    at[1] = (uint8_t)(word >> 8);
    return at + 2;
}

static inline uint8_t *put_byte(uint8_t *at, unsigned byte)
{
    at = put_word(at, nibble_words[byte & 15]);
    return put_word(at, nibble_words[byte >> 4]);
}

/* The nibble and 10h, or 0. Nibbles have four bits set: their parity bit is 0. */
static inline unsigned get_nibble(unsigned word)
{
    return (word & 0xFE01) == 0x0C00 ? nibble_of_data[word >> 1 & 0xFF] : 0;
}

static int is_character(unsigned word)
{
    unsigned bits = word >> 1 & 0x1FF;
    bits ^= bits >> 8;
    bits ^= bits >> 4;
    return (word & 0xFC01) == 0x0C00 && (0x6996 >> (bits & 15) & 1) == 0;
}

/* ---- Questions ---------------------------------------------------------- */

struct question {
    unsigned kind, n, alive, reg, value, device, seed;
};

static int is_good(const struct question *q)
{
    if (q->kind > READDEVICE || q->alive > 1)
        return 0;
    if (q->kind == HELLOALL)
        return 1;
    if (q->n < 1 || q->n > MOST_DEVICES)
        return 0;
    return (q->kind != WRITEDEVICE && q->kind != READDEVICE) || q->device < q->n;
}

static int is_write(unsigned kind)
{
    return kind == WRITEALL || kind == WRITEDEVICE;
}

static unsigned value_count(const struct question *q)
{
    return q->kind == READALL ? q->n : q->kind == READDEVICE;
}

static unsigned byte_count(const struct question *q)
{
    if (q->kind == HELLOALL)
        return 3;
    if (is_write(q->kind))
        return 5 + q->alive;
    return 4 + 2 * value_count(q) + q->alive;
}

static unsigned first_byte(const struct question *q)
{
    static const uint8_t first[5] = { 0x57, 0x02, 0x04, 0x03, 0x05 };
    if (q->kind == WRITEDEVICE || q->kind == READDEVICE)
        return first[q->kind] + 8 * q->device;
    return first[q->kind];
}

/* ---- The reader --------------------------------------------------------- */

static uint32_t packed(unsigned number, unsigned byte, size_t high)
{
    return number | byte << 8 | (uint32_t)high << 16;
}

/* Why a line is refused whose words below 'from' are good and in order. */
static uint32_t fault(const uint8_t *line, size_t words, size_t from)
{
    for (size_t i = from; i < words; i++)
        if (!is_character(get_word(line + 2 * i)))
            return packed(CHARACTER, 0, i);
    if (get_word(line) != PREAMBLE || get_word(line + 2 * (words - 1)) != STOP)
        return packed(FRAME, 0, 0);
    return packed(MANCHESTER, 0, from);
}

/* The line's bytes, and the PEC of the first 'covered' of them. */
static uint32_t decode(const uint8_t *line, unsigned count, unsigned covered,
                       uint8_t *bytes, uint8_t *pec)
{
    size_t words = 2 * (size_t)count + 2;
    uint8_t remainder = 0;
    if (get_word(line) != PREAMBLE)
        return fault(line, words, 0);
    for (unsigned i = 0; i < count; i++) {
        const uint8_t *at = line + 2 + 4 * (size_t)i;
        unsigned low = get_nibble(get_word(at));
        unsigned high = get_nibble(get_word(at + 2));
        if (low == 0 || high == 0)
            return fault(line, words, 1 + 2 * (size_t)i + (low != 0));
        bytes[i] = (uint8_t)((low & 15) | high << 4);
        if (i < covered)
            remainder = pec_table[remainder ^ bytes[i]];
    }
    if (get_word(line + 2 * (words - 1)) != STOP)
        return fault(line, words, words - 1);
    *pec = remainder;
    return ACCEPTED;
}

static int is_echo(const struct question *q, const uint8_t *bytes)
{
    if (bytes[0] != first_byte(q))
        return 0;
    if (bytes[1] != (q->kind == HELLOALL ? 0 : q->reg))
        return 0;
    return !is_write(q->kind) || get_word(bytes + 2) == q->value;
}

static uint32_t check_hello(const struct question *q, const uint8_t *bytes)
{
    if (!is_echo(q, bytes))
        return ECHO;
    if (bytes[2] == 0 || bytes[2] > MOST_DEVICES)
        return packed(COUNT, bytes[2], 0);
    return packed(ACCEPTED, bytes[2], 0);
}

static uint32_t check_bytes(const struct question *q, const uint8_t *bytes,
                            unsigned covered, uint8_t pec)
{
    unsigned acting = q->kind == WRITEALL || q->kind == READALL ? q->n : 1;
    if (!is_echo(q, bytes))
        return ECHO;
    if (bytes[covered] != pec)
        return PEC;
    if (q->alive && bytes[covered + 1] != (uint8_t)(q->seed + acting))
        return ALIVE;
    if (!is_write(q->kind) && bytes[covered - 1] != 0)
        return packed(CHECK, bytes[covered - 1], 0);
    return packed(ACCEPTED, 0, value_count(q));
}

/* The highest address comes first on the line, the lowest in the output. */
static void put_values(const uint8_t *bytes, unsigned count, uint8_t *out)
{
    const uint8_t *at = bytes + 2 + 2 * (size_t)count;
    for (unsigned i = 0; i < count; i++) {
        at -= 2;
        out[2 * i] = at[0];
        out[2 * i + 1] = at[1];
    }
}

static uint32_t read_answer(const struct question *q,
                            const uint8_t *line, size_t line_bytes,
                            uint8_t *out, size_t out_bytes)
{
    uint8_t bytes[MOST_BYTES], pec = 0;
    if (!is_good(q))
        return QUESTION;
    unsigned values = value_count(q), count = byte_count(q);
    unsigned covered = q->kind == HELLOALL ? 0 : count - 1 - q->alive;
    if (out_bytes / 2 < values)
        return ROOM;
    if (line_bytes != 4 * (size_t)count + 4)
        return LENGTH;
    uint32_t result = decode(line, count, covered, bytes, &pec);
    if (result != ACCEPTED)
        return result;
    if (q->kind == HELLOALL)
        return check_hello(q, bytes);
    result = check_bytes(q, bytes, covered, pec);
    if ((result & 0xFF) == ACCEPTED)
        put_values(bytes, values, out);
    return result;
}

uint32_t plain_read(uint8_t kind, uint8_t n, uint8_t alive, uint8_t reg,
                    uint16_t value, uint8_t device, uint8_t seed,
                    const uint8_t *line, size_t line_bytes,
                    uint8_t *out, size_t out_bytes)
{
    const struct question q = { kind, n, alive, reg, value, device, seed };
    return read_answer(&q, line, line_bytes, out, out_bytes);
}

/* ---- The command writer ------------------------------------------------- */

/* HELLOALL has no PEC; a read has fill pairs behind it. */
static uint8_t *put_tail(const struct question *q, uint8_t pec, uint8_t *at)
{
    at = put_byte(at, pec);
    if (q->alive)
        at = put_byte(at, q->seed);
    for (unsigned i = value_count(q); i > 0; i--) {
        at = put_byte(at, 0xC2);
        at = put_byte(at, 0xD3);
    }
    return at;
}

static uint32_t write_command(const struct question *q, uint8_t *out)
{
    uint8_t head[4] = { (uint8_t)first_byte(q), 0, 0, 0 };
    unsigned count = is_write(q->kind) ? 4 : 3;
    uint8_t *at = put_word(out, PREAMBLE);
    if (q->kind != HELLOALL)
        head[1] = (uint8_t)q->reg;
    if (is_write(q->kind))
        put_word(head + 2, q->value);
    for (unsigned i = 0; i < count; i++)
        at = put_byte(at, head[i]);
    if (q->kind != HELLOALL)
        at = put_tail(q, (uint8_t)plain_pec(head, count), at);
    at = put_word(at, STOP);
    return packed(ACCEPTED, 0, (size_t)(at - out) / 2);
}

uint32_t plain_command(uint8_t kind, uint8_t n, uint8_t alive, uint8_t reg,
                       uint16_t value, uint8_t device, uint8_t seed,
                       uint8_t *out, size_t out_bytes)
{
    const struct question q = { kind, n, alive, reg, value, device, seed };
    if (!is_good(&q))
        return QUESTION;
    if (out_bytes / 2 < 2 * (size_t)byte_count(&q) + 2)
        return ROOM;
    return write_command(&q, out);
}

/* ---- The job file ------------------------------------------------------- */

static int is_header(const uint8_t *file, size_t bytes)
{
    return bytes >= HEADER && memcmp(file, "BMC", 3) == 0
        && (file[3] == 1 || file[3] == 2) && file[4] == 0
        && file[5] >= 1 && file[5] <= MOST_DEVICES && file[6] <= 1;
}

/* An entry's fields behind its value are moved on by version 2's mask. */
static unsigned mask_bytes(const uint8_t *file)
{
    return file[3] == 2 ? 2 : 0;
}

static unsigned field_bytes(const uint8_t *file)
{
    return 8 + mask_bytes(file);
}

static struct question entry_question(const uint8_t *file, const uint8_t *e)
{
    const uint8_t *moved = e + mask_bytes(file);
    struct question q = {
        e[0], file[5], file[6], e[1], get_word(e + 2), moved[4], moved[5]
    };
    return q;
}

static unsigned entry_mask(const uint8_t *file, const uint8_t *e)
{
    if (mask_bytes(file) != 0)
        return get_word(e + 4);
    return is_write(e[0]) ? ALL_BITS : 0;
}

static unsigned entry_words(const uint8_t *file, const uint8_t *e)
{
    return get_word(e + mask_bytes(file) + 6);
}

static size_t entry_bytes(const uint8_t *file, const uint8_t *e)
{
    return field_bytes(file) + 2 * (size_t)entry_words(file, e);
}

static int are_unused_zero(const struct question *q)
{
    if (q->kind == HELLOALL)
        return q->reg == 0 && q->value == 0 && q->device == 0 && q->seed == 0;
    if (!q->alive && q->seed != 0)
        return 0;
    if (!is_write(q->kind) && q->value != 0)
        return 0;
    return q->kind == WRITEDEVICE || q->kind == READDEVICE || q->device == 0;
}

static int is_entry(const uint8_t *file, const uint8_t *e, size_t left)
{
    if (left < field_bytes(file) || e[0] > READDEVICE
        || entry_words(file, e) > MOST_WORDS)
        return 0;
    struct question q = entry_question(file, e);
    return entry_bytes(file, e) <= left && are_unused_zero(&q)
        && is_write(q.kind) == (entry_mask(file, e) != 0);
}

static int is_job_file(const uint8_t *file, size_t bytes)
{
    if (bytes > MOST_FILE || !is_header(file, bytes))
        return 0;
    for (size_t at = HEADER; at < bytes; at += entry_bytes(file, file + at))
        if (!is_entry(file, file + at, bytes - at))
            return 0;
    return 1;
}

/* ---- The certificate ---------------------------------------------------- */

/* The last good write so far with the bits it is to show, a letter for each
 * device it covers, and the number of each entry. */
struct standing {
    int written;
    struct question write;
    unsigned mask;
    char letters[MOST_DEVICES];
    size_t entries;
    uint8_t numbers[MOST_ENTRIES];
};

static void note_write(struct standing *s, const struct question *q, unsigned mask)
{
    if (!is_good(q))
        return;
    s->written = 1;
    s->write = *q;
    s->mask = mask;
    memset(s->letters, 'U', sizeof s->letters);
}

static void note_read(struct standing *s, const struct question *q, const uint8_t *values)
{
    unsigned first = q->kind == READALL ? 0 : q->device;
    if (!s->written || q->reg != s->write.reg)
        return;
    for (unsigned i = 0; i < value_count(q); i++) {
        unsigned differing = get_word(values + 2 * i) ^ s->write.value;
        s->letters[first + i] = (differing & s->mask) == 0 ? 'S' : 'O';
    }
}

static void note_entry(struct standing *s, const uint8_t *file, const uint8_t *e)
{
    uint8_t values[2 * MOST_DEVICES];
    struct question q = entry_question(file, e);
    size_t words = entry_words(file, e);
    unsigned number = read_answer(&q, e + field_bytes(file), 2 * words,
                                  values, sizeof values) & 0xFF;
    s->numbers[s->entries++] = (uint8_t)number;
    if (is_write(q.kind))
        note_write(s, &q, entry_mask(file, e));
    else if (number == ACCEPTED && q.kind != HELLOALL)
        note_read(s, &q, values);
}

static int covers(const struct question *q, unsigned device)
{
    return q->kind == WRITEALL || device == q->device;
}

static size_t digits(size_t figure)
{
    return figure < 10 ? 1 : figure < 100 ? 2 : figure < 1000 ? 3 : 4;
}

static size_t text_length(const struct standing *s, unsigned n)
{
    size_t length = 6 + digits(n) + 1;
    for (size_t i = 0; i < s->entries; i++)
        length += 2 + digits(i + 1) + 1 + digits(s->numbers[i]) + 1;
    for (unsigned device = 0; s->written && device < n; device++)
        if (covers(&s->write, device))
            length += 2 + digits(device) + 3;
    return length;
}

static uint8_t *put_text(uint8_t *at, const char *text)
{
    while (*text != '\0')
        *at++ = (uint8_t)*text++;
    return at;
}

static uint8_t *put_figure(uint8_t *at, size_t figure)
{
    uint8_t *end = at + digits(figure);
    for (uint8_t *digit = end; digit > at; figure /= 10)
        *--digit = (uint8_t)('0' + figure % 10);
    return end;
}

static void write_text(const struct standing *s, unsigned version, unsigned n,
                       uint8_t *at)
{
    at = put_figure(put_text(at, "BMC "), version);
    *at++ = ' ';
    at = put_figure(at, n);
    *at++ = '\n';
    for (size_t i = 0; i < s->entries; i++) {
        at = put_figure(put_text(at, "E "), i + 1);
        *at++ = ' ';
        at = put_figure(at, s->numbers[i]);
        *at++ = '\n';
    }
    for (unsigned device = 0; s->written && device < n; device++)
        if (covers(&s->write, device)) {
            at = put_figure(put_text(at, "D "), device);
            *at++ = ' ';
            *at++ = (uint8_t)s->letters[device];
            *at++ = '\n';
        }
}

uint32_t plain_certificate(const uint8_t *file, size_t file_bytes,
                           uint8_t *text, size_t text_bytes)
{
    struct standing s;
    if (!is_job_file(file, file_bytes))
        return FILE_REFUSED;
    s.written = 0;
    s.entries = 0;
    for (size_t at = HEADER; at < file_bytes; at += entry_bytes(file, file + at))
        note_entry(&s, file, file + at);
    size_t length = text_length(&s, file[5]);
    if (length > text_bytes)
        return ROOM;
    write_text(&s, file[3], file[5], text);
    return (uint32_t)length << 8;
}
