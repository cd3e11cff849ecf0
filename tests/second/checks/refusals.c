/*
 * refusals.c: document 01, 'Turned away': of all that is wrong with an answer,
 * the lowest row is given.
 */
#include "checks.h"

#include "second/reader.h"

/* A right answer's bytes with the byte rows in 'faults' broken. */
static size_t faulty_bytes(struct s_question q, unsigned faults, uint8_t *bytes)
{
    size_t n = 0;
    const uint8_t firsts[] = { 0x57, 0x02, 0x04, 0x03, 0x05 };
    unsigned own = q.kind == 2 || q.kind == 4;
    unsigned counts = own ? 1 : q.n;
    bytes[n++] = (uint8_t)(firsts[q.kind] + (own ? 8 * q.device : 0));
    bytes[n++] = (uint8_t)((q.kind == 0 ? 0 : q.reg) ^ (faults >> 7 & 1));
    if (q.kind == 0) {
        bytes[n++] = (uint8_t)(faults >> 11 & 1 ? 33 : 7);
        return n;
    }
    for (unsigned i = 0; q.kind >= 3 && i < 2 * counts; i++)
        bytes[n++] = (uint8_t)(17 * i);
    if (q.kind <= 2) {
        bytes[n++] = (uint8_t)q.value;
        bytes[n++] = (uint8_t)(q.value >> 8);
    } else {
        bytes[n++] = (uint8_t)(faults >> 10 & 1 ? 0x20 : 0x00);
    }
    n = close_bytes(bytes, n, q.alive, q.seed + counts + (faults >> 9 & 1));
    bytes[n - 1 - q.alive] ^= (uint8_t)(faults >> 8 & 1);
    return n;
}

/* Which rows a question can meet at all. */
static unsigned rows_of(struct s_question q)
{
    unsigned rows = 1u << 1 | 1u << 3 | 1u << 4 | 1u << 5 | 1u << 6 | 1u << 7;
    if (q.kind == 0)
        return rows | 1u << 11;
    rows |= 1u << 8;
    if (q.alive)
        rows |= 1u << 9;
    if (q.kind >= 3)
        rows |= 1u << 2 | 1u << 10;
    return rows;
}

static int lowest(unsigned faults)
{
    for (int row = 1; row <= 11; row++)
        if (faults >> row & 1)
            return row;
    return 0;
}

static void check_answer(struct s_answer a, unsigned faults)
{
    int row = lowest(faults);
    check(a.number == row, "the lowest broken row");
    check(a.place == (row == 4 ? 4u : row == 6 ? 2u : 0u), "place");
    check(a.byte == (row == 10 ? 0x20u : row == 11 ? 33u : 0u), "byte");
    check(row == 0 || (a.count == 0 && a.values == 0), "refusal has no reading");
}

static void break_line(unsigned faults, uint16_t *line)
{
    if (faults >> 5 & 1)
        line[0] = spell_nibble(3);
    if (faults >> 6 & 1)
        line[2] = line[5] = 0xE2A;
    if (faults >> 4 & 1) {
        line[4] |= 0x1000;
        line[6] ^= 0x0002;
    }
}

static void refuse_with(struct s_question q, unsigned faults)
{
    uint8_t bytes[80];
    uint16_t line[MOST + 1] = { 0 }, out[40];
    size_t words = wire(bytes, faulty_bytes(q, faults, bytes), line);
    size_t room = q.kind == 3 ? q.n : q.kind == 4 ? 1 : 0;
    break_line(faults, line);
    if (faults >> 3 & 1)
        words++;
    if (faults >> 2 & 1)
        room--;
    if (faults >> 1 & 1)
        q.alive = 2;
    fill_words(out, 40);
    check_answer(s_read(q, line, words, out, room), faults);
    check(are_marked(out, 40) == (lowest(faults) != 0 || q.kind < 3), "lent memory");
}

/* Every set of broken rows: the lowest is given. */
static void check_order(void)
{
    const unsigned counts[] = { 1, 2, 15, 32 };
    for (unsigned kind = 0; kind <= 4; kind++)
        for (unsigned alive = 0; alive <= 1; alive++)
            for (unsigned i = 0; i < 4; i++) {
                struct s_question q = any_question(kind, counts[i], alive);
                for (unsigned faults = 0; faults < 1u << 12; faults++)
                    if ((faults & ~rows_of(q)) == 0)
                        refuse_with(q, faults);
            }
}

/* Row 7: each bit of each byte that was asked for, under a right PEC. */
static void check_echo(void)
{
    for (unsigned kind = 0; kind <= 4; kind++)
        for (unsigned alive = 0; alive <= 1; alive++)
            for (unsigned bit = 0; bit < (kind == 1 || kind == 2 ? 32 : 16); bit++) {
                struct s_question q = any_question(kind, 1 + any(32), alive);
                uint8_t bytes[80];
                uint16_t line[MOST];
                size_t n = faulty_bytes(q, 0, bytes), pec = n - 1 - alive;
                bytes[bit / 8] ^= (uint8_t)(1u << bit % 8);
                if (kind != 0)
                    bytes[pec] = (uint8_t)divide(bytes, pec);
                check(read_number(q, line, wire(bytes, n, line)) == 7, "ECHO");
            }
}

void check_refusals(void)
{
    check_order();
    check_echo();
}
