/*
 * host_distance.c: turned line bits of right READALL answers.
 *
 * A line bit is one of bits 0 to 11 of a word. Up to two turned bits are tried
 * in every way for some chains; three to five (three from 15 devices on) at
 * random. All must be refused. The document's four bits at 15 devices, where
 * this ends, must be accepted.
 */
#include "host.h"

#include <string.h>

static struct s_question readall(unsigned n)
{
    struct s_question q = any_question(BMC_READALL);
    q.n = n;
    q.alive = 1;
    return q;
}

/* ---- Turning bits ------------------------------------------------------- */

static unsigned line_bits(const struct reply *r)
{
    return 12 * (unsigned)r->word_count;
}

/* Line bit i of the lent line: bit i mod 12 of word i / 12. */
static void turn(struct reply *r, unsigned i)
{
    unsigned word = i / 12, bit = i % 12;
    r->line[2 * word + bit / 8] ^= (uint8_t)(1u << bit % 8);
}

static void must_refuse(const struct reply *r)
{
    must(BMC_NUMBER(compare_read(r)) != BMC_ACCEPTED, "damage was accepted");
}

/* ---- Every way ---------------------------------------------------------- */

static void try_each_bit(struct reply *r)
{
    for (unsigned i = 0; i < line_bits(r); i++) {
        turn(r, i);
        must_refuse(r);
        turn(r, i);
    }
}

/* Every pair, or one in so many. */
static void try_each_pair(struct reply *r)
{
    unsigned at = 0;
    for (unsigned i = 0; i < line_bits(r); i++) {
        turn(r, i);
        for (unsigned j = i + 1; j < line_bits(r); j++)
            if (at++ % share == 0) {
                turn(r, j);
                must_refuse(r);
                turn(r, j);
            }
        turn(r, i);
    }
}

static void try_chain(unsigned n)
{
    static struct reply r;
    put_right_answer(&r, readall(n));
    must(BMC_NUMBER(compare_read(&r)) == BMC_ACCEPTED, "a right answer was refused");
    try_each_bit(&r);
    try_each_pair(&r);
}

/* ---- Nibble bits -------------------------------------------------------- */

/* Bit b of byte i stands twice on the line, the second time as its complement:
 * turning both leaves every character good. */
static void turn_byte_bit(struct reply *r, unsigned i, unsigned b)
{
    unsigned word = 1 + 2 * i + b / 4;
    turn(r, 12 * word + 1 + 2 * (b % 4));
    turn(r, 12 * word + 2 + 2 * (b % 4));
}

/* Two bits of the answer's bytes, four of the line, in every way: only the PEC
 * can tell, and up to 14 devices it does. */
static void try_each_byte_pair(unsigned n)
{
    static struct reply r;
    put_right_answer(&r, readall(n));
    unsigned bits = 8 * (unsigned)r.byte_count;
    for (unsigned i = 0; i < bits; i++) {
        turn_byte_bit(&r, i / 8, i % 8);
        for (unsigned j = i + 1; j < bits; j++) {
            turn_byte_bit(&r, j / 8, j % 8);
            must_refuse(&r);
            turn_byte_bit(&r, j / 8, j % 8);
        }
        turn_byte_bit(&r, i / 8, i % 8);
    }
}

/* ---- At random ---------------------------------------------------------- */

static int holds(const unsigned *list, unsigned count, unsigned figure)
{
    for (unsigned i = 0; i < count; i++)
        if (list[i] == figure)
            return 1;
    return 0;
}

/* Different bits, some of them close together. */
static void turn_some(struct reply *r, unsigned count)
{
    unsigned chosen[5], close = any(2);
    for (unsigned i = 0; i < count; i++) {
        unsigned bit = any(line_bits(r));
        if (close && i > 0)
            bit = chosen[i - 1] / 12 * 12 + any(12);
        if (holds(chosen, i, bit)) {
            i--;
            continue;
        }
        chosen[i] = bit;
        turn(r, bit);
    }
}

static void try_some(unsigned n, unsigned count)
{
    static struct reply r;
    put_right_answer(&r, readall(n));
    turn_some(&r, count);
    must_refuse(&r);
}

/* ---- Where it ends ------------------------------------------------------ */

/* Bit 0 of the first value byte and bit 7 of the PEC, 15 devices. */
static void try_four_bits(void)
{
    static struct reply r;
    struct s_question q = readall(15);
    q.alive = any(2);
    put_right_answer(&r, q);
    turn_byte_bit(&r, 2, 0);
    turn_byte_bit(&r, (unsigned)pec_place(&r), 7);
    must(BMC_NUMBER(compare_read(&r)) == BMC_ACCEPTED, "the four bits were refused");
    must(read_values()[2 * 14] == ((r.values[14] & 255) ^ 1), "not the turned value");
    must(read_values()[2 * 14 + 1] == r.values[14] >> 8, "not the turned value");
}

/* ---- The part ----------------------------------------------------------- */

enum { SOME = 200000, FOUR_BITS = 1000 };

void try_distance(void)
{
    static const unsigned chains[] = { 1, 2, 14, 15, 32 };
    for (size_t i = 0; i < sizeof chains / sizeof chains[0]; i++)
        try_chain(chains[i]);
    try_each_byte_pair(14);
    for (unsigned long i = 0; i < rounds(SOME); i++)
        try_some(between(1, 14), between(3, 5));
    for (unsigned long i = 0; i < rounds(SOME); i++)
        try_some(between(15, 32), 3);
    for (unsigned long i = 0; i < rounds(FOUR_BITS); i++)
        try_four_bits();
}
